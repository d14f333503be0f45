/*
 * pst.h: what pst_show answers of an Outlook store (.pst), over bytes that the caller has in memory. See docs/LIBRARY.md.
 *
 *     static const char words[] = "check\0-";
 *     struct pst_answer answer;
 *     int status = pst_answer(words, sizeof words, bytes, length, &answer);
 *     fwrite(answer.text.at, 1, answer.text.length, stdout);
 *     fwrite(answer.line.at, 1, answer.line.length, stderr);
 *     pst_free(&answer);
 *
 * Threads: any thread may call, as many at once as there are, over the same bytes too. The library keeps nothing between two
 * calls. It is not to be called from a signal handler, nor in the child of a process with threads before that calls exec.
 *
 * Memory: the words and the bytes are the caller's and are only read, but by pst_decode. Nobody may write to them while a call
 * runs. That holds of a file that is mapped, too: where another program may write to it or make it shorter, nothing is promised
 * of the answer, and a shorter file ends the process (SIGBUS). Read such a file into memory of your own, or lock it.
 * The memory that is taken comes from malloc and realloc of the process, and goes back to its free.
 */
#ifndef PST_H
#define PST_H

#include <stddef.h>
#include <stdint.h>

#ifdef __cplusplus
extern "C" {
#endif

/* The version of this header. A library of the same first two numbers (before 1.0.0; later: of the same first number) is
 * called alike. That of the library is the answer to the word "--version". */
#define PST_VERSION "1.0.4"

/* The statuses, which are those of the program. */
enum pst_status {
    /* The answer is there. Of check: the bytes are a store. */
    PST_YES = 0,
    /* The bytes break a rule of the format, or have no such folder, node or property: the line says which. Of check with
     * --strict also, with an empty line: it is a store, and space in it is lost. Of damage also, with an empty line: something
     * is broken, and the text says what. Of props and value a line "no: .." of kind 17 or 21 to 24 may be of a node alone, that
     * has no properties, and the bytes be a store: check says whether they are. */
    PST_NO = 1,
    /* The words are refused: the line says why. */
    PST_WORDS = 2,
    /* The bytes are more than 17,179,869,184. */
    PST_UNREAD = 3,
    /* Memory was refused. Nothing is said of the bytes; both texts are empty. */
    PST_MEMORY = 4
};

/* A text, in memory that is the caller's until pst_free. It is not ended by a zero byte. */
struct pst_text {
    /* Where it begins. Not to be read where the length is 0. */
    const char *at;
    size_t length;
    /* How many bytes lie there; for pst_free. */
    size_t room;
};

struct pst_answer {
    /* What the program writes on its output: JSON, or the bytes of a value, or plain words. */
    struct pst_text text;
    /* What it says on the error output, in a line with a line feed; empty with status 0. */
    struct pst_text line;
};

/*
 * Answers words over the bytes of a file, and gives the status.
 *
 * words: those of the command line behind the program's name, with "-" in the place of FILE, each ended by a zero byte: of
 *        "props --places - 0x122" they are "props\0--places\0-\0" "0x122" and the zero that ends the literal. The name that
 *        stands for FILE is not looked at, and no file is opened. docs/JSON.md has every answer.
 * bytes: the file's. A null pointer is right where the length is 0, here and of the words.
 * answer: is written in any case, whatever it held. It is to be given to pst_free, once, whatever the status.
 *
 * With --decode an encoded file is decoded in a copy, which the call takes and gives back; pst_decode needs none.
 */
int pst_answer(const char *words, size_t words_length, const void *bytes, size_t length, struct pst_answer *answer);

/*
 * Decodes an encoded file where it lies: makes its plain twin of it, as --decode does. A file that is not encoded stays as it
 * is. No place moves, so that the places of props --places are those of the values in these bytes. Gives PST_YES, or PST_MEMORY
 * with the bytes as they were. Nobody else may read them meanwhile. A file that is mapped privately and for writing
 * (MAP_PRIVATE, PROT_READ | PROT_WRITE) is not changed by it.
 */
int pst_decode(void *bytes, size_t length);

/* Gives back the memory of an answer, and makes both texts empty. An answer that is all zeros is right, too. */
void pst_free(struct pst_answer *answer);

#ifdef __cplusplus
}
#endif

#endif
