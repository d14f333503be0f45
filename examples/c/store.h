/* A store in memory: a file that is mapped privately, so that it can be decoded there, and the file stays as it is. */
#ifndef STORE_H
#define STORE_H

#include <pst.h>
#include <stdbool.h>
#include <stddef.h>

struct store {
    void *bytes;
    size_t length;
};

/* Maps a file, or says why not on the error output. Nobody may write to the file until it is closed. */
bool store_map(struct store *store, const char *path);

/* The same, and decodes it where it is encoded. */
bool store_open(struct store *store, const char *path);

void store_close(struct store *store);

/* Answers words, the last of which is NULL. */
int store_answer(const struct store *store, struct pst_answer *answer, const char *const *words);

/* The same, where anything but an answer ends the program: it says the line, and exits with the status. */
void store_need(const struct store *store, struct pst_answer *answer, const char *const *words);

#endif
