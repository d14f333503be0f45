/*
 * The calls of pst.h, around those of the proved library. Nothing proves what stands here: it looks at no byte of the caller's,
 * puts a pointer in the place of a null one, and gives memory back.
 */
#include "pst.h"

#include <stdlib.h>

/* The exports of crates/pst_c. A slice is a pointer, never null, and then a length. */
uint8_t pst_c_answer(const uint8_t *words, size_t words_length, const uint8_t *bytes, size_t length, struct pst_answer *answer);
uint8_t pst_c_decode(uint8_t *bytes, size_t length);

int pst_answer(const char *words, size_t words_length, const void *bytes, size_t length, struct pst_answer *answer)
{
    static const uint8_t none[1];
    const uint8_t *these = words_length > 0 ? (const uint8_t *)words : none;
    const uint8_t *file = length > 0 ? bytes : none;

    return pst_c_answer(these, words_length, file, length, answer);
}

int pst_decode(void *bytes, size_t length)
{
    return length > 0 ? pst_c_decode(bytes, length) : PST_YES;
}

static void give_back(struct pst_text *text)
{
    if (text->room > 0)
        free((void *)text->at);
    text->at = NULL;
    text->length = 0;
    text->room = 0;
}

void pst_free(struct pst_answer *answer)
{
    give_back(&answer->text);
    give_back(&answer->line);
}
