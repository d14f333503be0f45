/*
 * Makes a call again and again, with the first, the second and each other request for memory refused, alone and with all behind it:
 * refused STORE WORD.. Linked with -Wl,--wrap for malloc, realloc and free. Each answer has to be that of a call with all memory, or
 * status 4 and two empty texts, and no block may stay. Prints how many requests there were.
 */
#include "../c/store.h"

#include <stdio.h>
#include <stdlib.h>
#include <string.h>

void *__real_malloc(size_t size);
void *__real_realloc(void *at, size_t size);
void __real_free(void *at);
void *__wrap_malloc(size_t size);
void *__wrap_realloc(void *at, size_t size);
void __wrap_free(void *at);

static long asked, refused_at, live;
static bool all_behind;

static bool is_refused(void)
{
    asked++;
    return refused_at > 0 && (asked == refused_at || (all_behind && asked > refused_at));
}

void *__wrap_malloc(size_t size)
{
    void *at = is_refused() ? NULL : __real_malloc(size);

    live += at != NULL;
    return at;
}

void *__wrap_realloc(void *at, size_t size)
{
    return is_refused() ? NULL : __real_realloc(at, size);
}

void __wrap_free(void *at)
{
    live -= at != NULL;
    __real_free(at);
}

static bool same(const struct pst_text *a, const struct pst_text *b)
{
    return a->length == b->length && (a->length == 0 || memcmp(a->at, b->at, a->length) == 0);
}

static void fail(const char *why)
{
    printf("request %ld%s: %s\n", refused_at, all_behind ? " and all behind it" : "", why);
    exit(1);
}

/* Makes the call with a request refused. False where it made fewer. */
static bool try(const struct store *store, const char *ended, size_t length, int wanted, const struct pst_answer *whole)
{
    struct pst_answer answer;

    asked = live = 0;
    int status = pst_answer(ended, length, store->bytes, store->length, &answer);
    bool reached = asked >= refused_at;
    if (status == PST_MEMORY && (answer.text.length > 0 || answer.line.length > 0))
        fail("a text with status 4");
    if (status != PST_MEMORY && (status != wanted || !same(&answer.text, &whole->text) || !same(&answer.line, &whole->line)))
        fail("another answer");
    if (status == PST_MEMORY && !reached)
        fail("status 4 with all memory");
    pst_free(&answer);
    if (live != 0)
        fail("a block stays");
    return reached;
}

int main(int count, char **words)
{
    struct store store;
    struct pst_answer whole;
    static char ended[4096];
    size_t length = 0;

    if (count < 3 || !store_map(&store, words[1]))
        return 2;
    for (int n = 2; n < count; n++) {
        size_t size = strlen(words[n]) + 1;
        if (length + size > sizeof ended)
            return 2;
        memcpy(ended + length, words[n], size);
        length += size;
    }
    int wanted = pst_answer(ended, length, store.bytes, store.length, &whole);
    long most = 0;
    for (int all = 0; all < 2; all++) {
        all_behind = all == 1;
        for (refused_at = 1; try(&store, ended, length, wanted, &whole);)
            most = refused_at++;
    }
    refused_at = 0;
    pst_free(&whole);
    store_close(&store);
    printf("status %d: %ld requests for memory, each refused\n", wanted, most);
    return 0;
}
