#include "store.h"

#include <errno.h>
#include <fcntl.h>
#include <stdio.h>
#include <stdlib.h>
#include <string.h>
#include <sys/mman.h>
#include <sys/stat.h>
#include <unistd.h>

static bool map(struct store *store, int file)
{
    struct stat about;

    store->bytes = NULL;
    store->length = 0;
    if (fstat(file, &about) != 0)
        return false;
    if (about.st_size == 0)
        return true;
    void *bytes = mmap(NULL, (size_t)about.st_size, PROT_READ | PROT_WRITE, MAP_PRIVATE, file, 0);
    if (bytes == MAP_FAILED)
        return false;
    store->bytes = bytes;
    store->length = (size_t)about.st_size;
    return true;
}

bool store_map(struct store *store, const char *path)
{
    int file = open(path, O_RDONLY);

    if (file < 0 || !map(store, file)) {
        fprintf(stderr, "%s: %s\n", path, strerror(errno));
        if (file >= 0)
            close(file);
        return false;
    }
    close(file);
    return true;
}

bool store_open(struct store *store, const char *path)
{
    if (!store_map(store, path))
        return false;
    if (pst_decode(store->bytes, store->length) != PST_YES) {
        fprintf(stderr, "%s: out of memory\n", path);
        store_close(store);
        return false;
    }
    return true;
}

void store_close(struct store *store)
{
    if (store->length > 0)
        munmap(store->bytes, store->length);
    store->bytes = NULL;
    store->length = 0;
}

int store_answer(const struct store *store, struct pst_answer *answer, const char *const *words)
{
    size_t length = 0;
    for (const char *const *word = words; *word != NULL; word++)
        length += strlen(*word) + 1;

    char *ended = malloc(length + 1);
    if (ended == NULL) {
        memset(answer, 0, sizeof *answer);
        return PST_MEMORY;
    }
    char *to = ended;
    for (const char *const *word = words; *word != NULL; word++) {
        size_t size = strlen(*word) + 1;
        memcpy(to, *word, size);
        to += size;
    }
    int status = pst_answer(ended, length, store->bytes, store->length, answer);
    free(ended);
    return status;
}

void store_need(const struct store *store, struct pst_answer *answer, const char *const *words)
{
    int status = store_answer(store, answer, words);

    if (status == PST_YES)
        return;
    if (status == PST_MEMORY)
        fputs("out of memory\n", stderr);
    if (answer->line.length > 0)
        fwrite(answer->line.at, 1, answer->line.length, stderr);
    pst_free(answer);
    exit(status);
}
