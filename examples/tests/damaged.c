/*
 * Checks damaged images of stores, from four threads at once in one process: damaged COUNT FOLDER STORE..
 * Prints a line for each: its number, the status and the line of the answer. Every hundredth is written to FOLDER, too, as NUMBER.pst.
 */
#include <pst.h>
#include <pthread.h>
#include <stdatomic.h>
#include <stdio.h>
#include <stdlib.h>
#include <string.h>

enum { THREADS = 4, KEPT = 100 };

struct image {
    unsigned char *bytes;
    size_t length;
};

static struct image *stores;
static size_t stores_count, count;
static const char *folder;
static struct pst_answer *answers;
static int *statuses;
static atomic_size_t next;

static void fail(const char *why)
{
    perror(why);
    exit(3);
}

static struct image read_file(const char *path)
{
    FILE *file = fopen(path, "rb");
    struct image image = {NULL, 0};

    if (file == NULL || fseek(file, 0, SEEK_END) != 0)
        fail(path);
    image.length = (size_t)ftell(file);
    image.bytes = malloc(image.length + 1);
    rewind(file);
    if (image.bytes == NULL || fread(image.bytes, 1, image.length, file) != image.length)
        fail(path);
    fclose(file);
    return image;
}

static unsigned long long random_next(unsigned long long *state)
{
    *state = *state * 6364136223846793005u + 1442695040888963407u;
    return *state >> 33;
}

/* A copy of a store with up to eight bytes changed, and of each seventh only a front. */
static struct image damaged(size_t number)
{
    const struct image *store = &stores[number % stores_count];
    struct image image = {malloc(store->length + 1), store->length};
    unsigned long long state = number;

    if (image.bytes == NULL)
        fail("memory");
    memcpy(image.bytes, store->bytes, store->length);
    for (size_t n = random_next(&state) % 8 + 1; n > 0 && image.length > 0; n--) {
        size_t at = random_next(&state) % image.length;
        image.bytes[at] = (unsigned char)random_next(&state);
    }
    if (number % 7 == 6 && image.length > 0)
        image.length = random_next(&state) % image.length;
    return image;
}

static void keep(size_t number, const struct image *image)
{
    char path[4096];

    snprintf(path, sizeof path, "%s/%zu.pst", folder, number);
    FILE *file = fopen(path, "wb");
    if (file == NULL || fwrite(image->bytes, 1, image->length, file) != image->length || fclose(file) != 0)
        fail(path);
}

static void *work(void *nothing)
{
    static const char words[] = "check\0--decode\0-";

    for (size_t n; (n = atomic_fetch_add(&next, 1)) < count;) {
        struct image image = damaged(n);
        if (n % KEPT == 0)
            keep(n, &image);
        statuses[n] = pst_answer(words, sizeof words, image.bytes, image.length, &answers[n]);
        free(image.bytes);
    }
    return nothing;
}

static void put(size_t number)
{
    const struct pst_text *said = statuses[number] == PST_YES ? &answers[number].text : &answers[number].line;

    printf("%zu %d ", number, statuses[number]);
    fwrite(said->at, 1, said->length, stdout);
    pst_free(&answers[number]);
}

int main(int words, char **word)
{
    pthread_t threads[THREADS];

    if (words < 4)
        return 2;
    count = strtoul(word[1], NULL, 10);
    folder = word[2];
    stores_count = (size_t)words - 3;
    stores = calloc(stores_count, sizeof *stores);
    answers = calloc(count, sizeof *answers);
    statuses = calloc(count, sizeof *statuses);
    if (stores == NULL || answers == NULL || statuses == NULL)
        fail("memory");
    for (size_t n = 0; n < stores_count; n++)
        stores[n] = read_file(word[n + 3]);

    for (int n = 0; n < THREADS; n++)
        if (pthread_create(&threads[n], NULL, work, NULL) != 0)
            fail("thread");
    for (int n = 0; n < THREADS; n++)
        pthread_join(threads[n], NULL);
    for (size_t n = 0; n < count; n++)
        put(n);

    for (size_t n = 0; n < stores_count; n++)
        free(stores[n].bytes);
    free(stores);
    free(answers);
    free(statuses);
    return fflush(stdout) == 0 ? 0 : 3;
}
