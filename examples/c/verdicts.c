/*
 * The verdicts of all stores below a folder, in the order of their paths, by as many threads as there are processors:
 * verdicts FOLDER
 */
#define _GNU_SOURCE
#include "store.h"

#include <ftw.h>
#include <pthread.h>
#include <stdatomic.h>
#include <stdio.h>
#include <stdlib.h>
#include <string.h>
#include <sys/stat.h>
#include <unistd.h>

enum { MOST_THREADS = 64 };

struct verdict {
    char *path;
    int status;
    struct pst_answer answer;
};

static struct verdict *verdicts;
static size_t count, room;
static atomic_size_t next;

static int note(const char *path, const struct stat *about, int kind, struct FTW *place)
{
    const char *end = strrchr(path, '.');

    (void)place;
    if (kind != FTW_F || !S_ISREG(about->st_mode) || end == NULL || strcmp(end, ".pst") != 0)
        return 0;
    if (count == room) {
        room = room == 0 ? 64 : 2 * room;
        struct verdict *more = realloc(verdicts, room * sizeof *verdicts);
        if (more == NULL)
            return -1;
        verdicts = more;
    }
    memset(&verdicts[count], 0, sizeof verdicts[count]);
    verdicts[count].path = strdup(path);
    return verdicts[count++].path == NULL ? -1 : 0;
}

static int by_path(const void *a, const void *b)
{
    return strcmp(((const struct verdict *)a)->path, ((const struct verdict *)b)->path);
}

static void *work(void *nothing)
{
    for (size_t n; (n = atomic_fetch_add(&next, 1)) < count;) {
        struct store store;
        verdicts[n].status = PST_UNREAD;
        if (!store_open(&store, verdicts[n].path))
            continue;
        verdicts[n].status = store_answer(&store, &verdicts[n].answer, (const char *const[]){"check", "-", NULL});
        store_close(&store);
    }
    return nothing;
}

static void work_in_threads(void)
{
    pthread_t threads[MOST_THREADS];
    long processors = sysconf(_SC_NPROCESSORS_ONLN);
    int started = 0;

    while (started < MOST_THREADS && started < processors - 1 && pthread_create(&threads[started], NULL, work, NULL) == 0)
        started++;
    work(NULL);
    while (started > 0)
        pthread_join(threads[--started], NULL);
}

static void put(struct verdict *verdict)
{
    const struct pst_text *said = verdict->status == PST_YES ? &verdict->answer.text : &verdict->answer.line;

    printf("%s\t%d\t", verdict->path, verdict->status);
    if (said->length > 0)
        fwrite(said->at, 1, said->length, stdout);
    else
        putchar('\n');
    pst_free(&verdict->answer);
    free(verdict->path);
}

int main(int words, char **word)
{
    if (words != 2) {
        fprintf(stderr, "usage: %s FOLDER\n", word[0]);
        return 2;
    }
    if (nftw(word[1], note, 16, FTW_PHYS) != 0) {
        perror(word[1]);
        return 3;
    }
    if (count > 0)
        qsort(verdicts, count, sizeof *verdicts, by_path);
    work_in_threads();
    for (size_t n = 0; n < count; n++)
        put(&verdicts[n]);
    free(verdicts);
    return fflush(stdout) == 0 ? 0 : 3;
}
