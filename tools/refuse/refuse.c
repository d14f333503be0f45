/* A library to preload: it refuses one allocation, read or write of the program, or interrupts or shortens them.

   FAIL_ALLOCATION=n, FAIL_READ=n, FAIL_WRITE=n      the nth one fails (no memory; an input/output error)
   INTERRUPTED_READS=n, INTERRUPTED_WRITES=n         the first n are interrupted
   LONGEST_READ=k, LONGEST_WRITE=k                   at most k bytes at a time; LONGEST_WRITE=0 writes none and says so
   COUNTS=FILE                                       at the end, how many of each there were: three numbers */
#define _GNU_SOURCE
#include <dlfcn.h>
#include <errno.h>
#include <stdio.h>
#include <stdlib.h>
#include <unistd.h>

struct calls {
  long made, failing, interrupted, longest;
};

static struct calls allocations = {0, -1, 0, -1}, reads = {0, -1, 0, -1}, writes = {0, -1, 0, -1};
static int counting;

static void setting(const char *name, long *value) {
  const char *text = getenv(name);
  if (text) *value = atol(text);
}

__attribute__((constructor)) static void begin(void) {
  setting("FAIL_ALLOCATION", &allocations.failing);
  setting("FAIL_READ", &reads.failing);
  setting("FAIL_WRITE", &writes.failing);
  setting("INTERRUPTED_READS", &reads.interrupted);
  setting("INTERRUPTED_WRITES", &writes.interrupted);
  setting("LONGEST_READ", &reads.longest);
  setting("LONGEST_WRITE", &writes.longest);
  counting = 1;
}

__attribute__((destructor)) static void end(void) {
  const char *path = getenv("COUNTS");
  counting = 0;
  FILE *file = path ? fopen(path, "w") : 0;
  if (!file) return;
  fprintf(file, "%ld %ld %ld\n", allocations.made, reads.made, writes.made);
  fclose(file);
}

extern void *__libc_malloc(size_t), *__libc_calloc(size_t, size_t), *__libc_realloc(void *, size_t);
extern void *__libc_memalign(size_t, size_t);

static int is_refused(void) {
  if (!counting || ++allocations.made != allocations.failing) return 0;
  errno = ENOMEM;
  return 1;
}

void *malloc(size_t size) { return is_refused() ? 0 : __libc_malloc(size); }
void *calloc(size_t count, size_t size) { return is_refused() ? 0 : __libc_calloc(count, size); }
void *realloc(void *old, size_t size) { return is_refused() ? 0 : __libc_realloc(old, size); }
void *aligned_alloc(size_t align, size_t size) { return is_refused() ? 0 : __libc_memalign(align, size); }

int posix_memalign(void **place, size_t align, size_t size) {
  if (is_refused()) return ENOMEM;
  *place = __libc_memalign(align, size);
  return *place ? 0 : ENOMEM;
}

/* Whether this call fails, with errno set. */
static int is_failing(struct calls *calls) {
  calls->made++;
  if (calls->made <= calls->interrupted) {
    errno = EINTR;
    return 1;
  }
  errno = EIO;
  return calls->made == calls->failing;
}

static size_t cut(const struct calls *calls, size_t size) {
  return calls->longest >= 0 && size > (size_t)calls->longest ? (size_t)calls->longest : size;
}

ssize_t read(int file, void *bytes, size_t size) {
  static ssize_t (*real)(int, void *, size_t);
  if (!real) real = dlsym(RTLD_NEXT, "read");
  return is_failing(&reads) ? -1 : real(file, bytes, cut(&reads, size));
}

ssize_t write(int file, const void *bytes, size_t size) {
  static ssize_t (*real)(int, const void *, size_t);
  if (!real) real = dlsym(RTLD_NEXT, "write");
  return is_failing(&writes) ? -1 : real(file, bytes, cut(&writes, size));
}
