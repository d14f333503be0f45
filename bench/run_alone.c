/* run_alone LIMIT PROGRAM WORD..: runs a program whose output goes nowhere, for at most LIMIT processor seconds and in
   at most 4 GiB, and prints its status as waitpid gives it, its processor and elapsed nanoseconds and its greatest
   memory in bytes.
   It is small itself, because what a process had before it became another program counts as memory of that one. */
#include <fcntl.h>
#include <stdio.h>
#include <stdlib.h>
#include <sys/resource.h>
#include <sys/time.h>
#include <sys/wait.h>
#include <time.h>
#include <unistd.h>

static long long nanos(struct timeval t) { return t.tv_sec * 1000000000LL + t.tv_usec * 1000LL; }

static long long now(void) {
  struct timespec t;
  clock_gettime(CLOCK_MONOTONIC, &t);
  return t.tv_sec * 1000000000LL + t.tv_nsec;
}

static void become(char **words, rlim_t limit) {
  struct rlimit seconds = {limit, limit + 1}, memory = {4LL << 30, 4LL << 30};
  int nowhere = open("/dev/null", O_WRONLY);
  if (nowhere < 0 || dup2(nowhere, 1) < 0 || setrlimit(RLIMIT_CPU, &seconds)
      || setrlimit(RLIMIT_AS, &memory)) _exit(127);
  execvp(words[0], words);
  _exit(127);
}

int main(int argc, char **argv) {
  if (argc < 3) return 2;
  struct rusage used;
  int status;
  long long begin = now();
  pid_t child = fork();
  if (child < 0) return 3;
  if (child == 0) become(argv + 2, strtoul(argv[1], 0, 10));
  if (wait4(child, &status, 0, &used) < 0) return 3;
  printf("%d %lld %lld %lld\n", status, nanos(used.ru_utime) + nanos(used.ru_stime), now() - begin,
         used.ru_maxrss * 1024LL);
  return 0;
}
