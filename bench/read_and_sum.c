/* What a check of a whole file is measured against: reads FILE into memory, 64 KiB at a time, and prints the check
   value over all of it, by slicing by 16. */
#include "slicing_by_16.h"
#include <fcntl.h>
#include <stdio.h>
#include <stdlib.h>
#include <sys/stat.h>
#include <unistd.h>

enum { AT_A_TIME = 65536 };

int main(int argc, char **argv) {
  struct stat about;
  if (argc != 2) return 2;
  int file = open(argv[1], O_RDONLY);
  if (file < 0 || fstat(file, &about)) return 3;
  size_t size = about.st_size, length = 0;
  uint8_t *bytes = malloc(size ? size : 1);
  if (!bytes) return 4;
  while (length < size) {
    ssize_t more = read(file, bytes + length, size - length < AT_A_TIME ? size - length : AT_A_TIME);
    if (more < 0) return 3;
    if (more == 0) break;
    length += more;
  }
  fill_tables();
  printf("%08x\n", check(bytes, length));
  return 0;
}
