/* What pst_crc::check is measured against: slicing by 16 in C, over the same bytes as crc_speed/src/main.rt takes.
   crc_speed BLOCK COUNT prints the nanoseconds and the exclusive or of the values. */
#include "slicing_by_16.h"
#include <stdio.h>
#include <stdlib.h>
#include <time.h>

int main(int argc, char **argv) {
  if (argc < 3) return 2;
  size_t block = strtoull(argv[1], 0, 10), count = strtoull(argv[2], 0, 10);
  uint8_t *bytes = malloc(block * count), byte = 3;
  if (!bytes) return 4;
  for (size_t i = 0; i < block * count; i++, byte = byte * 5 + 3) bytes[i] = byte;
  fill_tables();
  struct timespec start, end;
  clock_gettime(CLOCK_MONOTONIC, &start);
  uint32_t sum = 0;
  for (size_t i = 0; i < count; i++) sum ^= check(bytes + i * block, block);
  clock_gettime(CLOCK_MONOTONIC, &end);
  printf("%lld %08x\n", (end.tv_sec - start.tv_sec) * 1000000000LL + end.tv_nsec - start.tv_nsec, sum);
  return 0;
}
