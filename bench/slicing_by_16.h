/* The check value by slicing by 16, in C: what our own is measured against. */
#include <stdint.h>
#include <string.h>

static uint32_t table[16][256];

static void fill_tables(void) {
  for (uint32_t i = 0; i < 256; i++) {
    uint32_t c = i;
    for (int k = 0; k < 8; k++) c = c >> 1 ^ (-(c & 1) & 0xEDB88320u);
    table[0][i] = c;
  }
  for (int t = 1; t < 16; t++)
    for (int i = 0; i < 256; i++) table[t][i] = table[0][table[t - 1][i] & 255] ^ table[t - 1][i] >> 8;
}

static uint32_t check(const uint8_t *p, size_t n) {
  uint32_t c = 0;
  for (; n >= 16; n -= 16, p += 16) {
    uint32_t a, b, d, e;
    memcpy(&a, p, 4);
    memcpy(&b, p + 4, 4);
    memcpy(&d, p + 8, 4);
    memcpy(&e, p + 12, 4);
    a ^= c;
    c = table[15][a & 255] ^ table[14][a >> 8 & 255] ^ table[13][a >> 16 & 255] ^ table[12][a >> 24]
      ^ table[11][b & 255] ^ table[10][b >> 8 & 255] ^ table[9][b >> 16 & 255] ^ table[8][b >> 24]
      ^ table[7][d & 255] ^ table[6][d >> 8 & 255] ^ table[5][d >> 16 & 255] ^ table[4][d >> 24]
      ^ table[3][e & 255] ^ table[2][e >> 8 & 255] ^ table[1][e >> 16 & 255] ^ table[0][e >> 24];
  }
  while (n--) c = c >> 8 ^ table[0][(c ^ *p++) & 255];
  return c;
}
