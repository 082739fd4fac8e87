/* The Internet sum of a list of bytes as a C loop over its 32-bit words: `sums TURNS LENGTH` prints the nanoseconds that the
 * turns take, and what the folds add to. */
#include <stdint.h>
#include <stdio.h>
#include <stdlib.h>
#include <string.h>
#include <time.h>

enum { LONGEST = 65535 };

static unsigned char bytes[64 + LONGEST];

static uint16_t fold_of(const unsigned char *from, size_t count) {
  uint64_t sum = 0;
  size_t at = 0;
  for (; at + 4 <= count; at += 4) {
    uint32_t word;
    memcpy(&word, from + at, 4);
    sum += word;
  }
  if (at + 2 <= count) {
    uint16_t word;
    memcpy(&word, from + at, 2);
    sum += word;
    at += 2;
  }
  if (at < count) sum += from[at];
  while (sum >> 16) sum = (sum & 0xffff) + (sum >> 16);
  return __builtin_bswap16((uint16_t)sum);
}

int main(int words, char **line) {
  if (words != 3) return 2;
  uint64_t turns = strtoull(line[1], NULL, 10), total = 0;
  size_t length = strtoul(line[2], NULL, 10);
  if (length > LONGEST) return 2;
  uint32_t state = 12345;
  for (size_t at = 0; at < 64 + length; at++) {
    state = state * 1664525 + 1013904223;
    bytes[at] = state >> 24;
  }
  struct timespec start, end;
  clock_gettime(CLOCK_MONOTONIC, &start);
  for (uint64_t turn = 0; turn < turns; turn++) total += fold_of(bytes + 2 + 16 * (turn % 4), length);
  clock_gettime(CLOCK_MONOTONIC, &end);
  long long taken = (end.tv_sec - start.tv_sec) * 1000000000LL + end.tv_nsec - start.tv_nsec;
  printf("%zu bytes: %lld ns, total %llu\n", length, taken, (unsigned long long)total);
  return 0;
}
