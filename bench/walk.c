/* What a capture filter in one thread can reach at best: it walks the records of a capture and writes them again.
 * With a word on its line it also adds up each record's bytes as 32-bit words. */
#include <stdint.h>
#include <stdio.h>
#include <string.h>
#include <unistd.h>

enum { ROOM = 1 << 20 };

static unsigned char input[ROOM], output[ROOM];
static size_t filled, taken, held;

static int fill(size_t want) {
  if (filled - taken >= want) return 1;
  memmove(input, input + taken, filled - taken);
  filled -= taken;
  taken = 0;
  while (filled < want) {
    ssize_t got = read(0, input + filled, ROOM - filled);
    if (got <= 0) return 0;
    filled += (size_t)got;
  }
  return 1;
}

static int drain(void) {
  for (size_t at = 0; at < held;) {
    ssize_t sent = write(1, output + at, held - at);
    if (sent < 0) return 0;
    at += (size_t)sent;
  }
  held = 0;
  return 1;
}

static int put(const void *bytes, size_t count) {
  if (held + count > ROOM && !drain()) return 0;
  memcpy(output + held, bytes, count);
  held += count;
  return 1;
}

static uint64_t word_sum(const unsigned char *bytes, uint32_t count) {
  uint64_t sum = 0;
  for (uint32_t at = 0; at + 4 <= count; at += 4) {
    uint32_t word;
    memcpy(&word, bytes + at, 4);
    sum += word;
  }
  return sum;
}

int main(int words, char **line) {
  uint64_t records = 0, sum = 0;
  (void)line;
  if (!fill(24) || !put(input + taken, 24)) return 1;
  taken += 24;
  while (fill(16)) {
    uint32_t captured;
    memcpy(&captured, input + taken + 8, 4);
    if (!fill(16 + (size_t)captured)) return 2;
    if (words > 1) sum += word_sum(input + taken + 16, captured);
    if (!put(input + taken, 16 + (size_t)captured)) return 1;
    taken += 16 + (size_t)captured;
    records++;
  }
  fprintf(stderr, "%llu records, sum %llu\n", (unsigned long long)records, (unsigned long long)sum);
  return drain() ? 0 : 1;
}
