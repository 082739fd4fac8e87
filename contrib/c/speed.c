/* What a call from C costs: speed FILE, a capture with frames of 1,514 bytes, which are laid out as a capture of their own. Each row is the
 * best and the median of 25 runs. A burst is the first N of them. */
#include <offload.h>
#include <stdio.h>
#include <stdlib.h>
#include <string.h>
#include <time.h>

#define RUNS 25
#define FRAME 1514u
#define RECORD (16 + FRAME)
#define LONGEST 65549u /* a merged frame */

static uint8_t in[1 << 24], merged[1 << 24], out[1 << 24];
static size_t merged_length;

static double now(void) {
    struct timespec t;
    clock_gettime(CLOCK_MONOTONIC, &t);
    return (double)t.tv_sec * 1e9 + (double)t.tv_nsec;
}

static int by_time(const void *a, const void *b) {
    double x = *(const double *)a, y = *(const double *)b;
    return (x > y) - (x < y);
}

static uint32_t refused(uint32_t records) {
    struct offload_options options = OFFLOAD_DEFAULTS;
    size_t count;
    (void)records;
    options.budget = 0;
    return offload_merge(&options, in, 0, out, 0, &count);
}

static uint32_t queue(uint32_t records) {
    (void)records;
    return offload_queue(in + 40, FRAME, 64);
}

/* By the hash key that Microsoft's suite of tests for receive side scaling has. */
static uint32_t queue_by_hash(uint32_t records) {
    static const uint8_t key[40] = {0x6d, 0x5a, 0x56, 0xda, 0x25, 0x5b, 0x0e, 0xc2, 0x41, 0x67, 0x25, 0x3d, 0x43, 0xa3,
                                    0x8f, 0xb0, 0xd0, 0xca, 0x2b, 0xcb, 0xae, 0x7b, 0x30, 0xb4, 0x77, 0xcb, 0x2d, 0xa3,
                                    0x80, 0x30, 0xf2, 0x0c, 0x6a, 0x42, 0xb7, 0x3b, 0xbe, 0xac, 0x01, 0xfa};
    static const uint8_t table[4] = {0, 1, 2, 3};
    (void)records;
    return offload_queue_rss(in + 40, FRAME, key, table, sizeof table, 64);
}

static uint32_t merged_over(uint32_t budget, uint32_t blocks, uint32_t records) {
    struct offload_options options = OFFLOAD_DEFAULTS;
    options.budget = budget;
    options.blocks = blocks;
    return offload_merge(&options, in, 24 + (size_t)records * RECORD, merged, sizeof merged, &merged_length);
}

static uint32_t merge(uint32_t records) {
    return merged_over(records, records * OFFLOAD_BLOCKS_OF(FRAME), records);
}

static uint32_t merge_over_enough(uint32_t records) {
    return merged_over(records, OFFLOAD_ENOUGH_BLOCKS, records);
}

static uint32_t merge_in_64s(uint32_t records) {
    return merged_over(64, 64 * OFFLOAD_BLOCKS_OF(FRAME), records);
}

static uint32_t cut_over(uint32_t blocks) {
    size_t count;
    return offload_segment(blocks, merged, merged_length, out, sizeof out, &count);
}

static uint32_t cut(uint32_t records) {
    return cut_over(OFFLOAD_BLOCKS_OF((records * FRAME < LONGEST ? records * FRAME : LONGEST) + 4));
}

static uint32_t cut_over_enough(uint32_t records) {
    (void)records;
    return cut_over(131);
}

/* The frames of 1,514 bytes of a capture in `out`, laid out in `in`; how many there are. */
static uint32_t laid_out(size_t length) {
    uint32_t records = 0, captured;
    memcpy(in, out, 24);
    for (size_t at = 24; at + 16 <= length; at += 16 + captured) {
        memcpy(&captured, out + at + 8, 4);
        if (captured == FRAME && at + RECORD <= length) memcpy(in + 24 + (size_t)records++ * RECORD, out + at, RECORD);
    }
    return records;
}

/* Nanoseconds a call, and a record of it. */
static void row(const char *name, uint32_t (*call)(uint32_t), uint32_t records, uint32_t wanted) {
    double times[RUNS];
    long turns = 1;
    for (double took = 0; took < 2e6; turns *= 2) {
        double from = now();
        for (long i = 0; i < turns; i++)
            if (call(records) != wanted) exit(1);
        took = now() - from;
    }
    for (int run = 0; run < RUNS; run++) {
        double from = now();
        for (long i = 0; i < turns; i++) call(records);
        times[run] = (now() - from) / (double)turns;
    }
    qsort(times, RUNS, sizeof *times, by_time);
    printf("%-34s %6u records %11.1f %11.1f ns a call %9.1f %9.1f ns a record\n", name, records, times[0], times[RUNS / 2],
           times[0] / records, times[RUNS / 2] / records);
}

int main(int argc, char **argv) {
    FILE *from = argc == 2 ? fopen(argv[1], "rb") : NULL;
    size_t length = from ? fread(out, 1, sizeof out, from) : 0;
    uint32_t all = length < 24 ? 0 : laid_out(length);
    static const uint32_t bursts[] = {1, 16, 64};
    if (all < 64) return 5;
    row("a call that is refused", refused, 1, OFFLOAD_USAGE);
    row("offload_queue", queue, 1, queue(1));
    row("offload_queue_rss", queue_by_hash, 1, queue_by_hash(1));
    for (int i = 0; i < 3; i++) {
        row("offload_merge of a burst", merge, bursts[i], OFFLOAD_OK);
        row("offload_segment of that", cut, bursts[i], OFFLOAD_OK);
        row("the same, over 131 blocks", cut_over_enough, bursts[i], OFFLOAD_OK);
    }
    row("offload_merge over 8,384 blocks", merge_over_enough, 64, OFFLOAD_OK);
    row("offload_merge in rounds of 64", merge_in_64s, all, OFFLOAD_OK);
    row("offload_segment of that", cut, all, OFFLOAD_OK);
    return 0;
}
