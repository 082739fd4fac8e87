/* Merges a capture of Ethernet frames burst by burst, cuts each merged frame again, and compares: burst_cut N <from.pcap. Each run's frames come
 * back byte for byte, and also where the merged frame's last sum was left to a card; one that has a wrong sum is refused. Ends with 0 where that is so. */
#include "offload_burst.h"
#include <stdio.h>
#include <stdlib.h>
#include <string.h>

#define MOST_FRAME 262144u

static long merged_count, segment_count;

static int fail(const char *what) {
    printf("FAILED: %s\n", what);
    return 1;
}

static size_t put_merged(uint8_t *to, const struct offload_run *run, const struct offload_frame *frames, const uint32_t *next) {
    size_t length = run->headers_length;
    memcpy(to, run->headers, length);
    for (uint32_t i = 0, at = run->first; i < run->n; i++, at = next[at]) {
        size_t own = frames[at].length - run->headers_length;
        memcpy(to + length, frames[at].bytes + run->headers_length, own);
        length += own;
    }
    return length;
}

/* Whether the segments of a merged frame are the run's frames. */
static int are_frames(const uint8_t *merged, const struct offload_segment *segments, size_t count, const struct offload_run *run,
                      const struct offload_frame *frames, const uint32_t *next) {
    uint32_t at = run->first;
    if (count != run->n) return 0;
    for (size_t i = 0; i < count; i++, at = next[at]) {
        const struct offload_segment *one = &segments[i];
        if (frames[at].length != one->headers_length + one->length) return 0;
        if (memcmp(frames[at].bytes, one->headers, one->headers_length)) return 0;
        if (memcmp(frames[at].bytes + one->headers_length, merged + one->at, one->length)) return 0;
    }
    return 1;
}

static int cut(uint8_t *merged, const struct offload_run *run, const struct offload_frame *frames, const uint32_t *next) {
    static struct offload_segment segments[4096];
    size_t count, length = put_merged(merged, run, frames, next), sum = run->leaf_at + (run->leaf == 6 ? 16 : 6);
    if (offload_gso_burst(merged, length, run->m, run->modes, segments, 4096, &count) != OFFLOAD_BURST_OK) return fail("a merged frame is cut");
    if (!are_frames(merged, segments, count, run, frames, next)) return fail("the segments are the frames");
    if (offload_gso_burst(merged, length, run->m, run->modes, segments, run->n - 1, &count) != OFFLOAD_BURST_NO_ROOM || count) return fail("no room");
    if (offload_gso_burst(merged, length, 0, run->modes, segments, 4096, &count) != OFFLOAD_BURST_USAGE || count) return fail("segments of 0");
    if (offload_gso_burst(merged, length, (uint32_t)length, run->modes, segments, 4096, &count) != OFFLOAD_BURST_UNLAWFUL) return fail("one segment");
    if (offload_fill_sums(merged, length) != OFFLOAD_BURST_OK) return fail("sums that are right");
    if (merged[sum] || merged[sum + 1]) {
        merged[sum] ^= 1;
        if (offload_gso_burst(merged, length, run->m, run->modes, segments, 4096, &count) != OFFLOAD_BURST_UNLAWFUL) return fail("a wrong sum");
        merged[sum] = (uint8_t)(run->pseudo >> 8), merged[sum + 1] = (uint8_t)run->pseudo;
        if (offload_fill_sums(merged, length) != OFFLOAD_BURST_OK) return fail("a sum that was left to a card");
        if (offload_gso_burst(merged, length, run->m, run->modes, segments, 4096, &count) != OFFLOAD_BURST_OK) return fail("and then it is cut");
        if (!are_frames(merged, segments, count, run, frames, next)) return fail("its segments are the frames too");
    }
    merged_count++, segment_count += (long)count;
    return 0;
}

static size_t find_frames(const uint8_t *in, size_t length, struct offload_frame *frames) {
    size_t count = 0;
    for (size_t at = 24; at + 16 <= length; count++) {
        uint32_t head[4];
        memcpy(head, in + at, sizeof head);
        frames[count] = (struct offload_frame){in + at + 16, head[2], head[3], (uint32_t)count};
        at += 16 + head[2];
    }
    return count;
}

int main(int count_of_words, char **words) {
    size_t budget = count_of_words > 1 ? strtoul(words[1], NULL, 10) : 64, room = 1 << 26, count;
    uint8_t *in = malloc(room), *merged = malloc(MOST_FRAME);
    struct offload_frame *frames = calloc(1 << 20, sizeof *frames);
    struct offload_run *runs = calloc(budget, sizeof *runs);
    uint32_t *next = calloc(budget, sizeof *next);
    if (!in || !merged || !frames || !runs || !next) return OFFLOAD_BURST_NO_MEMORY;
    size_t all = find_frames(in, fread(in, 1, room, stdin), frames);
    for (size_t i = 0; i < all; i += budget) {
        size_t some = all - i < budget ? all - i : budget;
        if (offload_gro_burst(4096, 0, frames + i, some, next, budget, runs, budget, &count) != OFFLOAD_BURST_OK) return fail("a burst is merged");
        for (size_t j = 0; j < count; j++)
            if (runs[j].n > 1 && cut(merged, &runs[j], frames + i, next)) return 1;
    }
    printf("%ld merged frames, cut into %ld\n", merged_count, segment_count);
    free(in), free(merged), free(frames), free(runs), free(next);
    return 0;
}
