/* What the calls of bursts take: bursts WAY < capture, of at most 64 MB, over its frames in bursts of 64. Of a WAY `merge` offload_gro_burst is
 * called, of `engine` offload_gro_merge, and of `cut` each merged frame, put into one piece, is cut by offload_gso_burst too. `read` and `join` do
 * the same but for that call, so that what they take is taken off. */
#include <offload_burst.h>
#include <stdio.h>
#include <stdlib.h>
#include <string.h>

#define BURST 64
#define MOST_FRAME 262144

static uint8_t capture[64 << 20], joined[MOST_FRAME];
static struct offload_frame frames[BURST];
static struct offload_run runs[BURST];
static struct offload_segment segments[BURST];
static uint32_t next[BURST];

/* The merged frame of a run, in one piece. */
static void join(const struct offload_run *run) {
    uint32_t at = run->first;
    size_t skip = run->headers_length, length = skip;
    memcpy(joined, run->headers, skip);
    for (uint32_t i = 0; i < run->n; i++, at = next[at]) {
        memcpy(joined + length, frames[at].bytes + skip, frames[at].length - skip);
        length += frames[at].length - skip;
    }
}

static uint32_t cut(const struct offload_run *run) {
    size_t count;
    return offload_gso_burst(joined, run->length, run->m, run->modes, segments, BURST, &count);
}

int main(int words, char **word) {
    const char *way = words == 2 ? word[1] : "";
    int reads = !strcmp(way, "read"), keeps = !strcmp(way, "engine"), joins = !strcmp(way, "join"), cuts = !strcmp(way, "cut");
    size_t length = fread(capture, 1, sizeof capture, stdin), at = 24, count = 0;
    struct offload_gro gro = {0};
    if (!(reads || keeps || joins || cuts || !strcmp(way, "merge"))) return 2;
    uint32_t status = keeps ? offload_gro_new(&gro, BURST, BURST, 0) : 0;
    while (status == 0 && at + 16 <= length) {
        size_t n = 0;
        for (uint32_t captured; n < BURST && at + 16 <= length; at += 16 + captured) {
            memcpy(&captured, capture + at + 8, 4);
            if (captured > length - at - 16) return 5;
            frames[n] = (struct offload_frame){capture + at + 16, captured, captured, (uint32_t)n};
            n++;
        }
        if (keeps) status = offload_gro_merge(&gro, frames, n, next, BURST, runs, BURST, &count);
        else if (!reads) status = offload_gro_burst(BURST, 0, frames, n, next, BURST, runs, BURST, &count);
        for (size_t i = 0; (joins || cuts) && status == 0 && i < count; i++)
            if (runs[i].n > 1) {
                join(&runs[i]);
                if (cuts) status = cut(&runs[i]);
            }
    }
    if (keeps) offload_gro_free(&gro);
    return (int)status;
}
