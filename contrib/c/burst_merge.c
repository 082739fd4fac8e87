/* Merges a capture of Ethernet frames (classic pcap, link type 1, in this machine's byte order) burst by burst, and writes what `offload merge
 * --budget N --segs M` writes: burst_merge N M [HOW] <from.pcap >to.pcap. HOW is `engine` where one engine merges all bursts, or `frames` where it
 * receives them frame by frame; with `raw_` in front (`raw_burst`) it is so of what stands behind the frames' Ethernet headers, of which each run gets
 * that of its first frame again. Ends with the status of the first burst that isn't merged, 3 where the capture is cut short or has other bytes
 * at its front. */
#include "offload_burst.h"
#include <stdio.h>
#include <stdlib.h>
#include <string.h>

#define MALFORMED 3
#define ETHERNET 14

static void put32(uint8_t *to, uint32_t number) {
    for (int i = 0; i < 4; i++) to[i] = (uint8_t)(number >> (24 - 8 * i));
}

static void *room_for(size_t count, size_t size) {
    void *made = calloc(count + 1, size);
    if (!made) exit(OFFLOAD_BURST_NO_MEMORY);
    return made;
}

static uint8_t *read_all(size_t *length) {
    size_t room = 1 << 20, some;
    uint8_t *bytes = room_for(room, 1);
    for (*length = 0; (some = fread(bytes + *length, 1, room - *length, stdin)) > 0;)
        if ((*length += some) == room && !(bytes = realloc(bytes, room *= 2))) exit(OFFLOAD_BURST_NO_MEMORY);
    return bytes;
}

struct stamp {
    uint32_t seconds, fraction;
};

/* The frames of the capture without so many bytes of each, and when it came; how many there are. */
static size_t find_frames(const uint8_t *in, size_t length, uint32_t front, struct offload_frame *frames, struct stamp *stamps) {
    size_t count = 0;
    for (size_t at = 24; at < length; count++) {
        uint32_t head[4];
        if (length - at < sizeof head) exit(MALFORMED);
        memcpy(head, in + at, sizeof head);
        at += sizeof head;
        if (length - at < head[2] || head[2] < front) exit(MALFORMED);
        frames[count] = (struct offload_frame){in + at + front, head[2] - front, head[3] - front, (uint32_t)count};
        stamps[count] = (struct stamp){head[0], head[1]};
        at += head[2];
    }
    return count;
}

/* A record of what a run comes to, with the offload header of version 2 in front of the merged frame. */
static void put_run(const struct offload_run *run, uint32_t front, const struct offload_frame *frames, const struct stamp *stamps,
                    const uint32_t *next) {
    uint32_t at = run->first, original = run->n == 1 ? frames[at].original : run->length;
    uint32_t record[4] = {stamps[at].seconds, stamps[at].fraction, run->length + front + 16, original + front + 16};
    uint8_t head[16] = {2, run->kind, run->modes, 0};
    put32(head + 4, run->n);
    put32(head + 8, run->m);
    put32(head + 12, frames[at].number);
    fwrite(record, 1, sizeof record, stdout);
    fwrite(head, 1, sizeof head, stdout);
    fwrite(frames[at].bytes - front, 1, front, stdout);
    fwrite(run->headers, 1, run->headers_length, stdout);
    for (uint32_t i = 0; i < run->n; i++, at = next[at])
        fwrite(frames[at].bytes + run->headers_length, 1, frames[at].length - run->headers_length, stdout);
}

/* One burst as it is asked for. */
static uint32_t merge(const char *how, struct offload_gro *gro, uint32_t link, uint32_t segs, const struct offload_frame *frames, size_t some, uint32_t *next,
                      struct offload_run *runs, size_t room, size_t *count) {
    uint32_t status = OFFLOAD_BURST_OK;
    if (!strcmp(how, "engine")) return offload_gro_merge(gro, frames, some, next, room, runs, room, count);
    if (strcmp(how, "frames") && link == OFFLOAD_LINK_RAW)
        return offload_gro_burst_link(link, segs, 0, frames, some, next, room, runs, room, count);
    if (strcmp(how, "frames")) return offload_gro_burst(segs, 0, frames, some, next, room, runs, room, count);
    *count = 0;
    for (size_t i = 0; i < some && status == OFFLOAD_BURST_OK; i++) status = offload_gro_receive(gro, frames, i + 1);
    return status == OFFLOAD_BURST_OK ? offload_gro_flush(gro, frames, some, next, room, runs, room, count) : status;
}

int main(int count_of_words, char **words) {
    const char *how = count_of_words > 3 ? words[3] : "burst";
    const int is_raw = !strncmp(how, "raw_", 4);
    const uint32_t front = is_raw ? ETHERNET : 0, kind = is_raw ? OFFLOAD_LINK_RAW : OFFLOAD_LINK_ETHERNET;
    how += is_raw ? 4 : 0;
    struct offload_gro gro = {0};
    size_t budget = count_of_words > 1 ? strtoul(words[1], NULL, 10) : 64, length;
    uint32_t segs = count_of_words > 2 ? (uint32_t)strtoul(words[2], NULL, 10) : 4096;
    uint8_t *in = read_all(&length);
    const uint32_t magic = 0xa1b2c3d4, link = 147, snap = 262160;
    if (length < 24 || memcmp(in, &magic, sizeof magic)) return MALFORMED;
    struct offload_frame *frames = room_for(length / 16, sizeof *frames);
    struct stamp *stamps = room_for(length / 16, sizeof *stamps);
    struct offload_run *runs = room_for(budget, sizeof *runs);
    uint32_t *next = room_for(budget, sizeof *next), status = offload_gro_new_link(&gro, kind, (uint32_t)budget, segs, 0);
    size_t all = find_frames(in, length, front, frames, stamps);
    memcpy(in + 16, &snap, sizeof snap);
    memcpy(in + 20, &link, sizeof link);
    fwrite(in, 1, 24, stdout);
    for (size_t i = 0; i < all && status == OFFLOAD_BURST_OK; i += budget) {
        size_t some = all - i < budget ? all - i : budget, count;
        status = merge(how, &gro, kind, segs, frames + i, some, next, runs, budget, &count);
        for (size_t j = 0; j < count; j++) put_run(&runs[j], front, frames + i, stamps + i, next);
    }
    offload_gro_free(&gro);
    free(in), free(frames), free(stamps), free(runs), free(next);
    return (int)status;
}
