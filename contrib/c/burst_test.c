/* What a caller sees of offload_gro_burst and of engines; ends with 0 where all holds. Linked with --wrap=malloc and --wrap=realloc, so that each growth of
 * memory can be refused in turn. burst_test PAIRS tries so many pairs of random frames. */
#include "offload_burst.h"
#include <pthread.h>
#include <stdio.h>
#include <stdlib.h>
#include <string.h>

#define FILL 0xa5
#define HEADERS 54
#define MOST_FRAME 262144u

void *__real_malloc(size_t size);
void *__real_realloc(void *old, size_t size);
void *__wrap_malloc(size_t size);
void *__wrap_realloc(void *old, size_t size);

static int wrong;
static long left = -1; /* growths until one is refused; none is where it is below 0 */

static int is_refused(void) {
    return left >= 0 && left-- == 0;
}

void *__wrap_malloc(size_t size) {
    return is_refused() ? NULL : __real_malloc(size);
}

void *__wrap_realloc(void *old, size_t size) {
    return is_refused() ? NULL : __real_realloc(old, size);
}

static void check(int holds, const char *what) {
    if (holds) return;
    printf("FAILED: %s\n", what);
    wrong = 1;
}

static uint32_t summed(const uint8_t *from, size_t length, uint32_t sum) {
    for (size_t i = 0; i < length; i++) sum += i % 2 ? from[i] : (uint32_t)from[i] << 8;
    return sum;
}

static void put_sum(uint8_t *to, uint32_t sum) {
    while (sum >> 16) sum = (sum & 0xffff) + (sum >> 16);
    to[0] = (uint8_t)(~sum >> 8);
    to[1] = (uint8_t)~sum;
}

/* A TCP segment over IPv4 with so many bytes of payload, its sums filled in; how long the frame is. */
static size_t put_frame(uint8_t *frame, uint32_t sequence, uint16_t identification, size_t length) {
    static const uint8_t headers[HEADERS] = {2, 0, 0, 0, 0, 2, 2, 0, 0, 0, 0, 1, 8, 0, 0x45, 0, 0, 0, 0, 0, 0x40, 0, 64, 6, 0, 0, 10, 0, 0, 1, 10, 0, 0, 2,
                                             0x13, 0x88, 0x17, 0x70, 0, 0, 0, 0, 0, 0, 0, 1, 0x50, 0x10, 1, 0, 0, 0, 0, 0};
    memcpy(frame, headers, HEADERS);
    for (size_t i = 0; i < length; i++) frame[HEADERS + i] = (uint8_t)(sequence + i);
    frame[16] = (uint8_t)((40 + length) >> 8), frame[17] = (uint8_t)(40 + length);
    frame[18] = (uint8_t)(identification >> 8), frame[19] = (uint8_t)identification;
    for (int i = 0; i < 4; i++) frame[38 + i] = (uint8_t)(sequence >> (24 - 8 * i));
    put_sum(frame + 24, summed(frame + 14, 20, 0));
    put_sum(frame + 50, summed(frame + 34, 20 + length, summed(frame + 26, 8, 6 + 20 + (uint32_t)length)));
    return HEADERS + length;
}

/* A burst with its lists, filled so that a write shows. */
struct burst {
    uint32_t segs;
    struct offload_frame *frames;
    size_t count, next_count, runs_count;
    uint32_t next[4];
    struct offload_run runs[4];
    size_t made;
    uint32_t bytes;
};

static uint32_t call(struct burst *burst) {
    memset(burst->next, FILL, sizeof burst->next);
    memset(burst->runs, FILL, sizeof burst->runs);
    burst->made = 99;
    return offload_gro_burst(burst->segs, burst->bytes, burst->frames, burst->count, burst->next, burst->next_count, burst->runs, burst->runs_count,
                             &burst->made);
}

static int is_filled(const void *from, size_t length) {
    const uint8_t *bytes = from;
    for (size_t i = 0; i < length; i++)
        if (bytes[i] != FILL) return 0;
    return 1;
}

static void refused(struct burst burst, uint32_t status, const char *what) {
    uint32_t told = call(&burst);
    check(told == status && burst.made == 0 && is_filled(burst.next, sizeof burst.next) && is_filled(burst.runs, sizeof burst.runs), what);
}

static void numbers(struct offload_frame *two, const uint8_t *long_frame) {
    struct offload_frame many[2] = {two[0], two[1]};
    const struct burst lawful = {4096, many, 2, 4, 4, {0}, {{0}}, 0, 0};
    struct burst burst = lawful;
    check(call(&burst) == OFFLOAD_BURST_OK && burst.made == 1, "two frames are one run");
    check(burst.runs[0].first == 0 && burst.runs[0].n == 2 && burst.runs[0].m == 100 && burst.runs[0].length == 204, "and its numbers");
    check(burst.runs[0].headers_length == HEADERS && burst.runs[0].kind == 1 && burst.runs[0].modes == 0 && burst.next[0] == 1, "and its headers");
    check(burst.runs[0].ip_at == 14 && burst.runs[0].leaf_at == 34 && burst.runs[0].leaf == 6, "and where its last headers stand");
    burst = lawful, burst.bytes = 204;
    check(call(&burst) == OFFLOAD_BURST_OK && burst.made == 1 && burst.runs[0].length == 204, "a merged frame as long as it may be");
    burst.bytes = 203;
    check(call(&burst) == OFFLOAD_BURST_OK && burst.made == 2 && burst.runs[0].n == 1 && burst.runs[1].first == 1, "a byte more than it may have");
    burst.bytes = 0xffffffff;
    check(call(&burst) == OFFLOAD_BURST_OK && burst.made == 1, "a bound that no frame passes");
    check(is_filled(&burst.runs[1], 3 * sizeof *burst.runs) && is_filled(burst.next + 2, 8), "what is behind the frames isn't touched");
    uint8_t whole[204];
    put_frame(whole, 1000, 5, 150);
    check(!memcmp(whole, burst.runs[0].headers, HEADERS), "the headers are those of the frame that one sender would have sent");
    uint8_t pseudo[2];
    put_sum(pseudo, summed(whole + 26, 8, 6 + 20 + 150));
    check((uint16_t)~burst.runs[0].pseudo == (pseudo[0] << 8 | pseudo[1]), "the sum of the pseudo header");
    burst.segs = 1;
    check(call(&burst) == OFFLOAD_BURST_OK && burst.made == 2 && burst.runs[1].n == 1 && burst.runs[1].headers_length == 0 && burst.runs[1].leaf_at == 0,
          "in runs of one");
    burst.count = 0;
    check(call(&burst) == OFFLOAD_BURST_OK && burst.made == 0 && is_filled(burst.runs, sizeof burst.runs), "no frames");
    for (uint32_t segs = 0; segs <= 4097; segs += 4097) {
        burst = lawful;
        burst.segs = segs;
        refused(burst, OFFLOAD_BURST_USAGE, "segs 0 and 4097");
    }
    burst = lawful;
    burst.next_count = 1;
    refused(burst, OFFLOAD_BURST_NO_ROOM, "no room in next");
    burst = lawful;
    burst.runs_count = 1;
    refused(burst, OFFLOAD_BURST_NO_ROOM, "no room in runs");
    many[1].number = 0;
    refused(lawful, OFFLOAD_BURST_USAGE, "equal numbers");
    many[1] = two[1];
    many[1].original = 1u << 31;
    refused(lawful, OFFLOAD_BURST_USAGE, "an original length of 2^31");
    many[1] = (struct offload_frame){long_frame, MOST_FRAME + 1, MOST_FRAME + 1, 1};
    refused(lawful, OFFLOAD_BURST_USAGE, "a frame of 262,145 bytes");
    many[1].length = MOST_FRAME;
    burst = lawful;
    check(call(&burst) == OFFLOAD_BURST_OK && burst.made == 2, "a frame of 262,144 bytes");
}

/* Packets without an Ethernet header, for which there is room in front of them. */
static void without_ethernet(const struct offload_frame *two) {
    static const uint8_t before_ip4[14] = {[12] = 8}, before_ip6[14] = {[12] = 0x86, 0xdd};
    uint8_t bytes[2][154], old[154];
    struct offload_frame both[2] = {two[0], two[1]};
    for (int i = 0; i < 2; i++) {
        both[i].bytes = memcpy(bytes[i], two[i].bytes, two[i].length);
        memset(bytes[i], FILL, 14);
        check(offload_put_ethernet(bytes[i], two[i].length) == OFFLOAD_BURST_OK, "a header before IPv4");
        check(!memcmp(bytes[i], before_ip4, 14) && !memcmp(bytes[i] + 14, two[i].bytes + 14, two[i].length - 14), "and nothing else");
    }
    struct burst burst = {64, both, 2, 4, 4, {0}, {{0}}, 0, 0}, other = {64, (struct offload_frame *)two, 2, 4, 4, {0}, {{0}}, 0, 0};
    check(call(&burst) == OFFLOAD_BURST_OK && call(&other) == OFFLOAD_BURST_OK && burst.made == 1, "two packets are one run");
    check(!memcmp(burst.runs[0].headers, before_ip4, 14) && !memcmp(burst.runs[0].headers + 14, other.runs[0].headers + 14, HEADERS - 14),
          "which has their headers behind it");
    for (int first = 0; first < 256; first++) {
        uint8_t *frame = bytes[0];
        memset(frame, FILL, 14), frame[14] = (uint8_t)first, memcpy(old, frame, sizeof old);
        int version = first >> 4, is_ip = version == 4 || version == 6;
        check(offload_put_ethernet(frame, both[0].length) == (is_ip ? OFFLOAD_BURST_OK : OFFLOAD_BURST_USAGE), "a packet of each version");
        check(!memcmp(frame, version == 4 ? before_ip4 : version == 6 ? before_ip6 : old, 14) && !memcmp(frame + 14, old + 14, 140), "and its header");
    }
    check(offload_put_ethernet(bytes[1], 14) == OFFLOAD_BURST_USAGE && offload_put_ethernet(bytes[1], 0) == OFFLOAD_BURST_USAGE, "no packet");
}

static void many_frames(const struct offload_frame *one) {
    struct offload_frame *frames = malloc(65536 * sizeof *frames);
    struct offload_run *runs = malloc(65536 * sizeof *runs);
    uint32_t *next = malloc(65536 * sizeof *next);
    size_t made = 99;
    if (!frames || !runs || !next) exit(OFFLOAD_BURST_NO_MEMORY);
    for (uint32_t i = 0; i < 65536; i++) frames[i] = *one, frames[i].number = i;
    check(offload_gro_burst(64, 0, frames, 65536, next, 65536, runs, 65536, &made) == OFFLOAD_BURST_USAGE && made == 0, "65,536 frames");
    check(offload_gro_burst(64, 0, frames, 65535, next, 65536, runs, 65536, &made) == OFFLOAD_BURST_OK && made == 65535, "65,535 frames");
    free(frames), free(runs), free(next);
}

static void without_memory(struct offload_frame *two) {
    struct burst burst = {64, two, 2, 4, 4, {0}, {{0}}, 0, 0};
    int refusals = 0;
    for (uint32_t told = OFFLOAD_BURST_NO_MEMORY; told != OFFLOAD_BURST_OK && refusals < 100; refusals++) {
        left = refusals;
        told = call(&burst);
        left = -1;
        if (told == OFFLOAD_BURST_OK) break;
        check(told == OFFLOAD_BURST_NO_MEMORY && burst.made == 0 && is_filled(burst.next, sizeof burst.next) && is_filled(burst.runs, sizeof burst.runs),
              "a refused growth of memory");
    }
    check(refusals > 0 && refusals < 100, "growths of memory were refused");
    printf("%d growths refused in turn\n", refusals);
}

/* The two frames, each with the header that its version wants, and the packets behind these headers: what is told of both is the same, but for the
 * headers. */
static void raw_beside(const struct offload_frame *both) {
    uint8_t bytes[2][154] = {{0}};
    struct offload_frame framed[2], raw[2];
    struct offload_run runs[2] = {{0}}, own[2] = {{0}};
    uint32_t next[2] = {0}, own_next[2] = {0};
    size_t made, own_made;
    for (int i = 0; i < 2; i++) {
        if (both[i].length < 14) return;
        memcpy(bytes[i] + 14, both[i].bytes + 14, both[i].length - 14);
        offload_put_ethernet(bytes[i], both[i].length);
        framed[i] = raw[i] = both[i];
        framed[i].bytes = bytes[i], raw[i].bytes = bytes[i] + 14, raw[i].length -= 14, raw[i].original -= 14;
    }
    uint32_t told = offload_gro_burst(64, 0, framed, 2, next, 2, runs, 2, &made);
    uint32_t told_raw = offload_gro_burst_link(OFFLOAD_LINK_RAW, 64, 0, raw, 2, own_next, 2, own, 2, &own_made);
    check(told == OFFLOAD_BURST_OK && told_raw == told && made == own_made && next[0] == own_next[0], "raw packets merge as frames do");
    for (size_t i = 0; i < made; i++) {
        uint32_t front = runs[i].n > 1 ? 14 : 0;
        check(own[i].first == runs[i].first && own[i].n == runs[i].n && own[i].m == runs[i].m && own[i].length + 14 == runs[i].length &&
                  own[i].headers_length + front == runs[i].headers_length && own[i].pseudo == runs[i].pseudo && own[i].kind == runs[i].kind &&
                  own[i].modes == runs[i].modes && own[i].ip_at + front == runs[i].ip_at && own[i].leaf_at + front == runs[i].leaf_at &&
                  own[i].leaf == runs[i].leaf && !memcmp(own[i].headers, runs[i].headers + front, own[i].headers_length),
              "and are told without their Ethernet headers");
    }
}

/* Numbers of links, and engines of raw packets. */
static void links(const struct offload_frame *two) {
    struct offload_frame raw[2] = {two[0], two[1]}, long_one = two[0];
    struct offload_run runs[2] = {{0}}, own[2] = {{0}};
    uint32_t next[2] = {FILL, FILL};
    size_t made = 99;
    struct offload_gro gro = {0};
    for (int i = 0; i < 2; i++) raw[i].bytes += 14, raw[i].length -= 14, raw[i].original -= 14;
    for (uint32_t link = 0; link < 300; link++) {
        uint32_t wanted = link == OFFLOAD_LINK_ETHERNET || link == OFFLOAD_LINK_RAW ? OFFLOAD_BURST_OK : OFFLOAD_BURST_USAGE;
        check(offload_gro_burst_link(link, 64, 0, raw, 2, next, 2, own, 2, &made) == wanted && (made > 0) == !wanted, "a link of this number");
        check(offload_gro_new_link(&gro, link, 2, 64, 0) == wanted && gro.made == !wanted, "an engine for it");
        offload_gro_free(&gro);
    }
    check(offload_gro_burst_link(OFFLOAD_LINK_RAW, 64, 0, raw, 2, next, 2, runs, 2, &made) == OFFLOAD_BURST_OK && made == 1, "two are one run");
    check(offload_gro_burst_link(OFFLOAD_LINK_RAW, 64, 190, raw, 2, next, 2, runs, 2, &made) == OFFLOAD_BURST_OK && made == 1, "of 190 bytes");
    check(offload_gro_burst_link(OFFLOAD_LINK_RAW, 64, 189, raw, 2, next, 2, own, 2, &made) == OFFLOAD_BURST_OK && made == 2, "and no fewer");
    check(offload_gro_new_link(&gro, OFFLOAD_LINK_RAW, 2, 64, 0) == OFFLOAD_BURST_OK, "an engine of raw packets");
    left = 0; /* and no growth from here on */
    check(offload_gro_merge(&gro, raw, 2, next, 2, own, 2, &made) == OFFLOAD_BURST_OK && made == 1, "takes no memory for a burst");
    check(!memcmp(own[0].headers, runs[0].headers, runs[0].headers_length) && own[0].length == 190, "which it tells as the other call");
    for (size_t i = 1; i <= 2; i++) check(offload_gro_receive(&gro, raw, i) == OFFLOAD_BURST_OK, "nor for a packet");
    check(offload_gro_flush(&gro, raw, 2, next, 2, own, 2, &made) == OFFLOAD_BURST_OK && made == 1 && own[0].n == 2, "nor to flush");
    left = -1;
    offload_gro_free(&gro);
    long_one.original = (1u << 31) - 14;
    check(offload_gro_burst_link(OFFLOAD_LINK_RAW, 64, 0, &long_one, 1, next, 2, own, 2, &made) == OFFLOAD_BURST_USAGE, "an original length of 2^31 - 14");
}

/* A frame in a random one's bytes beside a right one, of a random length: what is merged is a run of both. */
static void random_pairs(struct offload_frame *two, long pairs) {
    uint8_t bytes[154] = {0};
    struct offload_frame both[2] = {two[0], {bytes, 0, 0, 1}};
    struct burst burst = {64, both, 2, 4, 4, {0}, {{0}}, 0, 0};
    long merged = 0;
    srand(1);
    for (long i = 0; i < pairs; i++) {
        memcpy(bytes, two[1].bytes, two[1].length);
        for (int j = rand() % 4; j > 0; j--) bytes[rand() % 60] = (uint8_t)rand();
        both[1].length = rand() % 3 ? two[1].length : (size_t)(rand() % 155);
        both[1].original = rand() % 8 ? (uint32_t)both[1].length : 154;
        if (call(&burst) != OFFLOAD_BURST_OK || burst.made > 2 || burst.made < 1) check(0, "a random frame");
        if (burst.made == 1 && (burst.runs[0].n != 2 || burst.next[0] != 1)) check(0, "a random frame that is merged");
        if ((offload_why_apart(&both[0], &both[1]) == OFFLOAD_MERGEABLE) != (burst.made == 1)) check(0, "why two random frames are no run");
        raw_beside(both);
        merged += burst.made == 1;
    }
    printf("%ld random pairs, of which %ld are merged\n", pairs, merged);
}

#define FRAMES 200
#define TIMES 300

static uint8_t bytes_of[FRAMES][300];
static struct offload_frame sent[FRAMES];
static struct offload_run wanted[FRAMES];
static size_t wanted_count;

static void *worker(void *failed) {
    struct offload_run *runs = calloc(FRAMES, sizeof *runs);
    uint32_t next[FRAMES];
    size_t made;
    for (int i = 0; i < TIMES; i++) {
        uint32_t told = offload_gro_burst(64, 0, sent, FRAMES, next, FRAMES, runs, FRAMES, &made);
        if (told != OFFLOAD_BURST_OK || made != wanted_count || memcmp(runs, wanted, sizeof wanted)) *(int *)failed = 1;
    }
    free(runs);
    return NULL;
}

static void threads(void) {
    pthread_t thread[4];
    int failed[4] = {0};
    uint32_t next[FRAMES];
    for (uint32_t i = 0; i < FRAMES; i++) {
        size_t length = put_frame(bytes_of[i], 1000 + 200 * (i / 2), (uint16_t)(i / 2), 200);
        if (i % 2) bytes_of[i][0] = 4, bytes_of[i][5] = 9;
        sent[i] = (struct offload_frame){bytes_of[i], length, (uint32_t)length, i};
    }
    check(offload_gro_burst(64, 0, sent, FRAMES, next, FRAMES, wanted, FRAMES, &wanted_count) == OFFLOAD_BURST_OK, "a burst of 200");
    for (int i = 0; i < 4; i++)
        if (pthread_create(&thread[i], NULL, worker, &failed[i])) exit(1);
    for (int i = 0; i < 4; i++) {
        pthread_join(thread[i], NULL);
        check(!failed[i], "four threads make what one makes");
    }
}

/* ---- engines */

/* What an engine makes of all frames of `burst`, by a flush or as a burst: it asks for no memory, nor does it where it receives. */
static uint32_t made_by(struct offload_gro *gro, int is_flush, struct burst *burst) {
    memset(burst->next, FILL, sizeof burst->next);
    memset(burst->runs, FILL, sizeof burst->runs);
    burst->made = 99;
    left = 0;
    uint32_t told = (is_flush ? offload_gro_flush : offload_gro_merge)(gro, burst->frames, burst->count, burst->next, burst->next_count, burst->runs,
                                                                       burst->runs_count, &burst->made);
    check(left == 0, "an engine that asks for memory");
    left = -1;
    return told;
}

static uint32_t received(struct offload_gro *gro, const struct offload_frame *frames, size_t count) {
    left = 0;
    uint32_t told = offload_gro_receive(gro, frames, count);
    check(left == 0, "an engine that asks for memory as it receives");
    left = -1;
    return told;
}

static void not_made(struct offload_gro *gro, int is_flush, struct burst burst, uint32_t status, const char *what) {
    uint32_t told = made_by(gro, is_flush, &burst);
    check(told == status && burst.made == 0 && is_filled(burst.next, sizeof burst.next) && is_filled(burst.runs, sizeof burst.runs), what);
}

static void is_as_burst(uint32_t told, struct burst burst, const char *what) {
    struct burst other = burst;
    uint32_t wanted_told = call(&other);
    check(told == wanted_told && burst.made == other.made && !memcmp(burst.next, other.next, sizeof other.next), what);
    check(!memcmp(burst.runs, other.runs, sizeof other.runs), what);
}

static void no_engine(struct burst lawful) {
    struct offload_gro gro = {0};
    offload_gro_free(&gro);
    check(offload_gro_receive(&gro, lawful.frames, 1) == OFFLOAD_BURST_USAGE, "nothing is received without an engine");
    not_made(&gro, 0, lawful, OFFLOAD_BURST_USAGE, "nothing is merged without an engine");
    not_made(&gro, 1, lawful, OFFLOAD_BURST_USAGE, "nothing is flushed without an engine");
    check(offload_gro_new(&gro, 65536, 64, 0) == OFFLOAD_BURST_USAGE && !gro.made, "an engine for 65,536 frames");
    check(offload_gro_new(&gro, 4, 0, 0) == OFFLOAD_BURST_USAGE && !gro.made, "an engine for runs of 0");
    check(offload_gro_new(&gro, 4, 4097, 0) == OFFLOAD_BURST_USAGE && !gro.made, "an engine for runs of 4097");
    check(offload_gro_new(&gro, 65535, 4096, 0) == OFFLOAD_BURST_OK && gro.made, "an engine for 65,535 frames");
    check(offload_gro_new(&gro, 4, 64, 0) == OFFLOAD_BURST_USAGE && gro.made, "an engine in the place of one");
    offload_gro_free(&gro);
    check(!gro.made && !gro.at, "an engine that was ended");
}

static void engines(struct offload_frame *two) {
    struct offload_frame third = two[1], three[3];
    third.number = 2;
    memcpy(three, two, 2 * sizeof *two);
    three[2] = third;
    struct burst burst = {64, two, 2, 4, 4, {0}, {{0}}, 0, 0}, long_one = {64, three, 3, 4, 4, {0}, {{0}}, 0, 0};
    struct offload_gro gro = {0};
    no_engine(burst);
    check(offload_gro_new(&gro, 2, 64, 0) == OFFLOAD_BURST_OK, "an engine");
    for (int i = 0; i < 3; i++) is_as_burst(made_by(&gro, 0, &burst), burst, "a burst by an engine");
    not_made(&gro, 0, long_one, OFFLOAD_BURST_FULL, "a longer burst than the engine was made for");
    for (int i = 0; i < 3; i++) {
        check(received(&gro, two, 1) == OFFLOAD_BURST_OK && received(&gro, two, 2) == OFFLOAD_BURST_OK, "frames one by one");
        check(received(&gro, two, 2) == OFFLOAD_BURST_OK, "no frame more");
        check(received(&gro, two, 1) == OFFLOAD_BURST_USAGE, "a list that is shorter");
        check(received(&gro, three, 3) == OFFLOAD_BURST_FULL, "a frame more than it was made for");
        not_made(&gro, 0, burst, OFFLOAD_BURST_USAGE, "a burst by an engine that has received frames");
        not_made(&gro, 1, long_one, OFFLOAD_BURST_USAGE, "a flush of a longer list");
        burst.next_count = 1;
        not_made(&gro, 1, burst, OFFLOAD_BURST_NO_ROOM, "a flush without room");
        burst.next_count = 4;
        is_as_burst(made_by(&gro, 1, &burst), burst, "a flush");
        burst.count = 0;
        is_as_burst(made_by(&gro, 1, &burst), burst, "a flush of nothing");
        burst.count = 2;
    }
    three[1].number = 0;
    check(received(&gro, three, 1) == OFFLOAD_BURST_OK && received(&gro, three, 2) == OFFLOAD_BURST_USAGE, "a number that doesn't rise");
    for (uint32_t refusals = 0, told = OFFLOAD_BURST_NO_MEMORY; told != OFFLOAD_BURST_OK; refusals++) {
        offload_gro_free(&gro);
        left = refusals;
        told = offload_gro_new(&gro, 64, 64, 0);
        left = -1;
        check(told == OFFLOAD_BURST_OK || (told == OFFLOAD_BURST_NO_MEMORY && !gro.made), "an engine without memory");
    }
    offload_gro_free(&gro);
}

static struct offload_gro handed;

static void *flusher(void *failed) {
    static struct offload_run runs[FRAMES];
    uint32_t next[FRAMES];
    size_t made;
    uint32_t told = offload_gro_flush(&handed, sent, FRAMES, next, FRAMES, runs, FRAMES, &made);
    *(int *)failed = told != OFFLOAD_BURST_OK || made != wanted_count || memcmp(runs, wanted, sizeof wanted);
    offload_gro_free(&handed);
    return NULL;
}

/* An engine that has received frames on one thread, flushed and ended by another. */
static void handed_over(void) {
    pthread_t thread;
    int failed = 1;
    check(offload_gro_new(&handed, FRAMES, 64, 0) == OFFLOAD_BURST_OK, "an engine for 200");
    for (size_t i = 7; i < FRAMES; i += 7) check(offload_gro_receive(&handed, sent, i) == OFFLOAD_BURST_OK, "seven frames more");
    check(offload_gro_receive(&handed, sent, FRAMES) == OFFLOAD_BURST_OK, "all frames");
    if (pthread_create(&thread, NULL, flusher, &failed)) exit(1);
    pthread_join(thread, NULL);
    check(!failed, "another thread flushes what this one has received");
}

int main(int count_of_words, char **words) {
    static uint8_t first[154], second[154], long_frame[MOST_FRAME + 1];
    size_t length = put_frame(first, 1000, 5, 100), other = put_frame(second, 1100, 6, 50);
    struct offload_frame two[2] = {{first, length, (uint32_t)length, 0}, {second, other, (uint32_t)other, 1}};
    numbers(two, long_frame);
    without_ethernet(two);
    links(two);
    many_frames(&two[0]);
    without_memory(two);
    random_pairs(two, count_of_words > 1 ? atol(words[1]) : 300000);
    threads();
    engines(two);
    handed_over();
    return wrong;
}
