/* What a caller sees of the library, for the captures that are named: test FILE.. ; ends with 0 where all holds. */
#include <offload.h>
#include <stdio.h>
#include <stdlib.h>
#include <string.h>

#define GUARD 64 /* bytes behind each output that no call may touch */
#define FILL 0xa5

static int wrong;

static void check(int holds, const char *name, const char *what) {
    if (holds) return;
    printf("FAILED: %s: %s\n", name, what);
    wrong = 1;
}

struct output {
    uint8_t *bytes;
    size_t room, count;
    uint32_t status;
};

#define NO_BYTES "", 0, OFFLOAD_NO_BYTES, 0, OFFLOAD_NO_BYTES, 0
#define OPTIONS(budget, blocks, queues, taps, snap, segs) \
    {sizeof(struct offload_options), budget, blocks, queues, taps, snap, segs, NO_BYTES}

/* The key of Microsoft's suite of tests for receive side scaling. */
static const uint8_t hash_key[40] = {0x6d, 0x5a, 0x56, 0xda, 0x25, 0x5b, 0x0e, 0xc2, 0x41, 0x67, 0x25, 0x3d, 0x43, 0xa3,
                                     0x8f, 0xb0, 0xd0, 0xca, 0x2b, 0xcb, 0xae, 0x7b, 0x30, 0xb4, 0x77, 0xcb, 0x2d, 0xa3,
                                     0x80, 0x30, 0xf2, 0x0c, 0x6a, 0x42, 0xb7, 0x3b, 0xbe, 0xac, 0x01, 0xfa};
static const uint8_t two_queues[] = {3, 1};

#define FORTY_BYTES "1,6 0 0 40"

static const struct offload_options plain = OFFLOAD_DEFAULTS, tapped = OPTIONS(16, OFFLOAD_ENOUGH_BLOCKS, 4, 3, 100, 17),
    hashed = {sizeof(struct offload_options), 16, OFFLOAD_ENOUGH_BLOCKS, 4, 3, 100, 4096, FORTY_BYTES, sizeof FORTY_BYTES - 1,
              hash_key, sizeof hash_key, two_queues, sizeof two_queues};

/* Merges, or cuts where there are no options, into so much room, with guarded bytes behind it. */
static struct output call(const struct offload_options *options, const uint8_t *in, size_t length, size_t room, const char *name) {
    struct output out = {malloc(room + GUARD), room, 0, OFFLOAD_NO_MEMORY};
    if (!out.bytes) exit(OFFLOAD_NO_MEMORY);
    memset(out.bytes, FILL, room + GUARD);
    out.status = options ? offload_merge(options, in, length, out.bytes, room, &out.count)
                         : offload_segment(131, in, length, out.bytes, room, &out.count);
    size_t from = out.status == OFFLOAD_NO_ROOM ? 0 : out.count, at = from;
    while (at < room + GUARD && out.bytes[at] == FILL) at++;
    check(at == room + GUARD, name, "a byte behind the output is changed");
    return out;
}

/* Just enough room, and a byte less, which tells the length. */
static void exact(const struct offload_options *options, const uint8_t *in, size_t length, const struct output *whole,
                  const char *name) {
    struct output fits = call(options, in, length, whole->count, name);
    check(fits.status == whole->status && fits.count == whole->count && !memcmp(fits.bytes, whole->bytes, whole->count), name,
          "room that just fits");
    free(fits.bytes);
    if (whole->count == 0) return;
    struct output brief = call(options, in, length, whole->count - 1, name);
    check(brief.status == OFFLOAD_NO_ROOM && brief.count == whole->count, name, "a byte too little tells the length");
    free(brief.bytes);
}

/* A capture in memory, of which the numbers of records and of packets aren't known. */
static void capture(const struct offload_options *options, const uint8_t *in, size_t length, const char *name) {
    struct output merged = call(options, in, length, offload_merge_bound(length, SIZE_MAX, options->taps, options->snap), name);
    check(merged.status == OFFLOAD_OK, name, "it is merged within the bound");
    exact(options, in, length, &merged, name);
    struct output cut = call(NULL, merged.bytes, merged.count, offload_segment_bound(merged.count, length / 16), name);
    check(cut.status == OFFLOAD_OK && cut.count == length, name, "cut again it is as long, within the bound");
    exact(NULL, merged.bytes, merged.count, &cut, name);
    free(merged.bytes);
    free(cut.bytes);
}

static void file(const char *name) {
    FILE *from = fopen(name, "rb");
    if (!from || fseek(from, 0, SEEK_END)) exit(5);
    long length = ftell(from);
    uint8_t *in = malloc(length > 0 ? (size_t)length : 1);
    rewind(from);
    if (!in || fread(in, 1, (size_t)length, from) != (size_t)length) exit(5);
    fclose(from);
    capture(&plain, in, (size_t)length, name);
    capture(&tapped, in, (size_t)length, name);
    capture(&hashed, in, (size_t)length, name);
    free(in);
}

static void numbers(void) {
    const uint8_t none = 0;
    uint8_t byte = FILL;
    size_t count = 1;
    static const struct offload_options bad[] = {
        OPTIONS(0, 1, 1, 0, 1, 1),  OPTIONS(4097, 1, 1, 0, 1, 1), OPTIONS(UINT32_MAX, 1, 1, 0, 1, 1), OPTIONS(1, 0, 1, 0, 1, 1),
        OPTIONS(1, 65537, 1, 0, 1, 1), OPTIONS(1, 1, 0, 0, 1, 1), OPTIONS(1, 1, 65, 0, 1, 1), OPTIONS(1, 1, 1, 9, 1, 1),
        OPTIONS(1, 1, 1, UINT32_MAX, 1, 1), OPTIONS(1, 1, 1, 0, 0, 1), OPTIONS(1, 1, 1, 0, 2049, 1), OPTIONS(1, 1, 1, 0, 1, 0),
        OPTIONS(1, 1, 1, 0, 1, 4097), {sizeof bad[0] - 1, 1, 1, 1, 0, 1, 1, NO_BYTES}, {sizeof bad[0] + 1, 1, 1, 1, 0, 1, 1, NO_BYTES},
    };
    static const struct offload_options least = OPTIONS(1, 1, 1, 0, 1, 1);
    for (size_t i = 0; i < sizeof bad / sizeof *bad; i++) {
        check(offload_merge(&bad[i], &none, 0, &byte, 1, &count) == OFFLOAD_USAGE && count == 0 && byte == FILL, "numbers",
              "one out of its range is refused, and nothing is written");
        count = 1;
    }
    check(offload_segment(0, &none, 0, &byte, 1, &count) == OFFLOAD_USAGE && count == 0, "numbers", "no blocks to cut with");
    check(offload_merge(&least, &none, 0, &byte, 1, &count) == OFFLOAD_MALFORMED && count == 0, "numbers", "no capture at all");
    check(offload_queue(&byte, 1, 0) == 0 && offload_queue(&byte, 1, 65) == 65 && offload_queue(&byte, 1, 64) < 64, "numbers", "queues");
    check(offload_merge_bound(0, SIZE_MAX, 0, 64) == 0 && offload_merge_bound(40, SIZE_MAX, 0, 64) == 56 &&
              offload_merge_bound(1000, 2, 0, 64) == 1032 && offload_merge_bound(1000, 2, 3, 10) == 1284,
          "bounds", "of merging");
    check(offload_merge_bound(SIZE_MAX, SIZE_MAX, UINT32_MAX, UINT32_MAX) == SIZE_MAX &&
              offload_segment_bound(SIZE_MAX, SIZE_MAX) == SIZE_MAX,
          "bounds", "no larger number");
    check(offload_segment_bound(1000, 2) == 1432 && offload_segment_bound(3, 4) == 651, "bounds", "of cutting");
}

/* How a capture of no bytes is answered with a filter, a hash key and a table. */
static uint32_t answer(const char *filter, size_t key_length, const uint8_t *table, size_t table_length) {
    const uint8_t none = 0;
    uint8_t byte = FILL;
    size_t count = 1;
    struct offload_options options = OFFLOAD_DEFAULTS;
    options.queues = 4;
    options.filter = filter;
    options.filter_length = strlen(filter);
    options.rss_key = hash_key;
    options.rss_key_length = key_length;
    options.rss_table = table;
    options.rss_table_length = table_length;
    uint32_t status = offload_merge(&options, &none, 0, &byte, 1, &count);
    check(count == 0 && byte == FILL, "texts", "nothing is written");
    return status;
}

/* Filters, hash keys and tables that aren't as they have to be, and some that are. */
static void texts(void) {
    static const char *const refused[] = {"0", "1,255 0 0 0", "1,21 0 0 6", "1,52 0 0 0", "1,2 0 0 16", "1,135 0 0 0", "1,6 0 0", "\xff"};
    static const uint8_t in_turn[129] = {0}, four[] = {4};
    for (size_t i = 0; i < sizeof refused / sizeof *refused; i++)
        check(answer(refused[i], 0, in_turn, 0) == OFFLOAD_USAGE, "texts", "a filter that is none");
    check(answer(FORTY_BYTES, 0, in_turn, 0) == OFFLOAD_MALFORMED, "texts", "a filter");
    check(answer("", 39, in_turn, 0) == OFFLOAD_USAGE, "texts", "a key of 39 bytes");
    check(answer("", 40, in_turn, 129) == OFFLOAD_USAGE, "texts", "a table of 129 queues");
    check(answer("", 40, four, 1) == OFFLOAD_USAGE, "texts", "a queue that isn't there");
    check(answer("", 0, in_turn, 1) == OFFLOAD_USAGE, "texts", "a table without a key");
    check(answer("", 40, in_turn, 0) == OFFLOAD_MALFORMED && answer("", 40, in_turn, 128) == OFFLOAD_MALFORMED, "texts", "a key and a table");
}

/* The queue by the hash 51ccc178, which Microsoft's suite of tests has for TCP from 66.9.149.187, port 2794, to 161.142.100.80, port 1766. */
static void hashes(void) {
    static const uint8_t frame[54] = {2,  0, 0,  0,    0, 2,    2,  0,    0,    0,    0,    1,    8,    0,    0x45, 0,    0,    0x28,
                                      0,  0, 0x40, 0,  0x40, 6, 0,  0,    0x42, 0x09, 0x95, 0xbb, 0xa1, 0x8e, 0x64, 0x50, 0x0a, 0xea,
                                      6,  0xe6, 0, 0,  0, 0,    0,  0,    0,    0,    0x50, 0x10, 0,    0,    0,    0,    0,    0};
    static const uint8_t table[129] = {2, 1};
    const size_t length = sizeof frame;
    check(offload_queue_rss(frame, length, hash_key, table, 0, 4) == 0 && offload_queue_rss(frame, length, hash_key, table, 0, 7) == 1,
          "hashes", "the queues in turn");
    check(offload_queue_rss(frame, length, hash_key, table, 2, 3) == 2, "hashes", "a table");
    check(offload_queue_rss(frame, length, hash_key, table, 2, 2) == 2 && offload_queue_rss(frame, length, hash_key, table, 129, 3) == 3 &&
              offload_queue_rss(frame, length, hash_key, table, 0, 0) == 0 && offload_queue_rss(frame, length, hash_key, table, 0, 65) == 65,
          "hashes", "queues and tables that aren't as they have to be");
    check(offload_queue_rss(frame, 53, hash_key, table, 2, 3) == 0, "hashes", "a frame that isn't whole has queue 0");
}

int main(int argc, char **argv) {
    numbers();
    texts();
    hashes();
    for (int i = 1; i < argc; i++) file(argv[i]);
    if (!wrong) printf("ok: %d captures\n", argc - 1);
    return wrong;
}
