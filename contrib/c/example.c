/* What `offload` does, by the library: example merge [BUDGET [QUEUES [TAPS [SNAP [SEGS [FILTER [RSS [TABLE]]]]]]]] | segment < in > out
 * where an empty FILTER, RSS or TABLE is none. */
#include <offload.h>
#include <stdio.h>
#include <stdlib.h>
#include <string.h>

static uint32_t number(int argc, char **argv, int at, uint32_t otherwise) {
    return at < argc ? (uint32_t)strtoul(argv[at], NULL, 10) : otherwise;
}

/* The bytes that hexadecimal digits write. */
static size_t hash_key(const char *digits, uint8_t key[40]) {
    size_t n = 0;
    unsigned byte;
    while (n < 40 && sscanf(digits + 2 * n, "%2x", &byte) == 1) key[n++] = (uint8_t)byte;
    return n;
}

/* The numbers between commas. */
static size_t table(const char *numbers, uint8_t queues[128]) {
    size_t n = 0;
    for (char *end; n < 128 && *numbers; numbers = *end ? end + 1 : end) queues[n++] = (uint8_t)strtoul(numbers, &end, 10);
    return n;
}

static struct offload_options options_of(int argc, char **argv) {
    static uint8_t key[40], queues[128];
    struct offload_options options = OFFLOAD_DEFAULTS;
    options.budget = number(argc, argv, 2, 64);
    options.blocks = 131 * options.budget > 65536 ? 65536 : 131 * options.budget;
    options.queues = number(argc, argv, 3, 1);
    options.taps = number(argc, argv, 4, 0);
    options.snap = number(argc, argv, 5, 64);
    options.segs = number(argc, argv, 6, 4096);
    options.filter = argc > 7 ? argv[7] : "";
    options.filter_length = strlen(options.filter);
    options.rss_key = key;
    options.rss_key_length = argc > 8 ? hash_key(argv[8], key) : 0;
    options.rss_table = queues;
    options.rss_table_length = argc > 9 ? table(argv[9], queues) : 0;
    return options;
}

int main(int argc, char **argv) {
    int cuts = argc > 1 && strcmp(argv[1], "segment") == 0;
    uint32_t status = OFFLOAD_NO_ROOM;
    struct offload_options options = options_of(argc, argv);
    size_t room = 65536, length = 0, some, count = 0;
    uint8_t *in = malloc(room), *out = NULL;
    while (in && (some = fread(in + length, 1, room - length, stdin)) > 0)
        if ((length += some) == room) in = realloc(in, room *= 2);
    /* merging has room at once; cutting mostly, and where it hasn't the call says how much it wants */
    for (count = cuts ? 2 * length : offload_merge_bound(length, SIZE_MAX, options.taps, options.snap); in && status == OFFLOAD_NO_ROOM;) {
        free(out);
        room = count;
        if (!(out = malloc(room ? room : 1))) break;
        status = cuts ? offload_segment(131, in, length, out, room, &count) : offload_merge(&options, in, length, out, room, &count);
    }
    if (!in || !out) return OFFLOAD_NO_MEMORY;
    if (fwrite(out, 1, count, stdout) != count) return 6;
    free(out);
    free(in);
    return (int)status;
}
