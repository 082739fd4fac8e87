/* How deep the calls of offload.h reach into the stack: stack CAPTURE.. prints the most of each call, and ends with
 * status 1 where that is more than three quarters of OFFLOAD_STACK. Each call is made in a thread whose stack was
 * painted before, over each capture and over prefixes of it, in several ways. What malloc and free take is counted with
 * it. Seen, and not proved. */
#define _XOPEN_SOURCE 700
#include <offload.h>
#include <pthread.h>
#include <stdio.h>
#include <stdlib.h>
#include <string.h>

#define SIZE ((size_t)1 << 19)
#define MOST (OFFLOAD_STACK / 4 * 3)
#define PAINT 0xA5
#define BLOCKS 131u /* suffice to cut any record */

struct call {
    const struct offload_options *options; /* NULL: cut what was merged */
    const uint8_t *in;
    size_t in_length;
    uint8_t *out;
    size_t out_length, count;
    uint8_t *front; /* the frame of the thread's function */
    uint32_t status;
};

static uint8_t *stack;

/* Its own frame is counted too. */
static __attribute__((noinline)) uint32_t ask(struct call *call) {
    if (call->options)
        return offload_merge(call->options, call->in, call->in_length, call->out, call->out_length, &call->count);
    return offload_segment(BLOCKS, call->in, call->in_length, call->out, call->out_length, &call->count);
}

static __attribute__((noinline)) uint32_t ask_queues(struct call *call) {
    static const uint8_t key[40] = {1, 2, 3}, table[3] = {2, 0, 1};
    uint32_t sum = 0;
    for (size_t at = 24; at + 16 < call->in_length; at += 97) {
        size_t length = call->in_length - at < 1514 ? call->in_length - at : 1514;
        const uint8_t *frame = call->in + at + 16;
        sum += offload_queue(frame, length - 16, 64) + offload_queue_rss(frame, length - 16, key, table, 3, 3);
    }
    return sum;
}

static void *run_ask(void *given) {
    struct call *call = given;
    call->front = __builtin_frame_address(0);
    call->status = ask(call);
    return NULL;
}

static void *run_queues(void *given) {
    struct call *call = given;
    call->front = __builtin_frame_address(0);
    call->status = ask_queues(call);
    return NULL;
}

/* The bytes of the stack that a call changed, from the frame of the thread's function on. */
static size_t depth(void *(*run)(void *), struct call *call) {
    pthread_attr_t attributes;
    pthread_t thread;
    size_t at = 0;
    memset(stack, PAINT, SIZE);
    if (pthread_attr_init(&attributes) || pthread_attr_setstack(&attributes, stack, SIZE) ||
        pthread_create(&thread, &attributes, run, call) || pthread_join(thread, NULL)) {
        fprintf(stderr, "stack: no thread\n");
        exit(2);
    }
    pthread_attr_destroy(&attributes);
    while (at < SIZE && stack[at] == PAINT) at++;
    return (size_t)(call->front - (stack + at));
}

static void raise_to(size_t *most, size_t value) {
    if (value > *most) *most = value;
}

static size_t merging, segmenting, queueing;

static void measure(const struct offload_options *options, const uint8_t *in, size_t length) {
    size_t room = offload_merge_bound(length, SIZE_MAX, options->taps, options->snap);
    uint8_t *out = malloc(room + 1);
    struct call merge = {options, in, length, out, room, 0, NULL, 0};
    if (!out) exit(2);
    raise_to(&merging, depth(run_ask, &merge));
    struct call cut = {NULL, out, merge.count, malloc(2 * room + length + 1), 2 * room + length, 0, NULL, 0};
    if (!cut.out) exit(2);
    raise_to(&segmenting, depth(run_ask, &cut));
    cut.out_length = 0; /* no room */
    raise_to(&segmenting, depth(run_ask, &cut));
    merge.out_length = 0;
    raise_to(&merging, depth(run_ask, &merge));
    free(cut.out);
    free(out);
}

static void measure_all(const uint8_t *in, size_t length) {
    static const uint8_t key[40] = {1, 2, 3};
    static const char filter[] = "4,48 0 0 47,69 0 1 8,6 0 0 90,6 0 0 0";
    struct offload_options plain = OFFLOAD_DEFAULTS, small = plain, large = plain, lanes = plain, wrong = plain;
    small.budget = 1;
    large.budget = 4096;
    lanes.queues = 64;
    lanes.taps = 8;
    lanes.snap = 2048;
    large.blocks = 16384;
    lanes.filter = filter;
    lanes.filter_length = sizeof filter - 1;
    lanes.rss_key = key;
    lanes.rss_key_length = sizeof key;
    wrong.filter = "x";
    wrong.filter_length = 1;
    measure(&plain, in, length);
    measure(&small, in, length);
    measure(&large, in, length);
    measure(&lanes, in, length);
    measure(&wrong, in, length);
    struct call queues = {&plain, in, length, NULL, 0, 0, NULL, 0};
    raise_to(&queueing, depth(run_queues, &queues));
}

int main(int count, char **names) {
    stack = aligned_alloc(4096, SIZE);
    if (count < 2 || !stack) {
        fprintf(stderr, "usage: stack CAPTURE..\n");
        return 2;
    }
    for (int i = 1; i < count; i++) {
        FILE *file = fopen(names[i], "rb");
        uint8_t *in = malloc((size_t)1 << 24);
        size_t length = file && in ? fread(in, 1, (size_t)1 << 24, file) : 0;
        if (!length) {
            fprintf(stderr, "stack: %s can't be read\n", names[i]);
            return 2;
        }
        fclose(file);
        measure_all(in, length);
        for (size_t part = 1; part < 4; part++) measure_all(in, length * part / 4 + part); /* cut in a record */
        in[20] = 0;
        measure_all(in, length); /* of another link type */
        free(in);
    }
    printf("bytes of stack: offload_merge %zu, offload_segment %zu, both queues %zu; offload.h says %u\n", merging,
           segmenting, queueing, OFFLOAD_STACK);
    return merging > MOST || segmenting > MOST || queueing > MOST;
}
