/* offload.h: captures of TCP segments and UDP datagrams in memory, merged and cut back; packet buffers; and by offload_burst.h, which is included,
 * frames merged and cut where they lie. Linked from liboffload.a, or from the shared object liboffload.so.3.
 *
 * Each call is proved for callers that keep the rules below, and docs/PROVED.md says what of it. Nothing checks a C caller: where a rule
 * is broken the behaviour is undefined.
 *
 *  - A pointer and the length after it name that many bytes, which can be read (const) or written. The pointer isn't NULL, also at
 *    length 0; nor are `options` and `count`.
 *  - What is written (`output`, `*count`) overlaps nothing else that is passed.
 *  - While a call runs nobody else writes what was passed to it, or reads what it writes.
 *  - malloc, realloc and free are of one allocator, and malloc aligns to 16.
 *  - No call from a signal handler, nor in the child of a fork of a process that has threads.
 *
 * No call prints, reads a file, starts a thread, takes a lock, or keeps a pointer after it has returned; what it took of malloc it has
 * given back, but for what pools and buffers keep. Several threads may call at once where what is written by each is its own, its pools and
 * buffers too. A pool or a buffer may go from thread to thread, by a lock or the start or the end of a thread, also where others hold blocks
 * of it.
 */
#ifndef OFFLOAD_H
#define OFFLOAD_H

#include "offload_burst.h"
#include <stddef.h>
#include <stdint.h>

/* Of this header, and the number of the shared object, whose names are the calls below and those of offload_burst.h. A change after which a
 * program has to be compiled again raises it, and so did the calls of offload_burst.h, which version 2 hadn't. In version 1
 * `struct offload_options` had neither `size` nor what stands behind `snap`, and there was no offload_queue_rss. */
#define OFFLOAD_VERSION 3

/* How many bytes of stack suffice for a call: it was seen to use 28920 at most, with those of malloc (stack.c, over all
 * samples, 2026-12-01). This isn't proved. */
#define OFFLOAD_STACK 65536u

#ifdef __cplusplus
extern "C" {
#endif

/* What a call answers, and no other number. */
enum offload_status {
    OFFLOAD_OK = 0,         /* all was read; the output stands at the front of `output`, *count bytes of it */
    OFFLOAD_USAGE = 2,      /* an option isn't as it has to be; `output` is as it was, *count is 0 */
    OFFLOAD_MALFORMED = 3,  /* the capture is refused at a record; as OFFLOAD_OK, of the records before it */
    OFFLOAD_POOL_EMPTY = 4, /* a round needs more than `blocks` blocks; as OFFLOAD_OK, of the rounds before it */
    OFFLOAD_NOT_SOLE = 5,   /* of buffers alone: others hold the block that would be written, or it was shared too often */
    OFFLOAD_NO_MEMORY = 7,  /* malloc refused; `output` is as it was, *count is 0 */
    OFFLOAD_NO_ROOM = 9     /* the output is longer than `output`, which is as it was; *count is the output's length */
};

/* How much room suffices, so that no call answers OFFLOAD_NO_ROOM; SIZE_MAX where that is more than a size_t holds. */

/* For offload_merge of a capture of this length with at most `records` records: 16 bytes more for each of them, and for each tap and record
 * 32 and at most `snap`, where all windows have no more bytes than the capture. A number of records that isn't known may be too large, as
 * SIZE_MAX: no more are counted than there is room for, which comes to twice the capture at most where there is no tap. */
size_t offload_merge_bound(size_t capture_length, size_t records, uint32_t taps, uint32_t snap);

/* For offload_segment of a capture of this length whose records stand for at most `packets` packets, as many as were merged: 216 bytes
 * more for each of them, a record's header and the 200 bytes of headers that a frame has at most. Where the number isn't known, at most
 * one a byte is counted. */
size_t offload_segment_bound(size_t capture_length, size_t packets);

/* How many blocks of 2048 bytes a frame of n bytes needs while its round lasts; and with how many no round of 64 records exceeds the pool,
 * whatever the capture: 131 for each record. A call takes its blocks of malloc and clears them, some 130 ns for each, so it asks for no more
 * than it needs: who knows that no frame is longer than n asks for budget * OFFLOAD_BLOCKS_OF(n), 192 in the place of 8384 for 64 frames of
 * 1514. Several bursts laid out as one capture share the pool. */
#define OFFLOAD_BLOCKS_OF(n) (((n) + 2111u) / 2048u + 2u)
#define OFFLOAD_ENOUGH_BLOCKS 8384u

/* How a capture is merged. Each option has to be as it is said here, also where it says nothing, as `snap` with no tap; begin with
 * OFFLOAD_DEFAULTS, and change what is to be another. No pointer is NULL: where there is nothing, its length is 0. */
struct offload_options {
    size_t size;              /* sizeof(struct offload_options), which tells a caller whose header is of another version */
    uint32_t budget;          /* records to a round, 1 to 4096 */
    uint32_t blocks;          /* blocks of 2048 bytes for a round, 1 to 65536 */
    uint32_t queues;          /* receive queues that a round's flows are spread over, 1 to 64 */
    uint32_t taps;            /* taps that read each frame, 0 to 8 */
    uint32_t snap;            /* bytes of a frame that each tap reads, 1 to 2048: tap t those from t * snap on */
    uint32_t segs;            /* packets that are merged into one record, at most, 1 to 4096 */
    const char *filter;       /* of a frame taps are shown as many bytes as this program's value: what `tcpdump -y EN10MB -ddd EXPRESSION */
    size_t filter_length;     /* | paste -sd,` prints, without the line feed at its end. 0: taps are shown all bytes */
    const uint8_t *rss_key;   /* the key of the Toeplitz hash of a flow's addresses and ports, by which its queue is told */
    size_t rss_key_length;    /* 40; or 0: a fold of all that names the flow tells its queue, as offload_queue does */
    const uint8_t *rss_table; /* queues, each below `queues`: a flow has the one at its hash modulo the table's length */
    size_t rss_table_length;  /* 1 to 128; or 0: the queues in turn, over 128 places. Without a key it is 0 */
};

/* Rounds of 64 records in one queue, with no tap, over as many blocks as suffice, and runs of any number of packets:
 * struct offload_options options = OFFLOAD_DEFAULTS; */
#define OFFLOAD_DEFAULTS                                                                                                  \
    {sizeof(struct offload_options), 64u, OFFLOAD_ENOUGH_BLOCKS, 1u, 0u, 64u, 4096u, "", 0, OFFLOAD_NO_BYTES, 0, OFFLOAD_NO_BYTES, 0}
#define OFFLOAD_NO_BYTES ((const uint8_t *)"")

/* Merges a capture of Ethernet frames (classic pcap, link type 1) to one of link type 147: round by round, queue by queue the merged records,
 * and then tap by tap the windows. Where the blocks suffice the bytes are those that `offload merge` writes with the same options. The
 * bytes are mostly fewer than the capture's. All is done in the thread that calls. An option that isn't as it has to be is answered
 * OFFLOAD_USAGE; where a filter is refused and malloc refuses what reading it takes, OFFLOAD_NO_MEMORY may be answered. */
uint32_t offload_merge(const struct offload_options *options, const uint8_t *capture, size_t capture_length,
                       uint8_t *output, size_t output_length, size_t *count);

/* Cuts a capture of link type 147 back into the packets that its records stand for, a capture of link type 1. Each record is a round of
 * its own, over `blocks` blocks (1 to 65536): 131 suffice for every lawful one, and OFFLOAD_BLOCKS_OF(n + 4) where no merged frame is
 * longer than n: four bytes of an offload header are counted with the frame.
 * The bytes are those that `offload segment` writes. */
uint32_t offload_segment(uint32_t blocks, const uint8_t *capture, size_t capture_length,
                         uint8_t *output, size_t output_length, size_t *count);

/* The receive queue of the frame's flow, below `queues`, which is 1 to 64; with another number of queues, that number. */
uint32_t offload_queue(const uint8_t *frame, size_t frame_length, uint32_t queues);

/* The same by a hash key of 40 bytes and a table, as offload_merge has it with `rss_key` and `rss_table`; with another number of queues, or
 * a table that isn't as it has to be, that number. */
uint32_t offload_queue_rss(const uint8_t *frame, size_t frame_length, const uint8_t *rss_key, const uint8_t *rss_table,
                           size_t rss_table_length, uint32_t queues);

/* ---- packet buffers, as struct sk_buff: a head block with headroom and tailroom, clones without a copy, and pieces of other blocks
 *
 *   head: a block of 2048 bytes                      pieces of other blocks
 *  +----------+---------------------+----------+    +---------+   +---------+
 *  | headroom | the buffer's bytes  | tailroom |--->| piece   |-->| piece   |--> ..
 *  +----------+---------------------+----------+    +---------+   +---------+
 *
 * A block may be held by several buffers: clones, and parts that were split off or attached. Who holds one alone may write it; else
 * OFFLOAD_NOT_SOLE is answered, and offload_skb_unshare copies it. Blocks that nobody holds any more come home to the pool that is passed, as
 * many as have a place there: once each buffer was released, to the pool that it was made of, as many are home as were made.
 *
 * A struct is filled with zeros before its first call, which makes it a place without a pool or a buffer, and is then only what calls made
 * of it. It isn't copied and both used. A pool is used by one thread at a time, and so is a buffer. Where a call isn't answered OFFLOAD_OK
 * nothing has changed, but for what stands beside it; a number that isn't as it has to be is OFFLOAD_USAGE, and so are a pool or a buffer
 * where there is none, and a place for a new one that isn't empty. Two structs that are passed are never one. */

struct offload_pool {
    void *at;
    uint8_t made;
};

struct offload_skb {
    void *at;
    uint8_t made;
};

/* A pool of so many blocks of 2048 bytes, 1 to 65,536, all home. Their memory is taken here. Also NO_MEMORY. */
uint32_t offload_pool_new(struct offload_pool *pool, uint32_t blocks);

/* How many blocks are home; 0 where there is no pool. */
uint32_t offload_pool_home(struct offload_pool *pool);

/* Ends a pool, and frees the blocks that are home: the struct is all zeros then. Buffers stay what they are, and their blocks go home to
 * another pool, or are freed where it has no place for them. */
void offload_pool_free(struct offload_pool *pool);

/* An empty buffer in a block of the pool, with so much headroom, 0 to 2048; what is left of the block is its tailroom. Also POOL_EMPTY and
 * NO_MEMORY: a buffer takes some 100 bytes of malloc. */
uint32_t offload_skb_new(struct offload_pool *pool, struct offload_skb *skb, size_t headroom);

/* Ends a buffer: the struct is all zeros then. NO_MEMORY only of one with more pieces than the pool was made of: the buffer stays. */
uint32_t offload_skb_release(struct offload_pool *pool, struct offload_skb *skb);

/* How many bytes a buffer has; 0 where there is none. */
size_t offload_skb_length(struct offload_skb *skb);

/* Copies `into_length` bytes out, from the place `at` on. USAGE where the buffer has fewer: nothing is written. */
uint32_t offload_skb_read(struct offload_skb *skb, size_t at, uint8_t *into, size_t into_length);

/* Bytes in front of the buffer's, by its headroom, and behind them, by its tailroom; there is tailroom only where no piece follows. Also
 * NO_ROOM, which is judged first, and NOT_SOLE. No buffer has 2^32 bytes. */
uint32_t offload_skb_push(struct offload_skb *skb, const uint8_t *bytes, size_t length);
uint32_t offload_skb_put_tail(struct offload_skb *skb, const uint8_t *bytes, size_t length);

/* The first bytes are gone, or the last; skb_trim of Linux is told how many stay. USAGE where there are fewer. NO_MEMORY as for a release. */
uint32_t offload_skb_pull(struct offload_pool *pool, struct offload_skb *skb, size_t length);
uint32_t offload_skb_trim(struct offload_pool *pool, struct offload_skb *skb, size_t length);

/* A second buffer of the same bytes, uncopied; both hold the blocks then. NOT_SOLE where a block was shared too often, more than ten
 * thousand times; NO_MEMORY: the head's block may count as held by others then, until it is unshared. */
uint32_t offload_skb_clone(struct offload_skb *skb, struct offload_skb *clone);

/* The buffer alone holds its head's block then, of the same bytes: where others do, they are copied into a block of the pool. POOL_EMPTY where
 * none is home, which is answered also where a copy might not be needed. */
uint32_t offload_skb_unshare(struct offload_pool *pool, struct offload_skb *skb);

/* A buffer of the same bytes in blocks of the pool that nobody else holds, with headroom 64. POOL_EMPTY where fewer are home than it takes,
 * ceil((length + 64) / 2048); NO_MEMORY. */
uint32_t offload_skb_copy(struct offload_pool *pool, struct offload_skb *skb, struct offload_skb *copy);

/* The buffer keeps its first `at` bytes, and `behind` has the rest, uncopied, behind a head of the pool that is 2048 bytes of headroom. USAGE
 * where there are fewer bytes; POOL_EMPTY, NOT_SOLE as for a clone, NO_MEMORY. */
uint32_t offload_skb_split_at(struct offload_pool *pool, struct offload_skb *skb, size_t at, struct offload_skb *behind);

/* The other's bytes follow, uncopied, and the other is all zeros then. USAGE where they would have 2^32 bytes; NO_MEMORY. */
uint32_t offload_skb_attach(struct offload_pool *pool, struct offload_skb *skb, struct offload_skb *other);

#ifdef __cplusplus
}
#endif

#endif
