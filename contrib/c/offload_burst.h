/* offload_burst.h: frames merged and cut where they lie: no frame is moved, and no payload copied. They are merged a burst at once, or by an
 * engine that is kept, whose memory is taken once. Linked from liboffload.a, or from liboffload_burst.a, which has these calls alone.
 *
 * It is proved for callers that keep the rules below, and docs/PROVED.md says what of it. Nothing checks a C caller: where a rule is broken
 * the behaviour is undefined. Numbers have no rules: each is tested, and a wrong one is answered OFFLOAD_BURST_USAGE.
 *
 *  - A pointer and the count after it name that many bytes or structs, which can be read (const) or written. The pointer isn't NULL, also at
 *    count 0, nor is `bytes` of a frame; nor is `count`.
 *  - What is written (`next`, `runs`, `segments`, `*count`) overlaps nothing else that is passed.
 *  - While a call runs nobody else writes what was passed to it, or reads what it writes.
 *  - malloc, realloc and free are of one allocator, and malloc aligns to 16.
 *  - No call from a signal handler, nor in the child of a fork of a process that has threads.
 *
 *  - A struct offload_gro is filled with zeros before its first call, and is then only what calls made of it. It isn't copied and both used.
 *  - Frames that an engine has received stay as they are, at the front of the list that is passed, until its next flush or free.
 *
 * A call prints nothing, starts no thread, takes no lock, and keeps no pointer to a frame after it has returned; what it took of malloc it has
 * given back, but for what an engine keeps until it is freed. Several threads may call at once where what is written by each is its own, its
 * engine too. An engine may go from thread to thread, by a lock or the start or the end of a thread.
 */
#ifndef OFFLOAD_BURST_H
#define OFFLOAD_BURST_H

#include <stddef.h>
#include <stdint.h>

#ifdef __cplusplus
extern "C" {
#endif

/* What a call answers, and no other number. */
enum offload_burst_status {
    OFFLOAD_BURST_OK = 0,        /* the first *count of `runs` are what the frames come to */
    OFFLOAD_BURST_USAGE = 2,     /* a number or a frame isn't as it has to be; nothing was written, *count is 0 */
    OFFLOAD_BURST_FULL = 4,      /* more frames than the engine was made for; nothing was written, *count is 0 */
    OFFLOAD_BURST_UNLAWFUL = 6,  /* no merged frame that may be cut so, or a sum of it is wrong; *count is 0 */
    OFFLOAD_BURST_NO_MEMORY = 7, /* malloc refused; nothing was written, *count is 0 */
    OFFLOAD_BURST_NO_ROOM = 9    /* a list has fewer entries than are to be written; nothing was written, *count is 0 */
};

/* An Ethernet frame in one piece, of at most 262,144 bytes. Its first two members are those of a struct iovec. */
struct offload_frame {
    const uint8_t *bytes;
    size_t length;
    uint32_t original; /* as `length`, but more of a frame that was cut short, which is never merged; below 2^31 */
    uint32_t number;   /* above that of the frame before; 0, 1, .. where nothing else numbers them */
};

/* What frames of one flow come to. The merged frame is the first `headers_length` bytes of `headers`, and behind them what stands behind as
 * many bytes of each of its frames: of `first`, of next[first], .., `n` of them. Of a frame that is alone (`n` 1) `headers_length` is 0, so
 * that it is the frame itself. As iovecs: {headers, headers_length}, and for each frame {bytes + headers_length, length - headers_length}. */
struct offload_run {
    uint32_t first;          /* the index of its first frame */
    uint32_t n;              /* how many frames */
    uint32_t m;              /* bytes of payload of each but the last, which has 1 to m; 0 where n is 1 */
    uint32_t length;         /* bytes of the merged frame */
    uint32_t headers_length; /* 42 to 200; 0 where n is 1 */
    uint16_t pseudo;         /* the sum of the pseudo header of the merged frame's TCP or UDP, not complemented: what a device
                              * that sums itself wants in the field of the sum, high byte first; 0 where n is 1 */
    uint8_t kind;            /* 1 where frames were merged, 0 of one alone */
    uint8_t modes;           /* a bit for each IP header, the lowest for the first: set where the identification of an IPv4 header stays */
    uint8_t ip_at;           /* where the last IP header begins, in bytes from the frame's start; 0 where n is 1 */
    uint8_t leaf_at;         /* where the TCP or UDP header behind it begins; 0 where n is 1 */
    uint8_t leaf;            /* 6 of TCP, 17 of UDP; 0 where n is 1 */
    uint8_t headers[200];    /* what is behind the first headers_length bytes is left as it was, or of any value */
};

/* Merges at most 65,535 frames where they lie, into runs of at most `segs` (1 to 4096) whose merged frame has at most `bytes`, as a device may
 * want it: 65,535 with its headers, say. 0 is no bound but a frame's own. `next` and `runs` have room for as many entries as there are frames.
 *
 * On OFFLOAD_BURST_OK the runs are the maximal mergeable runs of each flow, in the order of their first frames; each frame is in one run,
 * once; and cutting a merged frame into its n segments gives its frames back, byte for byte and in order. */
uint32_t offload_gro_burst(uint32_t segs, uint32_t bytes, const struct offload_frame *frames, size_t frames_count, uint32_t *next,
                           size_t next_count, struct offload_run *runs, size_t runs_count, size_t *count);

/* What packets begin with, by the numbers of captures' link types. */
enum offload_link {
    OFFLOAD_LINK_ETHERNET = 1, /* an Ethernet header */
    OFFLOAD_LINK_RAW = 101     /* an IP header, of either version, as those of a TUN device */
};

/* The same for packets that begin as `link` says, where they lie. Raw packets are merged as if each had an Ethernet header in front, and nothing that
 * is told has it: a run's headers begin with IP, and `ip_at`, `leaf_at`, `length`, `headers_length` (28 to 186) and `bytes` count from there. A
 * packet that is no IP is alone. One has at most 262,130 bytes, and an original length below 2^31 - 14. USAGE also for another link. */
uint32_t offload_gro_burst_link(uint32_t link, uint32_t segs, uint32_t bytes, const struct offload_frame *frames, size_t frames_count,
                                uint32_t *next, size_t next_count, struct offload_run *runs, size_t runs_count, size_t *count);

/* An engine, or none where it is all zeros. Its members are the library's own. */
struct offload_gro {
    void *at;
    uint8_t made;
};

/* An engine for at most `frames` (0 to 65,535) between two flushes, in runs of at most `segs` and `bytes`, as by offload_gro_burst, where there
 * is none yet. All memory that it takes it takes here: some 2,700 bytes and 200 a frame. 0, USAGE or NO_MEMORY. */
uint32_t offload_gro_new(struct offload_gro *gro, uint32_t frames, uint32_t segs, uint32_t bytes);

/* The same for packets that begin as `link` says: all that it merges, receives and flushes are such, and what it tells is as
 * offload_gro_burst_link tells it. Of raw packets it takes some 250 bytes more for each, for a copy of its headers. */
uint32_t offload_gro_new_link(struct offload_gro *gro, uint32_t link, uint32_t frames, uint32_t segs, uint32_t bytes);

/* A burst as by offload_gro_burst, by the memory of an engine that has received nothing since its last flush: the call for who merges burst after
 * burst. Also FULL; USAGE where there is no engine, or it has received frames. */
uint32_t offload_gro_merge(struct offload_gro *gro, const struct offload_frame *frames, size_t frames_count, uint32_t *next, size_t next_count,
                           struct offload_run *runs, size_t runs_count, size_t *count);

/* Frames as they come: of a list, those that the engine hasn't received since its last flush; the others stand at its front, as they were. Where
 * it isn't OK none of them is received. FULL where the list is longer than the engine was made for, so that it is to be flushed first; USAGE where
 * the list is shorter than what was received, or there is no engine. It takes no memory. */
uint32_t offload_gro_receive(struct offload_gro *gro, const struct offload_frame *frames, size_t frames_count);

/* What the frames come to that the engine has received since its last flush, as offload_gro_burst says it of the whole list, in however many calls
 * they came. On OK the engine has received none then, and the frames are the caller's again; else it has what it had. NO_ROOM; USAGE where these
 * are more or fewer frames than it has received, or there is no engine. */
uint32_t offload_gro_flush(struct offload_gro *gro, const struct offload_frame *frames, size_t frames_count, uint32_t *next, size_t next_count,
                           struct offload_run *runs, size_t runs_count, size_t *count);

/* Ends an engine, whatever it has received: the struct is all zeros then, and may be made an engine again. */
void offload_gro_free(struct offload_gro *gro);

/* ---- the inverse */

/* A segment of a frame: the first `headers_length` bytes of `headers`, and behind them `length` bytes of the frame, from `at` on. */
struct offload_segment {
    uint32_t at;
    uint32_t length;
    uint32_t headers_length; /* 42 to 200 */
    uint8_t headers[200];    /* what is behind the first headers_length bytes is left as it was */
};

/* Cuts a merged frame into segments of `m` bytes of payload, the last of which has the rest, with their own sequence numbers, identifications,
 * lengths and sums. `m` and `modes` are those of its run; of a frame that a kernel or a card left to be cut they are its gso_size and 0.
 *
 * On OK the first *count of `segments` are the segments that the definition gives: of what a run comes to, the run's frames, byte for byte.
 * UNLAWFUL exactly where it has to be: a length, a sum or a flag in it is wrong, it has no more than `m` bytes of payload, or `modes` has a bit
 * for another header than IPv4's with "don't fragment". USAGE where m is 0, or the frame longer than 262,144 bytes. NO_ROOM. */
uint32_t offload_gso_burst(const uint8_t *frame, size_t length, uint32_t m, uint8_t modes, struct offload_segment *segments,
                           size_t segments_count, size_t *count);

/* Fills in the sums of a frame that hold that of their pseudo header alone, as a host leaves them to its card (VIRTIO_NET_HDR_F_NEEDS_CSUM); all
 * other bytes stay. OK where each sum of the frame is right then; UNLAWFUL where one isn't, a length is wrong, or its headers aren't known; USAGE
 * where it is longer than 262,144 bytes. */
uint32_t offload_fill_sums(uint8_t *frame, size_t length);

/* ---- packets without an Ethernet header that are to be cut
 *
 * What merges them where they lie stands above (OFFLOAD_LINK_RAW). What cuts, fills in sums and tells causes wants frames: a packet is read 14
 * bytes behind the front of its room, an Ethernet header is written there, and these are a frame like any other. What comes of it is written
 * without its first 14 bytes again: of a run {headers + 14, headers_length - 14}, and of a frame that is alone {bytes + 14, length - 14}; of a
 * segment {headers + 14, headers_length - 14}. No byte of a packet is moved. `ip_at` and `leaf_at` count the 14 bytes. */

/* Writes an Ethernet header into the first 14 bytes of a frame, for the IP packet behind them: addresses of zeros, and the type of its version. No
 * other byte is written. USAGE where there are no bytes behind, or their version is neither 4 nor 6: the frame is as it was. */
uint32_t offload_put_ethernet(uint8_t *frame, size_t length);

/* ---- why a frame can't be merged */

/* The first condition that fails, in this order, but that what a frame without a shape is told by stands in its place: its first IP header. */
enum offload_cause {
    OFFLOAD_MERGEABLE = 0, /* none: the frame may be merged */
    OFFLOAD_CUT = 1,       /* it was cut short */
    OFFLOAD_FRAGMENT = 2,  /* it is a fragment */
    OFFLOAD_OPTIONS = 3,   /* its IPv4 header has options */
    OFFLOAD_EXTENSION = 4, /* its IPv6 header is followed by an extension header */
    OFFLOAD_LAYOUT = 5,    /* its headers are others than those that merge */
    OFFLOAD_LENGTH = 6,    /* a length in its headers doesn't count to its end: it has padding, or a card has still to cut it */
    OFFLOAD_FLAGS = 7,     /* a reserved bit is set, or TCP's flags are others than ACK with at most PSH and FIN */
    OFFLOAD_EMPTY = 8,     /* it has no payload, as an acknowledgment */
    OFFLOAD_SUM = 9        /* a sum is wrong, or left to a card */
};

/* Why a frame that had `original` bytes before it was captured can't be merged. */
uint32_t offload_why(const uint8_t *frame, size_t length, uint32_t original);

/* ---- why two frames don't continue one another */

/* The first condition that fails, in this order: that each may be merged, and then what the definition of a run asks of both. OFFLOAD_MERGEABLE
 * where none does: the two are a run. */
enum offload_pair_cause {
    OFFLOAD_FIRST = 10,          /* the first can't be merged itself, as offload_why tells */
    OFFLOAD_SECOND = 11,         /* the second can't */
    OFFLOAD_FLOW = 12,           /* they are of two flows: addresses, tags, tunnel or ports differ */
    OFFLOAD_HEADERS = 13,        /* another field of their headers differs, or a header */
    OFFLOAD_UDP_SUM = 14,        /* one has a UDP sum, and the other none */
    OFFLOAD_LONGER = 15,         /* the second is longer than the first */
    OFFLOAD_PUSHED = 16,         /* the first has PSH or FIN, which end a run */
    OFFLOAD_SEQUENCE = 17,       /* the second's sequence number isn't the one behind the first's payload: lost, repeated or out of order */
    OFFLOAD_IDENTIFICATION = 18, /* an IPv4 identification neither rises by one nor stays under "don't fragment" */
    OFFLOAD_TOO_LONG = 19        /* together they are longer than a length in their headers can say, or than 262,144 bytes */
};

/* Why the second of two frames, in the order in which they came, doesn't continue the first. A number of theirs isn't read. */
uint32_t offload_why_apart(const struct offload_frame *first, const struct offload_frame *second);

#ifdef __cplusplus
}
#endif

#endif
