/* Tells of each frame of a capture of Ethernet frames (classic pcap, in this machine's byte order) why it can't be merged, a line each: burst_why
 * <from.pcap. With the word `pairs`, of the first and the second, the third and the fourth, and so on, why they don't continue one another. */
#include "offload_burst.h"
#include <stdio.h>
#include <stdlib.h>
#include <string.h>

static struct offload_frame frame_at(const uint8_t *record) {
    uint32_t head[4];
    memcpy(head, record, sizeof head);
    return (struct offload_frame){record + 16, head[2], head[3], 0};
}

int main(int count_of_words, char **words) {
    int of_pairs = count_of_words > 1 && !strcmp(words[1], "pairs");
    size_t room = 1 << 26, at = 24;
    uint8_t *in = malloc(room);
    if (!in) return OFFLOAD_BURST_NO_MEMORY;
    size_t length = fread(in, 1, room, stdin);
    while (at + 16 <= length) {
        struct offload_frame first = frame_at(in + at);
        at += 16 + first.length;
        if (of_pairs) {
            struct offload_frame second = frame_at(in + at);
            at += 16 + second.length;
            printf("%u\n", (unsigned)offload_why_apart(&first, &second));
        } else {
            printf("%u\n", (unsigned)offload_why(first.bytes, first.length, first.original));
        }
    }
    free(in);
    return 0;
}
