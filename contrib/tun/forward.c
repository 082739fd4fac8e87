/* Joins two network namespaces by a TAP or a TUN device in each: what one sends is read here and written to the other, as a link does it, with
 * virtio-net headers. Frames are merged before they are written, so that the other kernel takes one for many, and a large send that a kernel left to be cut is
 * cut here.
 *
 * usage: forward NAMESPACE DEVICE NAMESPACE DEVICE plain|merged|cut tap|tun
 *
 * plain: each frame is written as it was read. merged: bursts of up to 64 frames are merged. cut: the kernels leave large sends and sums to the
 * link, which cuts them, and merges what it has cut. A TUN device has packets without an Ethernet header: they get one here, in front of what is
 * read, and are written without it. At SIGTERM it tells what it did. */
#define _GNU_SOURCE
#include "offload_burst.h"
#include <errno.h>
#include <fcntl.h>
#include <linux/if.h>
#include <linux/if_tun.h>
#include <linux/virtio_net.h>
#include <poll.h>
#include <sched.h>
#include <signal.h>
#include <stdio.h>
#include <stdlib.h>
#include <string.h>
#include <sys/ioctl.h>
#include <sys/resource.h>
#include <sys/uio.h>
#include <unistd.h>

enum { BURST = 64, ROOM = 65536 + 64, ETHERNET = 14, MOST_PACKET = 65535, PIECES = 64, UDP_L4 = 5, USO = 0x60 };

static volatile sig_atomic_t is_over;
static int is_merging, is_cutting;
static uint32_t front; /* bytes of a frame that the devices don't have: those of an Ethernet header, or none */
static unsigned long long read_count, sent_count, written_count, cut_count, refused_count, wrong_count;

static uint8_t store[BURST][ROOM];
static struct offload_frame frames[BURST];
static struct offload_run runs[BURST];
static struct offload_segment segments[1024];
static uint8_t pieces[PIECES][ROOM / 16];
static uint32_t next[BURST];
static struct offload_gro gro;
static const struct virtio_net_hdr no_header;

static void stop(int signal) {
    (void)signal;
    is_over = 1;
}

static int fail(const char *what) {
    perror(what);
    exit(1);
}

static int open_device(const char *space, const char *name) {
    char path[256];
    snprintf(path, sizeof path, "/var/run/netns/%s", space);
    int there = open(path, O_RDONLY), own = open("/proc/self/ns/net", O_RDONLY), size = sizeof no_header;
    if (there < 0 || own < 0 || setns(there, CLONE_NEWNET)) return fail(path);
    int device = open("/dev/net/tun", O_RDWR | O_NONBLOCK);
    struct ifreq request = {.ifr_flags = (short)((front ? IFF_TUN : IFF_TAP) | IFF_NO_PI | IFF_VNET_HDR)};
    snprintf(request.ifr_name, IFNAMSIZ, "%s", name);
    if (device < 0 || ioctl(device, TUNSETIFF, &request) || ioctl(device, TUNSETVNETHDRSZ, &size)) return fail(name);
    if (is_cutting && ioctl(device, TUNSETOFFLOAD, TUN_F_CSUM | TUN_F_TSO4 | TUN_F_TSO6 | USO) &&
        ioctl(device, TUNSETOFFLOAD, TUN_F_CSUM | TUN_F_TSO4 | TUN_F_TSO6))
        return fail("TUNSETOFFLOAD");
    if (setns(own, CLONE_NEWNET)) return fail("setns");
    close(there), close(own);
    return device;
}

/* Writes a frame in parts, of which the first is the virtio-net header's. */
static void put(int to, const struct virtio_net_hdr *header, struct iovec *parts, int count) {
    parts[0] = (struct iovec){(void *)header, sizeof *header};
    for (;;) {
        if (writev(to, parts, count) >= 0) {
            written_count++;
            return;
        }
        if (errno != EAGAIN) {
            refused_count++;
            return;
        }
        struct pollfd writable = {to, POLLOUT, 0};
        poll(&writable, 1, 10);
    }
}

static void put_alone(int to, const struct offload_frame *frame) {
    struct iovec parts[2] = {{0}, {(void *)(frame->bytes + front), frame->length - front}};
    put(to, &no_header, parts, 2);
}

/* Whether a kernel cuts what the run comes to into just these frames: no tunnel, no identification that stays, and not too long. */
static int is_for_a_kernel(const struct offload_run *run) {
    return run->n > 1 && run->modes == 0 && run->ip_at == ETHERNET && run->length - ETHERNET <= MOST_PACKET;
}

static void put_run(int to, struct offload_run *run) {
    struct iovec parts[BURST + 2];
    int count = 2, is_tcp = run->leaf == 6, is_ip4 = run->leaf_at - run->ip_at == 20;
    if (!is_for_a_kernel(run)) {
        for (uint32_t i = 0, at = run->first; i < run->n; i++, at = next[at]) put_alone(to, &frames[at]);
        return;
    }
    struct virtio_net_hdr header = {.flags = VIRTIO_NET_HDR_F_NEEDS_CSUM, .gso_size = (uint16_t)run->m, .hdr_len = (uint16_t)(run->headers_length - front)};
    header.gso_type = is_tcp ? (is_ip4 ? VIRTIO_NET_HDR_GSO_TCPV4 : VIRTIO_NET_HDR_GSO_TCPV6) : UDP_L4;
    header.csum_start = (uint16_t)(run->leaf_at - front), header.csum_offset = is_tcp ? 16 : 6;
    uint8_t *sum = run->headers + run->leaf_at + header.csum_offset;
    sum[0] = (uint8_t)(run->pseudo >> 8), sum[1] = (uint8_t)run->pseudo;
    parts[1] = (struct iovec){run->headers + front, run->headers_length - front};
    for (uint32_t i = 0, at = run->first; i < run->n; i++, at = next[at])
        parts[count++] = (struct iovec){(void *)(frames[at].bytes + run->headers_length), frames[at].length - run->headers_length};
    put(to, &header, parts, count);
}

/* What was read up to here, merged or not. */
static void send_on(int to, size_t count) {
    size_t made = 0;
    sent_count += count;
    if (!is_merging) {
        for (size_t i = 0; i < count; i++) put_alone(to, &frames[i]);
        return;
    }
    if (offload_gro_merge(&gro, frames, count, next, BURST, runs, BURST, &made) != OFFLOAD_BURST_OK) exit(1);
    for (size_t i = 0; i < made; i++) put_run(to, &runs[i]);
}

/* A large send: its segments, in bursts of their own. */
static void send_cut(int to, const struct virtio_net_hdr *header, uint8_t *frame, size_t length) {
    size_t made = 0, count = 0;
    if (offload_gso_burst(frame, length, header->gso_size, 0, segments, 1024, &made) != OFFLOAD_BURST_OK) wrong_count++;
    cut_count += made;
    for (size_t i = 0; i < made; i++) {
        struct offload_segment *one = &segments[i];
        memcpy(pieces[count], one->headers, one->headers_length);
        memcpy(pieces[count] + one->headers_length, frame + one->at, one->length);
        frames[count] = (struct offload_frame){pieces[count], one->headers_length + one->length, one->headers_length + one->length, (uint32_t)count};
        if (++count == PIECES || i + 1 == made) send_on(to, count), count = 0;
    }
}

/* Reads a burst and sends it on; whether there may be more. */
static int forward(int from, int to) {
    size_t count = 0;
    while (count < BURST) {
        struct virtio_net_hdr header;
        struct iovec parts[2] = {{&header, sizeof header}, {store[count] + front, ROOM - front}};
        ssize_t length = readv(from, parts, 2) - (ssize_t)sizeof header;
        if (length <= 0) break;
        read_count++, length += front;
        if (front && offload_put_ethernet(store[count], (size_t)length) != OFFLOAD_BURST_OK) wrong_count++;
        if (header.flags & VIRTIO_NET_HDR_F_NEEDS_CSUM && offload_fill_sums(store[count], (size_t)length) != OFFLOAD_BURST_OK) wrong_count++;
        if (header.gso_type != VIRTIO_NET_HDR_GSO_NONE) {
            uint8_t *frame = store[count];
            if (count) send_on(to, count);
            send_cut(to, &header, frame, (size_t)length);
            return 1;
        }
        frames[count] = (struct offload_frame){store[count], (size_t)length, (uint32_t)length, (uint32_t)count};
        count++;
    }
    if (count) send_on(to, count);
    return count == BURST;
}

int main(int count_of_words, char **words) {
    if (count_of_words != 7) return 2;
    is_cutting = !strcmp(words[5], "cut"), is_merging = is_cutting || !strcmp(words[5], "merged");
    front = !strcmp(words[6], "tun") ? ETHERNET : 0;
    int devices[2] = {open_device(words[1], words[2]), open_device(words[3], words[4])};
    if (offload_gro_new(&gro, BURST, BURST, 0) != OFFLOAD_BURST_OK) return 1;
    signal(SIGTERM, stop), signal(SIGINT, stop);
    while (!is_over) {
        struct pollfd readable[2] = {{devices[0], POLLIN, 0}, {devices[1], POLLIN, 0}};
        if (poll(readable, 2, 200) <= 0) continue;
        for (int i = 0; i < 2; i++)
            if (readable[i].revents & POLLIN) forward(devices[i], devices[1 - i]);
    }
    offload_gro_free(&gro);
    struct rusage used;
    getrusage(RUSAGE_SELF, &used);
    printf("%llu read, %llu sent on, %llu written, %llu cut, %llu refused, %llu wrong, %.2f s\n", read_count, sent_count, written_count, cut_count,
           refused_count, wrong_count, (double)(used.ru_utime.tv_sec + used.ru_stime.tv_sec) + (double)(used.ru_utime.tv_usec + used.ru_stime.tv_usec) / 1e6);
    return wrong_count != 0;
}
