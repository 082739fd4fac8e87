"""Why packets don't merge: of each record that doesn't continue its flow's last run, the condition that fails.

It asks of a run and the next packet, step by step, what `commands.is_candidate` and `commands.is_mergeable` ask of a
whole list, so that each packet of a long run takes no longer. `contrib/check explain` compares both, and
`contrib/explain` prints what is counted here.
"""
from collections import Counter
from typing import NamedTuple

import commands
from commands import ETHERNET, GRE, IP4, IP6, MOST_FIELD, MOST_FRAME, OLD_VXLAN_PORT, SUM_FIELD, TAG, TCP, UDP
from commands import VXLAN, VXLAN_PORT, be16, be32, shape


class Cause(NamedTuple):
    says: str
    advice: str


AT_SENDER = "captured at its sender? capture elsewhere, or after ethtool -K IF"

# In the order in which they are told: what is asked of a packet alone, and then of it and the run before it.
CAUSES = {
    "cut": Cause("cut short", "capture whole packets: tcpdump -s 0"),
    "fragment": Cause("a fragment", "nothing: these don't merge; a path with a smaller MTU makes them"),
    "options": Cause("IP options, extension header", "nothing: packets with them don't merge"),
    "other": Cause("another layout", "nothing: TCP and UDP merge, plain, in VXLAN to port 4789 and in GRE"),
    "padding": Cause("bytes behind the IP packet", "nothing: padding of a short frame, or a trailer"),
    "empty": Cause("no payload", "nothing: acknowledgments and the like pass as they came"),
    "length": Cause("length wrong", f"{AT_SENDER} tso off gso off"),
    "flags": Cause("TCP flags", "nothing: with others than ACK, PSH and FIN it passes as it came"),
    "sum": Cause("sum wrong", f"{AT_SENDER} tx off; tcprewrite -C mends a file"),
    "first": Cause("first of its flow", "nothing: each run begins with a packet"),
    "behind": Cause("behind one that can't merge", "as for that one"),
    "fields": Cause("another header field", "nothing: it has to be as in the run's first"),
    "short": Cause("behind a shorter one", "nothing: only the last of a run may be shorter"),
    "longer": Cause("longer than the run's first", "nothing: no packet of a run may be"),
    "pushed": Cause("behind PSH or FIN", "nothing: with it the sender ends a run"),
    "gap": Cause("a gap in sequence numbers", "lost, repeated, out of order; tcpdump tells at its end what it dropped"),
    "identification": Cause("IPv4 identification", "nothing: the sender neither counts it by one nor keeps it with DF"),
    "limit": Cause("the run is full", "a greater --segs, where one is given; a frame has an end too"),
    "round": Cause("a round's end", "a greater --budget, 4096 at most; it may need more --blocks"),
}

NAMES_OF_TYPES = {0x0806: "ARP", 0x0800: "IPv4", 0x86DD: "IPv6", 0x8100: "a third tag", 0x88A8: "a third tag"}
NAMES_OF_PROTOCOLS = {1: "ICMP", 2: "IGMP", 4: "IP in IP", 6: "TCP", 17: "UDP", 41: "IP in IP", 47: "GRE"}
NAMES_OF_PROTOCOLS |= {50: "ESP", 58: "ICMPv6", 89: "OSPF", 132: "SCTP"}
NAMES_OF_KINDS = {IP4: "IPv4", IP6: "IPv6", TCP: "TCP", UDP: "UDP"}
FLAGS = ("FIN", "SYN", "RST", "PSH", "ACK", "URG", "ECE", "CWR")
EXTENSIONS = (0, 43, 51, 60, 135, 139, 140)
FRAGMENT_HEADER = 44

# The fields of a header that may be another where two packets have one key, as (place behind the last byte, name).
FIELDS = {
    IP4: ((1, "IPv4 version"), (2, "type of service"), (8, "don't fragment"), (9, "time to live"), (20, "IPv4 header")),
    IP6: ((4, "traffic class or flow label"), (7, "next header"), (8, "hop limit"), (40, "IPv6 header")),
    TCP: ((12, "acknowledgment"), (13, "TCP length"), (16, "window"), (20, "urgent pointer"), (60, "TCP options")),
    VXLAN: ((4, "VXLAN flags"), (8, "VXLAN reserved byte")),
    ETHERNET: ((14, "Ethernet header"),),
    TAG: ((4, "tag"),),
    UDP: ((8, "UDP header"),),
    GRE: ((8, "GRE header"),),
}


def no_shape(frame):
    """Why a frame has no shape, and what it has in that place."""
    return ethernet(frame, 0, False) if len(frame) >= 14 else ("other", "no whole Ethernet header")


def ethernet(frame, at, in_tunnel):
    kind, at, tags = be16(frame, at + 12), at + 14, 0
    while kind in (0x8100, 0x88A8) and tags < 2 and len(frame) >= at + 4:
        kind, at, tags = be16(frame, at + 2), at + 4, tags + 1
    return network(frame, kind, at, in_tunnel)


def network(frame, kind, at, in_tunnel):
    if kind == 0x0800 and len(frame) >= at + 20 and frame[at] >> 4 == 4:
        if be16(frame, at + 6) & 0x3FFF:
            return "fragment", "IPv4"
        if frame[at] & 15 > 5:
            return "options", "IPv4 options"
        return carried(frame, frame[at + 9], at + 20, in_tunnel)
    if kind == 0x86DD and len(frame) >= at + 40 and frame[at] >> 4 == 6:
        if frame[at + 6] == FRAGMENT_HEADER:
            return "fragment", "IPv6"
        if frame[at + 6] in EXTENSIONS:
            return "options", "IPv6 extension header"
        return carried(frame, frame[at + 6], at + 40, in_tunnel)
    return "other", NAMES_OF_TYPES.get(kind, f"Ethernet type {kind:04x}")


def carried(frame, protocol, at, in_tunnel):
    """Why what a tunnel carries has no shape, and else the protocol's name."""
    port = be16(frame, at + 2) if protocol == 17 and len(frame) >= at + 8 else None
    if port == VXLAN_PORT and not in_tunnel and len(frame) >= at + 30 and frame[at + 8] & 8:
        return ethernet(frame, at + 16, True)
    if port in (VXLAN_PORT, OLD_VXLAN_PORT):
        return "other", "UDP to a port of VXLAN"
    if protocol == 47 and not in_tunnel and frame[at : at + 2] in (b"\0\0", b"\x20\0") and len(frame) >= at + 8:
        return network(frame, be16(frame, at + 2), at + commands.gre_size(frame, at), True)
    name = NAMES_OF_PROTOCOLS.get(protocol, f"IP protocol {protocol}")
    return "other", f"{name} in a tunnel" if in_tunnel else name


def end_of_packet(frame, headers):
    """Where the outermost IP packet ends by its own length, which the longest ones over IPv6 don't tell."""
    for kind, at in headers:
        if kind == IP4:
            return at + be16(frame, at + 2)
        if kind == IP6:
            return at + 40 + be16(frame, at + 4) if be16(frame, at + 4) else len(frame)
    return len(frame)


def own_cause(packet):
    """Why a packet can't be merged at all, as a cause and a detail; None where it can."""
    frame = packet.frame
    if commands.is_candidate(frame, packet.original):
        return None
    if packet.original != len(frame):
        return "cut", "" if packet.original > len(frame) else "longer than its original"
    found = shape(frame)
    return no_shape(frame) if found is None else cause_in(frame, *found)


def cause_in(frame, headers, payload_at):
    """The same of a whole frame that has a shape."""
    end = end_of_packet(frame, headers)
    if len(frame) <= payload_at or headers[-1][1] < end <= payload_at:
        return "empty", ""
    if headers[-1][1] < end < len(frame):
        return "padding", ""
    for kind, at in headers:
        length = commands.length_field(kind, at, len(frame))
        if length and be16(frame, length[0]) != length[1]:
            return "length", NAMES_OF_KINDS[kind]
    for kind, at in headers:
        if kind == IP4 and frame[at + 6] & 0x80:
            return "fields", "reserved bit of IPv4"
        if kind == TCP and (frame[at + 12] & 15 or frame[at + 13] not in (0x10, 0x18, 0x11, 0x19)):
            return "flags", flags_of(frame[at + 12] & 15, frame[at + 13])
    for i, (kind, at) in enumerate(headers):
        if kind in SUM_FIELD and be16(frame, at + SUM_FIELD[kind]) != commands.sum_of(frame, headers, i):
            if kind != UDP or be16(frame, at + 6) != 0:
                return "sum", NAMES_OF_KINDS[kind]
    raise AssertionError("a packet that the definitions refuse, and no condition that it fails")


def flags_of(reserved, flags):
    if reserved:
        return "reserved bits"
    return " ".join(name for bit, name in enumerate(FLAGS) if flags >> bit & 1) or "none"


class Run:
    """A run as it grows: its first and last packet, how many there are, and their payload bytes."""

    def __init__(self, packet, cause):
        self.first, self.last, self.count, self.cause = packet, packet, 1, cause
        self.payload = len(packet.frame) - shape(packet.frame)[1] if shape(packet.frame) else 0

    def add(self, packet):
        self.last, self.count = packet, self.count + 1
        self.payload += len(packet.frame) - shape(packet.frame)[1]


def between(run, packet, segs):
    """Why a packet that may be merged doesn't continue a run of its flow, by cause and detail; None where it does. It
    asks in the order of the definition of a run, as the library's `offload_why_apart` does of two frames."""
    if not commands.is_candidate(run.last.frame, run.last.original):
        return "behind", ""
    first, last, own = run.first.frame, run.last.frame, packet.frame
    (headers, payload_at), size = shape(first), run.payload + len(own)
    kind, at = headers[-1]
    m = len(first) - payload_at
    if shape(own) != shape(first):
        return "fields", "length of the TCP options"
    changed = fields_between(first, own, headers, payload_at)
    if changed:
        return "fields", changed
    if len(last) < len(first):
        return "short", ""
    if len(own) > len(first):
        return "longer", ""
    if kind == TCP and last[at + 13] != 0x10:
        return "pushed", ""
    if kind == TCP and be32(own, at + 4) != (be32(first, at + 4) + run.count * m) % 2**32:
        return "gap", ""
    if not all(follows(run, own, at) for kind, at in headers if kind == IP4):
        return "identification", ""
    if run.count == segs:
        return "limit", "--segs"
    lengths = [commands.length_field(kind, at, size) for kind, at in headers]
    is_too_long = size > MOST_FRAME or any(length and length[1] > MOST_FIELD for length in lengths)
    return ("limit", "the longest frame") if is_too_long else None


def follows(run, own, at):
    """Whether an identification goes on: counted from the first packet's, or the same in all under "don't fragment"."""
    first, last, next_one = (be16(frame, at + 4) for frame in (run.first.frame, run.last.frame, own))
    may_be_fixed = run.first.frame[at + 6] & 0x40 and last == first
    may_rise = run.count == 1 or last != first
    return bool(may_be_fixed and next_one == first or may_rise and next_one == (first + run.count) % 65536)


def fields_between(first, own, headers, payload_at):
    """The names of the fields that two packets of one shape have to have alike, and don't."""
    a, b = (commands.without_named(frame, headers, payload_at) for frame in (first, own))
    found = []
    if a != b:
        starts = [at for _, at in headers] + [payload_at]
        for (kind, at), end in zip(headers, starts[1:]):
            begin = 0
            for place, name in FIELDS[kind]:
                if a[at + begin : min(at + place, end)] != b[at + begin : min(at + place, end)]:
                    found.append(name)
                begin = place
    if any(kind == UDP and (be16(first, at + 6) == 0) != (be16(own, at + 6) == 0) for kind, at in headers):
        found.append("whether there is a UDP sum")
    return ", ".join(found)


class Explained(NamedTuple):
    """The runs of a capture, each with its cause, in the order of their first records, and how the capture ends."""

    runs: list
    end: object


def explained(data, options):
    """What `commands.runs` gives of each round, and why each run begins."""
    found, end = commands.rounds(data, options)
    earlier, runs = {}, []
    for packets in found:
        opened = {}
        for packet in packets:
            name = commands.key(packet.frame)
            cause = own_cause(packet)
            if cause is None and name in opened:
                cause = between(opened[name], packet, options.segs)
            elif cause is None:
                before = earlier.get(name)
                cause = (between(before, packet, options.segs) or ("round", "")) if before else ("first", "")
            if cause is None:
                opened[name].add(packet)
            else:
                opened[name] = Run(packet, cause)
                runs.append(opened[name])
        earlier.update(opened)
    return Explained(runs, end)


class Count(NamedTuple):
    """Of a cause: how many records it keeps from continuing a run, how many of these stay alone, and its details."""

    records: int
    alone: int
    details: Counter


def counted(runs):
    """A count for each cause."""
    found = {}
    for name in CAUSES:
        own = [run for run in runs if run.cause[0] == name]
        details = Counter(run.cause[1] for run in own if run.cause[1])
        found[name] = Count(len(own), sum(run.count == 1 for run in own), details)
    return found


def by_queue(runs, options):
    """Records, items and merged ones of each queue, as `offload check` counts them."""
    counts = [[0, 0, 0] for _ in range(options.queues)]
    for run in runs:
        own = counts[commands.queue(run.first.frame, options)]
        own[0], own[1], own[2] = own[0] + run.count, own[1] + 1, own[2] + (run.count > 1)
    return counts
