"""Cases for `fuzz`: from a seed a command, its words and a capture, most of them lawful in most places and wrong in some."""
import copy
import random
import struct
from typing import NamedTuple, Optional

import commands as defined
from commands import GRE, IP4, IP6, TAG, TCP, UDP, VXLAN, Options
from options import options_line


class Case(NamedTuple):
    words: list
    options: Optional[Options]  # None where the words are no command
    data: bytes


def mostly(rng, usual, *others):
    """The usual value nineteen times of twenty."""
    return usual if rng.random() < 0.95 else rng.choice(others)


class Flow:
    """What the frames of a flow have in common, and what its next frame continues."""

    def __init__(self, rng):
        self.tags = [(rng.choice((0x8100, 0x88A8)), rng.randrange(4)) for _ in range(rng.choice((0, 0, 0, 1, 2)))]
        self.inner_tags = [(0x8100, rng.randrange(4)) for _ in range(rng.choice((0, 0, 1, 2)))]
        self.tunnel, self.is_gre = rng.choice((0, 0, 0, 4, 6)), rng.random() < 0.4
        self.tunnels = mostly(rng, 1, 2)
        self.tunnel_port, self.vxlan_flags = mostly(rng, 4789, 4790, 8472), mostly(rng, 8, 0, 0x0C, 0xFF)
        self.gre_start = rng.choice((0, 0x2000)) if rng.random() < 0.85 else rng.choice((0x8000, 0x8000, 0x1000, 0xA000, 0x3000, 0x0001, 0x2001))
        self.gre_kind, self.has_gre_fields = mostly(rng, 0, 0x6558, 0x8100), rng.random() < 0.5
        self.vni = rng.randrange(2)
        self.has_udp_sum, self.has_udp_sum_of_zero = rng.random() < 0.5, rng.random() < 0.1
        self.ip, self.ip_start = rng.choice((4, 4, 6)), mostly(rng, 0x45, 0x44, 0x46, 0x55)
        self.fragment = mostly(rng, 0, 0x80, 0x20, 0x01) << 8 | (0x4000 if rng.random() < 0.7 else 0)
        self.id_step = [rng.choice((1, 1, 1, 0)) for _ in range(2)]
        self.ids = [rng.choice((0, 100, 65534, 65535)) for _ in range(2)]
        self.hosts, self.port, self.destination = rng.randrange(3), 40000 + rng.randrange(3), bytes((10, 0, 0, 2))
        self.is_datagram, self.datagram_port = rng.random() < 0.3, rng.choice((5001, 5001, 5001, 4789, 8472))
        self.has_datagram_sum = rng.random() < 0.6
        self.options, self.reserved = rng.randbytes(4 * rng.choice((0, 0, 3, 3, 10))), mostly(rng, 0, 1, 8)
        self.sequence = rng.choice((1000, 2**32 - 60, 2**32 - 1))
        self.size = rng.choice((1, 2, 3, 4, 7, 48, 99, 100))
        self.has_sum_of_zero, self.zero_as = rng.random() < 0.15, rng.choice((0, 0, 65535))
        self.is_steady = rng.random() < 0.3  # no frame of it differs in size, flags or step
        self.edit = rng.randrange(2**32)  # what is done to each of its frames, where something is

    def twin(self, rng):
        """A flow that differs in one place of the key, or in none that belongs to it."""
        other = copy.copy(self)
        other.ids = list(self.ids)
        sums = [("has_udp_sum", not self.has_udp_sum), ("has_datagram_sum", not self.has_datagram_sum)]
        name, other_value = rng.choice([("vni", self.vni + 1), ("port", self.port + 1), ("hosts", self.hosts + 1), *sums])
        setattr(other, name, other_value)
        if other.tags and rng.random() < 0.3:
            other.tags = [(kind, control + 1) for kind, control in other.tags]
        return other

    def addresses(self, ip):
        if ip == 4:
            return bytes((10, 0, 0, 1 + self.hosts)) + self.destination
        return bytes((0x20, 1, 0x0D, 0xB8)) + bytes(11) + bytes((1 + self.hosts,)) + bytes((0x20, 1, 0x0D, 0xB8)) + bytes(11) + b"\x02"

    def pseudo(self, ip, protocol, length):
        if ip == 4:
            return self.addresses(4) + struct.pack(">BBH", 0, protocol, length % 65536)
        return self.addresses(6) + struct.pack(">IBBBB", length, 0, 0, 0, protocol)

    def with_ip(self, ip, protocol, identification, body):
        if ip == 6:
            size = len(body) if len(body) <= 65535 else 0
            return b"\x60\0\0\0" + struct.pack(">HBB", size, protocol, 64) + self.addresses(6) + body
        fields = (self.ip_start, 0, (20 + len(body)) % 65536, identification, self.fragment, 64, protocol)
        head = struct.pack(">BBHHHBBH", *fields, 0) + self.addresses(4)
        return struct.pack(">BBHHHBBH", *fields, defined.checksum(head)) + self.addresses(4) + body

    def with_ethernet(self, tags, ip, body):
        head = bytes((2, 0, 0, 0, 0, 2, 2, 0, 0, 0, 0, 1))
        for kind, control in tags:
            head += struct.pack(">HH", kind, control)
        return head + (b"\x08\x00" if ip == 4 else b"\x86\xdd") + body

    def segment(self, flags, payload):
        fields = (self.port, 5001, self.sequence, 1, (5 + len(self.options) // 4) << 4 | self.reserved, flags, 256)
        head = struct.pack(">HHIIBBHHH", *fields, 0, 0) + self.options
        value = defined.checksum(self.pseudo(self.ip, 6, len(head) + len(payload)) + head + payload)
        if self.has_sum_of_zero and payload[:2] == b"\0\0":
            payload, value = struct.pack(">H", value) + payload[2:], self.zero_as
        return struct.pack(">HHIIBBHHH", *fields, value, 0) + self.options + payload

    def datagram(self, payload):
        """A datagram of its own, whose sum is 0, right, or ffff for 0 by a payload that makes it so."""
        fields = (self.port, self.datagram_port, (8 + len(payload)) % 65536)
        total = defined.checksum(self.pseudo(self.ip, 17, 8 + len(payload)) + struct.pack(">HHHH", *fields, 0) + payload)
        if self.has_sum_of_zero and payload[:2] == b"\0\0":
            payload, total = struct.pack(">H", total) + payload[2:], 0
        return struct.pack(">HHHH", *fields, (total or 65535) if self.has_datagram_sum else 0) + payload

    def in_udp(self, body):
        """The tunnel's datagram, whose sum is 0, right, or ffff for 0 by a source port that makes it so."""
        size = 8 + len(body)

        def head(port, total):
            return struct.pack(">HHHH", port, self.tunnel_port, size % 65536, total)

        def total_of(port):
            return defined.checksum(self.pseudo(self.tunnel, 17, size) + head(port, 0) + body)

        port = (50000 + total_of(50000) - 1) % 65535 + 1 if self.has_udp_sum_of_zero else 50000
        return head(port, (total_of(port) or 65535) if self.has_udp_sum else 0) + body

    def in_tunnel(self, ip, packet, is_gre):
        """The packet of the tunnel that an IP packet is in."""
        if is_gre:
            has_fields = self.has_gre_fields or self.gre_start == 0x2000
            more = b"".join(struct.pack(">I", self.vni) for bit in (0x8000, 0x2000, 0x1000) if has_fields and self.gre_start & bit)
            head = struct.pack(">HH", self.gre_start, self.gre_kind or (0x0800 if ip == 4 else 0x86DD))
            return self.with_ip(self.tunnel, 47, self.ids[1], head + more + packet)
        head = struct.pack(">II", self.vxlan_flags << 24, self.vni << 8)
        return self.with_ip(self.tunnel, 17, self.ids[1], self.in_udp(head + self.with_ethernet(self.inner_tags, ip, packet)))

    def frame(self, flags, payload):
        protocol, body = (17, self.datagram(payload)) if self.is_datagram else (6, self.segment(flags, payload))
        ip, packet = self.ip, self.with_ip(self.ip, protocol, self.ids[0], body)
        for i in range(self.tunnels if self.tunnel else 0):
            ip, packet = self.tunnel, self.in_tunnel(ip, packet, self.is_gre ^ (i == 1 and self.port == 40000))
        return self.with_ethernet(self.tags, ip, packet)

    def next(self, rng):
        size, flags, jumps = self.size, 0x10, [0, 0, 0]
        if not self.is_steady:
            jumps = [rng.random() < 0.03 for _ in jumps]
            if rng.random() < 0.15:
                size = rng.choice((0, 1, max(1, size - 1), size // 2, size + 1))
            if rng.random() < 0.15:
                flags = rng.choice((0x18, 0x11, 0x19, 0x02, 0x12, 0x14, 0x30, 0x50, 0x90, 0x00))
        payload = bytes(min(size, 2)) + rng.randbytes(size - min(size, 2)) if self.has_sum_of_zero else rng.randbytes(size)
        frame = self.frame(flags, payload)
        self.sequence = (self.sequence + size + jumps[2]) % 2**32
        for i, step in enumerate(self.id_step):
            self.ids[i] = (self.ids[i] + step + 7 * jumps[i]) % 65536
        return frame


# Edits of a frame. Each takes a bytearray, and answers what stands in its place.

FIELDS = {
    IP4: ((0, 1), (1, 1), (2, 2), (4, 2), (6, 2), (8, 1), (9, 1), (10, 2), (12, 4), (16, 4)),
    IP6: ((0, 1), (4, 2), (6, 1), (7, 1), (8, 4), (36, 4)),
    TCP: ((0, 2), (2, 2), (4, 4), (8, 4), (12, 1), (13, 1), (14, 2), (16, 2), (18, 2)),
    UDP: ((0, 2), (2, 2), (4, 2), (6, 2)),
    VXLAN: ((0, 1), (4, 4)),
    GRE: ((0, 1), (1, 1), (2, 2), (4, 4)),
    TAG: ((0, 2), (2, 2)),
    defined.ETHERNET: ((0, 4), (6, 4), (12, 2)),
}


def flip(rng, frame):
    if frame:
        frame[rng.randrange(len(frame))] ^= 1 << rng.randrange(8)
    return frame


def flip_near_front(rng, frame):
    if frame:
        frame[rng.randrange(min(len(frame), 130))] ^= 1 << rng.randrange(8)
    return frame


def edit_field(rng, frame):
    """A number of a header is one more or less, or one at an edge."""
    found = defined.shape(bytes(frame))
    if found is None:
        return flip(rng, frame)
    kind, at = rng.choice(found[0])
    place, size = rng.choice(FIELDS[kind])
    old = int.from_bytes(frame[at + place : at + place + size], "big")
    new = rng.choice((old + 1, old - 1, 0, 256**size - 1, old ^ 1 << rng.randrange(8 * size), rng.randrange(256**size)))
    frame[at + place : at + place + size] = (new % 256**size).to_bytes(size, "big")
    return frame


def edit_fragment(rng, frame):
    """Reserved bit, "don't fragment", "more fragments" or a fragment offset."""
    found = defined.shape(bytes(frame))
    layers = [at for kind, at in found[0] if kind == IP4] if found else []
    if not layers:
        return edit_field(rng, frame)
    frame[rng.choice(layers) + 6] ^= rng.choice((0x80, 0x40, 0x20, 0x01))
    return frame


def cut_end(rng, frame):
    return frame[: rng.randrange(len(frame) + 1)]


def pad(rng, frame):
    return frame + bytes(rng.choice((1, 2, 6, 18)))


def swap_headers(rng, frame):
    """The bytes of two headers, or two halves of one, change places."""
    found = defined.shape(bytes(frame))
    if found is None or len(found[0]) < 2:
        return flip(rng, frame)
    places = [at for _, at in found[0]] + [found[1]]
    i = rng.randrange(1, len(places) - 1)
    a, b, c = places[i - 1], places[i], places[i + 1]
    return frame[:a] + frame[b:c] + frame[a:b] + frame[c:]


def drop_or_double(rng, frame):
    """A header is left out, or stands twice."""
    found = defined.shape(bytes(frame))
    if found is None:
        return cut_end(rng, frame)
    places = [at for _, at in found[0]] + [found[1]]
    i = rng.randrange(len(places) - 1)
    a, b = places[i], places[i + 1]
    return frame[:b] + frame[a:] if rng.random() < 0.5 else frame[:a] + frame[b:]


def add_tag(rng, frame):
    kind = rng.choice((b"\x81\x00", b"\x88\xa8", b"\x91\x00"))
    return frame[:12] + kind + bytes((0, rng.randrange(4))) + frame[12:]


def add_options(rng, frame):
    """An IP layer gets four bytes of options, or an extension header of eight."""
    found = defined.shape(bytes(frame))
    layers = [(kind, at) for kind, at in found[0] if kind in (IP4, IP6)] if found else []
    if not layers:
        return flip(rng, frame)
    kind, at = rng.choice(layers)
    if kind == IP4:
        frame[at] = 0x46
        return frame[: at + 20] + b"\1\1\1\0" + frame[at + 20 :]
    more = bytes((frame[at + 6], 0)) + bytes(6)
    frame[at + 6] = rng.choice((0, 44, 60))
    return frame[: at + 40] + more + frame[at + 40 :]


def edit_sum(rng, frame):
    """A sum is 0, ffff, or one off."""
    found = defined.shape(bytes(frame))
    places = [at + defined.SUM_FIELD[kind] for kind, at in found[0] if kind in defined.SUM_FIELD] if found else []
    if not places:
        return flip(rng, frame)
    at = rng.choice(places)
    old = defined.be16(frame, at)
    frame[at : at + 2] = struct.pack(">H", rng.choice((0, 65535, (old + 1) % 65536, old ^ 0x8000)))
    return frame


def repair(rng, frame):
    """Lengths and sums as they ought to be; a UDP sum of 0 mostly stays."""
    found = defined.shape(bytes(frame))
    lengths = [defined.length_field(kind, at, len(frame)) for kind, at in found[0]] if found else []
    if found is not None and all(length is None or length[1] <= 65535 for length in lengths):
        defined.fill(frame, found[0], b"\xff" * len(frame) if rng.random() < 0.1 else bytes(frame))
    return frame


def cut_in_header(rng, frame):
    """The frame ends within a header, or just behind it."""
    found = defined.shape(bytes(frame))
    if found is None:
        return cut_end(rng, frame)
    places = [at for _, at in found[0]] + [found[1]]
    i = rng.randrange(len(places) - 1)
    return frame[: rng.randint(places[i], places[i + 1])]


EDITS = (flip, flip_near_front, edit_field, edit_field, edit_fragment, cut_end, cut_in_header, pad, swap_headers, drop_or_double, add_tag, add_options, edit_sum)


def edited(rng, frame):
    frame = bytearray(frame)
    for _ in range(rng.choice((1, 1, 1, 2, 3))):
        frame = rng.choice(EDITS)(rng, frame)
    return bytes(repair(rng, frame) if rng.random() < 0.7 else frame)


# Captures, as lists of [seconds, fraction, captured, original, bytes].

MAGICS = (b"\xd4\xc3\xb2\xa1", b"\xd4\xc3\xb2\xa1", b"\x4d\x3c\xb2\xa1", b"\xa1\xb2\xc3\xd4", b"\xa1\xb2\x3c\x4d")


def written(rng, link, records):
    magic = rng.choice(MAGICS)
    order = defined.ORDERS[magic]
    zone, figures = (rng.randrange(2**32), rng.randrange(2**32)) if rng.random() < 0.2 else (0, 0)
    snaplen = rng.choice((262144, 65535, 0, 2**32 - 1))
    out = [magic + struct.pack(order + "HHIIII", 2, 4, zone, figures, snaplen, link)]
    for seconds, fraction, captured, original, data in records:
        out.append(struct.pack(order + "IIII", seconds, fraction, captured % 2**32, original % 2**32) + data)
    return b"".join(out)


def record(rng, data):
    return [rng.randrange(2**32), rng.randrange(10**6), len(data), len(data), data]


def edit_records(rng, records, most):
    """Records double, out of order or gone; lengths that aren't theirs or stand at an edge."""
    for _ in range(rng.choice((0, 0, 0, 1, 1, 2))):
        if not records:
            return
        i, j = rng.randrange(len(records)), rng.randrange(len(records))
        act = rng.randrange(6)
        if act == 0:
            records.insert(j, list(records[i]))
        elif act == 1:
            records[i], records[j] = records[j], records[i]
        elif act == 2:
            del records[i]
        elif act == 3:
            records[i][3] += rng.choice((1, -1, 2, 1000))
        else:
            edges = [0, most - 1, most, most + 1, *range(11, 17), *(2**31 + more for more in (-1, 0, 11, 12, 15, 16)), 2**32 - 1]
            records[i][2 if act == 4 else 3] = rng.choice(edges)


def edit_file(rng, data):
    """A file that ends early, goes on behind its end, or has other bytes."""
    act = rng.random()
    if act < 0.05:
        return data[: rng.randrange(len(data) + 1)]
    if act < 0.07:
        return data + rng.randbytes(rng.choice((1, 15, 16, 17)))
    if act < 0.09:
        return bytes(flip(rng, bytearray(data[:24]))) + data[24:]
    return bytes(flip(rng, bytearray(data))) if act < 0.11 else data


def some_frames(rng, is_wrong):
    """Frames of some flows; where some are wrong, one by one or all of a flow in the same way."""
    flows = [Flow(rng) for _ in range(rng.choice((1, 1, 2, 3)))]
    if rng.random() < 0.2:
        flows.append(flows[0].twin(rng))
    count = rng.choice((0, 1, 2, 3, 5, 8, 8, 12))
    chance = rng.choice((0, 0.1, 0.4)) if is_wrong else 0
    if rng.random() < 0.01:
        count = 140
    if rng.random() < 0.02:
        flows[0].size, flows[0].tunnel = rng.choice((536, 1448, 1984, 4000, 9000)), rng.choice((0, 4))
    if rng.random() < 0.005:
        flows = flows[:1]
        flows[0].size, count = rng.choice(((1448, 70), (9000, 12), (16300, 10)))
        flows[0].is_steady = True
    are_alike = is_wrong and rng.random() < 0.3
    for _ in range(count):
        flow = rng.choice(flows)
        frame = flow.next(rng)
        if are_alike:
            frame = edited(random.Random(flow.edit), frame)
        yield edited(rng, frame) if rng.random() < chance else frame


# Payload lengths whose sum over IPv6 is at the edge of 16 bits, or of the longest frame.
LONG = ((32758, 32757), (32758, 32758), (65515, 20), (65515, 21), (52414,) * 5, (52415,) * 5, (1448,) * 64, (32758,) * 9)


def long_frames(rng):
    """Frames of one flow over IPv6, plain or in GRE, that merge to more than 65,535 bytes, or nearly."""
    flow = Flow(rng)
    flow.ip, flow.tunnel, flow.is_gre, flow.is_datagram = 6, rng.choice((0, 0, 0, 4, 6)), True, rng.random() < 0.1
    flow.has_sum_of_zero, flow.options = False, bytes(4 * rng.choice((0, 0, 3)))
    flow.is_steady = True
    if rng.random() < 0.7:
        flow.tags = []
    for size in rng.choice(LONG):
        flow.size = size
        yield flow.next(rng)


def times(number):
    """A step of the hash by which the program looks at an open run first."""
    return number * 0x9E3779B1 % 2**32


def many_frames(rng):
    """Frames of many flows, in turn or in bursts; of half of these the ports and the destination give all flows one hash."""
    first, are_colliding = Flow(rng), rng.random() < 0.5
    first.ip, first.size = 4, rng.choice((1, 4, 48))
    flows = [copy.copy(first) for _ in range(rng.choice((10, 40, 100)))]
    for at, flow in enumerate(flows):
        flow.ids, flow.port = list(first.ids), 1024 + 7 * at
        if are_colliding:
            to = flow.datagram_port if flow.is_datagram else 5001
            flow.destination = ((times(40000 << 16 | to) - times(flow.port << 16 | to)) % 2**32).to_bytes(4, "big")
    burst, is_in_turn = rng.choice((1, 1, 2, 5)), rng.random() < 0.5
    for at in range(3 * len(flows) // burst):
        flow = flows[at % len(flows)] if is_in_turn else rng.choice(flows)
        for _ in range(burst):
            yield flow.next(rng)


def frames_of(rng, is_wrong):
    kind = rng.random()
    return long_frames(rng) if kind < 0.003 else many_frames(rng) if kind < 0.03 else some_frames(rng, is_wrong)


def frames_capture(rng):
    records = [record(rng, frame) for frame in frames_of(rng, True)]
    records += [record(rng, data) for data in some_bytes(rng, 262144)]
    edit_records(rng, records, 262144)
    return edit_file(rng, written(rng, defined.ETHERNET_LINK, records))


def some_bytes(rng, most):
    """Sometimes a record's bytes of a length at an edge: of what some blocks hold, or of the longest record."""
    if rng.random() < 0.04:
        size = rng.choice((0, 1, *range(1980, 1986), *range(4028, 4034)))
        return [rng.randbytes(size + most - 262144)]
    return [rng.randbytes(most + rng.choice((-1, 0, 1)))] if rng.random() < 0.004 else []


class Merged:
    """A record of link type 147: the times and the original length of its frame, its offload header and its frame."""

    def __init__(self, seconds, fraction, original, body):
        head, size = defined.read_head(body)
        self.times, self.original, self.frame = [seconds, fraction], original - size, body[size:]
        self.fields = head._asdict()
        self.first_byte, self.front = None, None

    def payload(self):
        found = defined.shape(self.frame)
        return max(1, len(self.frame) - found[1] if found else len(self.frame))

    def as_record(self):
        head = defined.Head(**self.fields)
        if head.version == 1:
            head = head._replace(n=head.n % 65536, m=head.m % 65536)
        body = defined.head_bytes(head)
        original = len(body) + self.original
        if self.first_byte is not None:
            body = bytes([self.first_byte]) + body[1:]
        body = (body + self.frame)[: self.front]
        return [*self.times, len(body), original if self.front is None else len(body), body]


def merged_records(rng):
    """The records that merging gives, of one version or of both."""
    records = [record(rng, frame) for frame in frames_of(rng, rng.random() < 0.3)]
    options = Options(queues=rng.choice((1, 2, 64)), taps=rng.choice((0, 0, 1)), snap=rng.choice((1, 64)), segs=rng.choice((2, 3, 4096, 4096)))
    data = b"\xd4\xc3\xb2\xa1" + struct.pack("<HHIIII", 2, 4, 0, 0, 0, defined.ETHERNET_LINK)
    data += b"".join(struct.pack("<IIII", *own[:4]) + own[4] for own in records)
    out, at, found, of_first = defined.merge(data, options).output, 24, [], rng.choice((0, 0.5, 0.5, 1))
    while at < len(out):
        seconds, fraction, captured, original = struct.unpack_from("<IIII", out, at)
        found.append(Merged(seconds, fraction, original, out[at + 16 : at + 16 + captured]))
        if rng.random() < of_first and max(found[-1].fields["n"], found[-1].fields["m"]) < 65536:
            found[-1].fields["version"] = 1
        at += 16 + captured
    return found


def edit_numbers(rng, head, payload):
    """n or m is another, or both are: of the same payload, at their ends, or such that (n - 1) m is 2^32 and more."""
    act = rng.randrange(8)
    if act < 3:
        head["n"] = rng.choice((head["n"] + 1, max(0, head["n"] - 1), 0, 1, 2, 65535, 65536, 65536 + head["n"], 2**32 - 1)) % 2**32
    elif act < 5:
        head["m"] = rng.choice((head["m"] + 1, max(0, head["m"] - 1), 0, 1, payload, payload - 1, 65535, 65536, 2**32 - 1)) % 2**32
    elif act < 7:
        few = max(1, payload // 3000)  # so that the definitions don't take long
        head["m"] = rng.randint(few, payload) if payload < 300 or rng.random() < 0.1 else max(1, payload // 3)
        head["n"] = -(-payload // head["m"]) + (rng.random() < 0.1)
    else:
        pairs = ((2**32 - 1, 2**32 - 1), (2**16 + 1, 2**16), (2**31 + 1, 2), (2, 2**32 - 1), (2**32 - 1, 1), (2**32 - 1, payload))
        head["n"], head["m"] = rng.choice(pairs)


def edit_merged(rng, own):
    """A field of the offload header is another, or the frame is; or the record ends within its header."""
    head = own.fields
    act = rng.choice((0, 0, 0, 0, 1, 1, 1, 2, 2, 3, 4, 5, 5, 6)) if head["kind"] == defined.MERGED else rng.randrange(7)
    if act == 0:
        edit_numbers(rng, head, own.payload())
    elif act == 1:
        head["modes"] = rng.choice((head["modes"] ^ 1, head["modes"] ^ 1, head["modes"] ^ 2, 3, 4, 128, rng.randrange(256)))
    elif act == 2:
        own.first_byte, head["kind"] = rng.choice((None, None, None, 0, 1, 2, 3, 255)), rng.choice((0, 1, 2, 2, 3, 255))
        if head["kind"] in (0, 2) and rng.random() < 0.7:
            head.update(n=1 - head["kind"] // 2, m=0, modes=0)
    elif act == 3:
        head.update(where=rng.choice((0, 7, 8, 63, 64, 255)), number=rng.randrange(2**32))
    elif act == 6:
        own.front = rng.choice((11, 12, 13, 14, 15, 16, 17)) if rng.random() < 0.3 else None
    else:
        edit = rng.choice((edit_field, edit_field, edit_fragment))
        own.frame = edited(rng, own.frame) if act == 4 else bytes(repair(rng, edit(rng, bytearray(own.frame))))
        own.original = len(own.frame)


def offload_capture(rng):
    found = merged_records(rng)
    chance = rng.choice((0, 0.1, 0.1, 0.5))
    for own in found:
        while rng.random() < (2 * chance if own.fields["kind"] == defined.MERGED and chance < 0.5 else chance):
            edit_merged(rng, own)
    records = [own.as_record() for own in found]
    for data in some_bytes(rng, 262160):
        head = defined.Head(rng.choice((1, 2)), 0, 1, 0, 0, 0, 0)
        records.append(record(rng, defined.head_bytes(head) + data[12 if head.version == 1 else 16 :]))
    if rng.random() < 0.3:
        edit_records(rng, records, 262160)
    return edit_file(rng, written(rng, defined.OFFLOAD_LINK, records))


def case(seed, taken):
    """The case of a seed; `taken` has for each command of the program the options that it takes."""
    rng = random.Random(seed)
    command = rng.choice(sorted(taken))
    words, options = options_line(rng, command, taken[command])
    return Case(words, options, (offload_capture if command == "segment" else frames_capture)(rng))
