"""Pairs of frames, and why the second of each doesn't continue the first, worked out by hand."""
import struct

import commands as defined
from commands import IP4, TCP, UDP, Packet

# What is told of two frames, by the numbers of contrib/c/offload_burst.h from 10 on.
TOLD = ("first", "second", "flow", "headers", "UDP sum", "longer", "pushed", "sequence", "identification", "too long")
ETHERNET = bytes((2, 0, 0, 0, 0, 2, 2, 0, 0, 0, 0, 1, 8, 0))
ACK, PUSHED, RESET = 0x10, 0x18, 0x14
DF = 0x4000


def filled(frame, like=None):
    """A frame with its lengths and its sums; a UDP sum that is zero in the other frame stays so."""
    out = bytearray(frame)
    headers, _ = defined.shape(frame)
    every = bytearray(frame)
    for kind, at in headers:
        every[at + 6 : at + 8] = b"\1\1" if kind == UDP else every[at + 6 : at + 8]
    defined.fill(out, headers, every if like is None else like)
    return bytes(out)


def ip4(protocol, identification, fragment, carried):
    head = struct.pack(">BBHHHBBH", 0x45, 0, 0, identification, fragment, 64, protocol, 0)
    return head + bytes((10, 0, 0, 1, 10, 0, 0, 2)) + carried


def ip6(carried):
    return struct.pack(">IHBB", 6 << 28, 0, 6, 64) + bytes(15) + b"\1" + bytes(15) + b"\2" + carried


def tcp(size, sequence=1000, flags=ACK, port=40000, acknowledgment=1, options=b""):
    head = struct.pack(">HHIIBBHHH", port, 5001, sequence, acknowledgment, 80 + 4 * len(options), flags, 1000, 0, 0)
    return head + options + bytes(i % 251 for i in range(size))


def segment(size, sequence=1000, identification=100, fragment=DF, **fields):
    """An untagged segment over IPv4: 54 bytes, TCP's options and its payload."""
    return filled(ETHERNET + ip4(6, identification, fragment, tcp(size, sequence, **fields)))


def segment6(size, sequence=1000):
    return filled(ETHERNET[:12] + b"\x86\xdd" + ip6(tcp(size, sequence)))


def datagram(size, identification=1, port=5001):
    head = struct.pack(">HHHH", 40000, port, 0, 0)
    return ETHERNET + ip4(17, identification, 0, head + bytes(i % 251 for i in range(size)))


def in_vxlan(inner, identification, has_sum):
    """A frame in VXLAN over IPv4, with an outer UDP sum or without."""
    head = struct.pack(">HHHH", 50000, 4789, 0, 0) + struct.pack(">II", 8 << 24, 5 << 8)
    frame = ETHERNET + ip4(17, identification, DF, head + inner)
    return filled(frame, None if has_sum else frame)


def in_gre(inner, identification, start=b"\0\0", key=b""):
    return ETHERNET + ip4(47, identification, DF, start + b"\x08\0" + key + inner[14:])


def in_keyed_gre(inner, identification, key):
    return filled(in_gre(inner, identification, b"\x20\0", key.to_bytes(4, "big")))


def with_bytes(frame, at, data):
    return frame[:at] + data + frame[at + len(data) :]


S = {"options": bytes.fromhex("0101080a0000000100000002")}
TWO = [segment(1000, 1000, 100), segment(1000, 2000, 101)]
TCP_SUM = 50  # where it stands

# Name, both frames, and what is told. The first of these are the rows that were worked out for merging.
PAIRS = (
    ("segments of 4 and 2 bytes", segment(4, 1000, 100), segment(2, 1004, 101), ""),
    ("full segments", segment(1448, 1000, 100, **S), segment(1448, 2448, 101, **S), ""),
    ("identification and sequence wrap", segment(100, 4294967196, 65535), segment(100, 0, 0), ""),
    ("an identification that stays with DF", segment(100, 1000, 7), segment(100, 1100, 7), ""),
    ("and without", segment(100, 1000, 7, 0), segment(100, 1100, 7, 0), "identification"),
    ("one that rises with DF", segment(100, 1000, 100), segment(100, 1100, 101), ""),
    ("a wrong sum first", with_bytes(TWO[0], TCP_SUM, b"\0\0"), TWO[1], "first"),
    ("a wrong sum second", TWO[0], with_bytes(TWO[1], TCP_SUM, b"\0\0"), "second"),
    ("a shorter one", segment(100, 1000, 100), segment(60, 1100, 101), ""),
    ("a longer one", segment(60, 1100, 101), segment(100, 1160, 102), "longer"),
    ("behind PSH", segment(100, 1000, 100, flags=PUSHED), segment(100, 1100, 101), "pushed"),
    ("PSH at the end", segment(100, 1000, 100), segment(100, 1100, 101, flags=PUSHED), ""),
    ("an acknowledgment with padding", segment(100, 1000, 100), segment(0, 1100, 101) + bytes(6), "second"),
    ("and behind it", segment(0, 1100, 101) + bytes(6), segment(100, 1100, 102), "first"),
    ("VXLAN without outer sums", *(in_vxlan(TWO[i], 7 + i, False) for i in range(2)), ""),
    ("VXLAN with one", in_vxlan(TWO[0], 7, False), in_vxlan(TWO[1], 8, True), "UDP sum"),
    ("datagrams of 500 bytes", filled(datagram(500)), filled(datagram(500, 2)), ""),
    ("datagrams of 500 and 200", filled(datagram(500, 2)), filled(datagram(200, 3)), ""),
    ("a datagram without a sum", filled(datagram(500), datagram(500)), filled(datagram(500, 2)), "UDP sum"),
    ("datagrams to VXLAN's old port", *(datagram(500, i, 8472) for i in (1, 2)), "first"),
    ("GRE", *(filled(in_gre(TWO[i], 7 + i)) for i in range(2)), ""),
    ("GRE keys 7 and 7", *(in_keyed_gre(TWO[i], 7 + i, 7) for i in range(2)), ""),
    ("GRE keys 7 and 8", *(in_keyed_gre(TWO[i], 7 + i, 7 + i) for i in range(2)), "flow"),
    ("GRE with sums", *(in_gre(TWO[i], 7 + i, b"\x80\0") for i in range(2)), "first"),
    ("another port", segment(100), segment(100, 1100, 101, port=40001), "flow"),
    ("IPv4 and IPv6", segment(100), segment6(100, 1100), "flow"),
    ("TCP options", segment(100), segment(88, 1100, 101, **S), "headers"),
    ("another acknowledgment", segment(100), segment(100, 1100, 101, acknowledgment=2), "headers"),
    ("another time to live", segment(100), filled(with_bytes(segment(100, 1100, 101), 22, b"\x3f")), "headers"),
    ("a segment lost", segment(100), segment(100, 1200, 102), "sequence"),
    ("a segment sent again", segment(100), segment(100), "sequence"),
    ("an identification that jumps", segment(100), segment(100, 1100, 105), "identification"),
    ("a reset", segment(100), segment(100, 1100, 101, flags=RESET), "second"),
    ("65,535 bytes over IPv4", segment(32748), segment(32747, 33748, 101), ""),
    ("one more", segment(32748), segment(32748, 33748, 101), "too long"),
    ("more over IPv6", segment6(40000), segment6(40000, 41000), ""),
    ("262,144 bytes over IPv6", segment6(131035), segment6(131035, 132035), ""),
    ("one more over IPv6", segment6(131036), segment6(131035, 132036), "too long"),
    ("all but alike", segment(60, 1000, 100, flags=PUSHED), segment(100, 1000, 7, 0, port=1, acknowledgment=2), "flow"),
    ("all behind the headers", segment(60, 1000, 100, flags=PUSHED), segment(100, 1000, 7), "longer"),
    ("PSH and a gap", segment(100, 1000, 100, flags=PUSHED), segment(100, 1200, 7), "pushed"),
    ("a gap and an identification", segment(100), segment(100, 1200, 7), "sequence"),
    ("an identification and too long", segment(32748), segment(32748, 33748, 7), "identification"),
    ("another sum, longer and a field", filled(datagram(5), datagram(5)), filled(datagram(6, 9)), "UDP sum"),
    ("a field and no sum", filled(datagram(5), datagram(5)), filled(with_bytes(datagram(6, 2), 22, b"\7")), "headers"),
)


def apart(first, second):
    """Why the second of two packets doesn't continue the first: the condition of the definitions that fails first."""
    if not defined.is_candidate(first.frame, first.original):
        return "first"
    if not defined.is_candidate(second.frame, second.original):
        return "second"
    f, g = first.frame, second.frame
    if defined.key(f) != defined.key(g):
        return "flow"
    headers, payload_at = defined.shape(f)
    own, other = (defined.without_named(frame, headers, payload_at) for frame in (f, g))
    if defined.shape(g) != (headers, payload_at) or own != other:
        return "headers"
    if any(kind == UDP and (defined.be16(f, at + 6) == 0) != (defined.be16(g, at + 6) == 0) for kind, at in headers):
        return "UDP sum"
    if len(g) > len(f):
        return "longer"
    return continuing(f, g, headers, len(f) - payload_at, len(f) + len(g) - payload_at)


def continuing(f, g, headers, m, size):
    """The same of two with the same headers: the first has m bytes of payload, and both come to `size` bytes."""
    if any(kind == TCP and f[at + 13] != ACK for kind, at in headers):
        return "pushed"
    if any(kind == TCP and defined.be32(g, at + 4) != (defined.be32(f, at + 4) + m) % 2**32 for kind, at in headers):
        return "sequence"
    for kind, at in headers:
        own, other = (defined.be16(frame, at + 4) for frame in (f, g))
        if kind == IP4 and other != (own + 1) % 65536 and not (f[at + 6] & 0x40 and other == own):
            return "identification"
    lengths = [defined.length_field(kind, at, size) for kind, at in headers]
    is_long = size > defined.MOST_FRAME or any(field and field[1] > defined.MOST_FIELD for field in lengths)
    return "too long" if is_long else ""


def packet(frame, original=None):
    return Packet(0, 0, 0, len(frame) if original is None else original, frame)
