"""What `offload merge`, `segment` and `check` answer to a capture, slowly and by the definitions: status, line of the log and output.

A list of packets is mergeable where the conditions on all its members hold, and each flow's packets of a round are cut into maximal
mergeable runs. It shares no code and no method with the proved program, so the two can be compared. `contrib/by_definition` and
`contrib/fuzz` stand on it; what a filter is stands in filters.py.
"""
import functools
import re
import struct
from typing import NamedTuple, Optional

from filters import filter_of, value
from made import capture

ETHERNET, TAG, IP4, IP6, UDP, VXLAN, GRE, TCP = "ethernet", "tag", "ip4", "ip6", "udp", "vxlan", "gre", "tcp"

ETHERNET_LINK, OFFLOAD_LINK = 1, 147
ORDERS = {b"\xd4\xc3\xb2\xa1": "<", b"\x4d\x3c\xb2\xa1": "<", b"\xa1\xb2\xc3\xd4": ">", b"\xa1\xb2\x3c\x4d": ">"}
SINGLE, MERGED, WINDOW = 0, 1, 2
VXLAN_PORT, OLD_VXLAN_PORT = 4789, 8472
MOST_FIELD, MOST_FRAME, MOST_ORIGINAL = 65535, 262144, 2**31 - 1
ORIGINAL_HEAD, LONGEST_HEAD = 12, 16  # bytes of the offload header in version 1, and in version 2
RSS_KEY, RSS_TABLE = re.compile("[0-9a-f]{80}"), re.compile("[0-9]{1,3}(?:,[0-9]{1,3}){0,127}")


class Packet(NamedTuple):
    number: int
    seconds: int
    fraction: int
    original: int
    frame: bytes


class Item(NamedTuple):
    """A record of the output: its first packet's number and times, the offload header's fields and the frame."""

    packet: Packet
    n: int
    m: int
    modes: int


class Fault(NamedTuple):
    """Why a capture is malformed."""

    kind: str
    offset: int
    record: int


class PoolEmpty(NamedTuple):
    """A round that needs more blocks than there are."""

    round: int
    need: int
    blocks: int


class Options(NamedTuple):
    """The options of `merge` and `check`; `segment` has `blocks` alone. Without `blocks` there is no limit to them, and without `seed` a capture is read.
    A filter is a program, and a queue follows from the hash by `rss`, the key, and the table, where there is a key."""

    budget: int = 64
    queues: int = 1
    taps: int = 0
    snap: int = 64
    segs: int = 4096
    filter: Optional[tuple] = None
    rss: Optional[bytes] = None
    table: Optional[tuple] = None
    blocks: Optional[int] = None
    seed: Optional[int] = None
    count: int = 1000


RANGES = {"budget": (1, 4096), "queues": (1, 64), "taps": (0, 8), "snap": (1, 2048), "segs": (1, 4096), "blocks": (1, 65536)}
RANGES |= {"seed": (0, 2**64 - 1), "count": (0, 10**7)}
OPTIONS_OF_MERGE = ("budget", "queues", "taps", "snap", "segs", "filter", "rss", "table", "blocks")
OPTIONS_OF_CHECK = (*OPTIONS_OF_MERGE, "seed", "count")


def rss_key_of(text):
    if not RSS_KEY.fullmatch(text):
        raise ValueError("no key of 80 lower-case hexadecimal digits")
    return bytes.fromhex(text)


def table_of(text):
    """The numbers of a table; that each is below the queues is judged with the other options."""
    if not RSS_TABLE.fullmatch(text):
        raise ValueError("no table of 1 to 128 numbers of at most three digits, with commas between")
    return tuple(map(int, text.split(",")))


def number_of(name, text):
    least, most = RANGES[name]
    if not re.fullmatch("[0-9]{1,20}", text) or not least <= int(text) <= most:
        raise ValueError(f"no number from {least} to {most}")
    return int(text)


def options_of(words, names):
    """The options that words like `--queues 4` or `--queues=4` stand for, of those with these names; a ValueError says what is wrong with them."""
    readers = {"filter": filter_of, "rss": rss_key_of, "table": table_of}
    words, found = list(words), {}
    while words:
        name, has_value, text = words.pop(0).partition("=")
        name = name.removeprefix("--") if name.startswith("--") else None
        if name not in names or name in found or not (has_value or words):
            raise ValueError("options are " + ", ".join(f"--{name}" for name in names) + ", each with a value, and once")
        text = text if has_value else words.pop(0)
        try:
            found[name] = readers[name](text) if name in readers else number_of(name, text)
        except ValueError as error:
            raise ValueError(f"--{name} {text}: {error}") from error
    options = Options(**found)
    if options.table is not None and (options.rss is None or max(options.table) >= options.queues):
        raise ValueError("--table stands with --rss alone, and its numbers are below --queues")
    return options


class Answer(NamedTuple):
    status: int
    log: str
    output: bytes


USAGE = Answer(2, "usage: offload merge, segment, check or make, with options\n", b"")


def be16(frame, at):
    return frame[at] << 8 | frame[at + 1]


def be32(frame, at):
    return be16(frame, at) << 16 | be16(frame, at + 2)


# Frames: headers, flows, sums.


def gre_size(frame, at):
    return 8 if frame[at] & 0x20 else 4


@functools.lru_cache(maxsize=4096)
def shape(frame):
    """The headers as (kind, place), and where the payload begins; None where there is no shape."""
    headers = []

    def is_there(at, size):
        return len(frame) >= at + size

    def ethernet(at, in_tunnel):
        if not is_there(at, 14):
            return None
        headers.append((ETHERNET, at))
        kind, at, tags = be16(frame, at + 12), at + 14, 0
        while kind in (0x8100, 0x88A8) and tags < 2:
            if not is_there(at, 4):
                return None
            headers.append((TAG, at))
            kind, at, tags = be16(frame, at + 2), at + 4, tags + 1
        return network(kind, at, in_tunnel)

    def network(kind, at, in_tunnel):
        if kind == 0x0800:
            if not is_there(at, 20) or frame[at] != 0x45 or be16(frame, at + 6) & 0x3FFF:
                return None
            headers.append((IP4, at))
            return carried(frame[at + 9], at + 20, in_tunnel)
        if kind == 0x86DD:
            if not is_there(at, 40) or frame[at] >> 4 != 6:
                return None
            headers.append((IP6, at))
            return carried(frame[at + 6], at + 40, in_tunnel)
        return None

    def carried(protocol, at, in_tunnel):
        if protocol == 6:
            return tcp(at)
        if protocol == 17 and is_there(at, 8):
            return datagram(at, be16(frame, at + 2), in_tunnel)
        return gre(at) if protocol == 47 and not in_tunnel else None

    def tcp(at):
        if not is_there(at, 20) or frame[at + 12] >> 4 < 5 or not is_there(at, 4 * (frame[at + 12] >> 4)):
            return None
        headers.append((TCP, at))
        return at + 4 * (frame[at + 12] >> 4)

    def datagram(at, port, in_tunnel):
        """A VXLAN tunnel goes to one port and is in no tunnel; every other datagram is one where it goes to no port of tunnels."""
        if port == VXLAN_PORT and not in_tunnel and is_there(at, 16) and frame[at + 8] & 8:
            headers.append((UDP, at))
            headers.append((VXLAN, at + 8))
            return ethernet(at + 16, True)
        if port in (VXLAN_PORT, OLD_VXLAN_PORT):
            return None
        headers.append((UDP, at))
        return at + 8

    def gre(at):
        """RFC 2784 without a sum, or with the key of RFC 2890 alone."""
        if not is_there(at, 4) or frame[at : at + 2] not in (b"\0\0", b"\x20\0") or not is_there(at, gre_size(frame, at)):
            return None
        headers.append((GRE, at))
        return network(be16(frame, at + 2), at + gre_size(frame, at), True)

    payload_at = ethernet(0, False)
    return None if payload_at is None else (tuple(headers), payload_at)


def key(frame):
    """The bytes that name the flow; None where there is no shape."""
    found = shape(frame)
    if found is None:
        return None
    parts = {
        ETHERNET: lambda at: frame[at : at + 12],
        TAG: lambda at: frame[at - 2 : at + 2],
        IP4: lambda at: b"\x04" + frame[at + 12 : at + 20],
        IP6: lambda at: b"\x06" + frame[at + 8 : at + 40],
        UDP: lambda at: b"\x11" + frame[at : at + 4],
        VXLAN: lambda at: frame[at + 4 : at + 7],
        GRE: lambda at: b"\x2f" + frame[at + 2 : at + gre_size(frame, at)],
        TCP: lambda at: b"\x06" + frame[at : at + 4],
    }
    return b"".join(parts[kind](at) for kind, at in found[0])


def toeplitz(rss, data):
    """Bit j of the hash, from the most significant, is the parity of the i for which bit i of the data and bit i + j of the key are set."""
    bits, number, hashed = 8 * len(data), int.from_bytes(data, "big"), 0
    for j in range(32):
        own = int.from_bytes(rss, "big") >> (8 * len(rss) - j - bits) & (1 << bits) - 1
        hashed = hashed << 1 | (own & number).bit_count() & 1
    return hashed


def rss_input(frame):
    """The outermost IP layer's addresses, and the ports where TCP or UDP follows it directly."""
    headers = shape(frame)[0]
    i = next(i for i, (kind, _) in enumerate(headers) if kind in (IP4, IP6))
    (ip, ip_at), (kind, at) = headers[i], headers[i + 1]
    ends = frame[ip_at + 12 : ip_at + 20] if ip == IP4 else frame[ip_at + 8 : ip_at + 40]
    return ends + (frame[at : at + 4] if kind in (TCP, UDP) else b"")


def queue(frame, options):
    """The queue that a frame's flow has; frames without a shape have queue 0."""
    if key(frame) is None:
        return 0
    if options.rss is not None:
        table = options.table or [i % options.queues for i in range(128)]
        return table[toeplitz(options.rss, rss_input(frame)) % len(table)]
    hashed = 0
    for byte in key(frame):
        hashed = (hashed * 31 + byte) % 2**32
    return hashed % options.queues


def checksum(data):
    """RFC 1071, by one division: 2^16 is 1 modulo 65535, so a number of base 2^16 and the sum of its digits have one rest."""
    number = int.from_bytes(data + b"\0" * (len(data) % 2), "big")
    return 65535 - (0 if number == 0 else (number - 1) % 65535 + 1)


def zeroed(data, at):
    return data[:at] + b"\0\0" + data[at + 2 :]


SUM_FIELD = {IP4: 10, TCP: 16, UDP: 6}


def sum_of(frame, headers, i):
    """The value of the sum field of header i."""
    kind, at = headers[i]
    if kind == IP4:
        return checksum(zeroed(frame[at : at + 20], 10))
    ip, ip_at = headers[i - 1]
    protocol, length = (6 if kind == TCP else 17), len(frame) - at
    if ip == IP4:
        pseudo = frame[ip_at + 12 : ip_at + 20] + struct.pack(">BBH", 0, protocol, length % 65536)
    else:
        pseudo = frame[ip_at + 8 : ip_at + 40] + struct.pack(">IBBBB", length, 0, 0, 0, protocol)
    total = checksum(pseudo + zeroed(frame[at:], SUM_FIELD[kind]))
    return total or 65535 if kind == UDP else total


def length_field(kind, at, size):
    """Where the length field of a header stands, and its value in a frame of this size; None where it has none."""
    if kind == IP4:
        return at + 2, size - at
    if kind == IP6:
        return at + 4, size - at - 40 if size - at - 40 <= MOST_FIELD else 0
    return (at + 4, size - at) if kind == UDP else None


@functools.lru_cache(maxsize=4096)
def is_candidate(frame, original):
    """Whether a packet may be merged at all."""
    found = shape(frame)
    if original != len(frame) or found is None or len(frame) <= found[1]:
        return False
    for i, (kind, at) in enumerate(found[0]):
        length = length_field(kind, at, len(frame))
        if length and be16(frame, length[0]) != length[1]:
            return False
        if kind == IP4 and frame[at + 6] & 0x80:
            return False
        if kind == TCP and (frame[at + 12] & 15 or frame[at + 13] not in (0x10, 0x18, 0x11, 0x19)):
            return False
        if kind in SUM_FIELD and be16(frame, at + SUM_FIELD[kind]) != sum_of(frame, found[0], i):
            if kind != UDP or be16(frame, at + 6) != 0:
                return False
    return True


# Runs of packets.

# The fields in which packets of one run may differ, as (place in the header, size).
NAMED = {IP4: ((2, 2), (4, 2), (10, 2)), IP6: ((4, 2),), UDP: ((4, 2), (6, 2)), TCP: ((4, 4), (13, 1), (16, 2))}


def without_named(frame, headers, payload_at):
    out = bytearray(frame[:payload_at])
    for kind, at in headers:
        for place, size in NAMED.get(kind, ()):
            out[at + place : at + place + size] = bytes(size)
    return bytes(out)


def is_mergeable(packets, segs):
    if not 2 <= len(packets) <= segs or not all(is_candidate(packet.frame, packet.original) for packet in packets):
        return False
    frames = [packet.frame for packet in packets]
    first = frames[0]
    if any(shape(frame) != shape(first) for frame in frames):
        return False
    headers, payload_at = shape(first)
    if len({without_named(frame, headers, payload_at) for frame in frames}) != 1:
        return False
    payloads = [len(frame) - payload_at for frame in frames]
    m = payloads[0]
    size = payload_at + sum(payloads)
    if any(length != m for length in payloads[:-1]) or not 1 <= payloads[-1] <= m or size > MOST_FRAME:
        return False
    return all(fields_continue(frames, kind, at, m, size) for kind, at in headers)


def fields_continue(frames, kind, at, m, size):
    """Whether the fields of one header go on from frame to frame, and the length of all of them fits."""
    first = frames[0]
    length = length_field(kind, at, size)
    if length and length[1] > MOST_FIELD:
        return False
    if kind == UDP:
        return len({be16(frame, at + 6) == 0 for frame in frames}) == 1
    if kind == TCP:
        goes_on = all(be32(frame, at + 4) == (be32(first, at + 4) + i * m) % 2**32 for i, frame in enumerate(frames))
        return goes_on and all(frame[at + 13] == 0x10 for frame in frames[:-1])
    if kind == IP4:
        ids = [be16(frame, at + 4) for frame in frames]
        is_rising = all(own == (ids[0] + i) % 65536 for i, own in enumerate(ids))
        return is_rising or bool(first[at + 6] & 0x40 and len(set(ids)) == 1)
    return True


def fill(out, headers, like):
    """Writes the lengths and the sums of a frame, but no UDP sum where that of the other frame is 0."""
    for kind, at in headers:
        length = length_field(kind, at, len(out))
        if length:
            out[length[0] : length[0] + 2] = struct.pack(">H", length[1])
    for i in reversed(range(len(headers))):
        kind, at = headers[i]
        if kind in SUM_FIELD and not (kind == UDP and be16(like, at + 6) == 0):
            place = at + SUM_FIELD[kind]
            out[place : place + 2] = struct.pack(">H", sum_of(bytes(out), headers, i))


def ip_layers(frame):
    return [header for header in shape(frame)[0] if header[0] in (IP4, IP6)]


def merged(run):
    """The one record of a run."""
    if len(run) == 1:
        return Item(run[0], 1, 0, 0)
    frames = [packet.frame for packet in run]
    headers, payload_at = shape(frames[0])
    out = bytearray(frames[0][:payload_at] + b"".join(frame[payload_at:] for frame in frames))
    modes = 0
    for i, (kind, at) in enumerate(ip_layers(frames[0])):
        if kind == IP4 and be16(frames[1], at + 4) == be16(frames[0], at + 4):
            modes |= 1 << i
    last, last_at = headers[-1]
    if last == TCP:
        out[last_at + 13] = frames[-1][last_at + 13]
    fill(out, headers, frames[0])
    packet = run[0]._replace(frame=bytes(out), original=len(out))
    return Item(packet, len(run), len(frames[0]) - payload_at, modes)


def runs(packets, segs):
    """The maximal runs of each flow, by their first packets' numbers."""
    flows = {}
    for packet in packets:
        flows.setdefault(key(packet.frame), []).append(packet)
    found = []
    for flow in flows.values():
        run = [flow[0]]
        for packet in flow[1:]:
            if is_mergeable(run + [packet], segs):
                run.append(packet)
            else:
                found.append(run)
                run = [packet]
        found.append(run)
    return sorted(found, key=lambda run: run[0].number)


# Records of link type 147.


class Head(NamedTuple):
    """The fields of an offload header; `where` is a queue or a tap."""

    version: int
    kind: int
    n: int
    m: int
    modes: int
    where: int
    number: int


def head_bytes(head):
    if head.version == 1:
        return struct.pack(">BBHHBBI", *head)
    return struct.pack(">BBBBIII", head.version, head.kind, head.modes, head.where, head.n, head.m, head.number)


def read_head(body):
    """The offload header before a frame, and its size; None where there is none of a version that is known."""
    if body[0] == 1 and len(body) >= ORIGINAL_HEAD:
        return Head(*struct.unpack_from(">BBHHBBI", body)), ORIGINAL_HEAD
    if body[0] == 2 and len(body) >= LONGEST_HEAD:
        version, kind, modes, where, n, m, number = struct.unpack_from(">BBBBIII", body)
        return Head(version, kind, n, m, modes, where, number), LONGEST_HEAD
    return None


def is_lawful(head, frame, original):
    """The test of a record that was read whole and has an offload header; `original` is that of its frame."""
    if len(frame) > MOST_FRAME or not 0 <= original <= MOST_ORIGINAL:
        return False
    _, kind, n, m, modes, where, _ = head
    if kind > WINDOW or where > (7 if kind == WINDOW else 63):
        return False
    if kind != MERGED:
        return (n, m, modes) == (1 if kind == SINGLE else 0, 0, 0)
    if n < 2 or m < 1 or not is_candidate(frame, original):
        return False
    layers = ip_layers(frame)
    for bit in range(8):
        if modes >> bit & 1 and not (bit < len(layers) and layers[bit][0] == IP4 and frame[layers[bit][1] + 6] & 0x40):
            return False
    return (n - 1) * m < len(frame) - shape(frame)[1] <= n * m


def segments(head, frame, original):
    """The packets that a lawful record stands for, as (frame, original length)."""
    if head.kind != MERGED:
        return [(frame, original)] if head.kind == SINGLE else []
    headers, payload_at = shape(frame)
    (last, last_at), layers, payload, found = headers[-1], ip_layers(frame), frame[payload_at:], []
    for i in range(head.n):
        out = bytearray(frame[:payload_at] + payload[i * head.m : (i + 1) * head.m])
        for bit, (layer, at) in enumerate(layers):
            if layer == IP4 and not head.modes >> bit & 1:
                out[at + 4 : at + 6] = struct.pack(">H", (be16(frame, at + 4) + i) % 65536)
        if last == TCP:
            out[last_at + 4 : last_at + 8] = struct.pack(">I", (be32(frame, last_at + 4) + i * head.m) % 2**32)
            if i < head.n - 1:
                out[last_at + 13] = 0x10
        fill(out, headers, frame)
        found.append((bytes(out), len(out)))
    return found


# Captures.


def file_head(data, link):
    """The byte order of a capture, or why its file header is refused."""
    if len(data) < 24:
        return Fault("ShortHeader", 0, 0)
    order = ORDERS.get(data[:4])
    if order is None:
        return Fault("BadMagic", 0, 0)
    if struct.unpack_from(order + "HH", data, 4) != (2, 4):
        return Fault("BadVersion", 4, 0)
    if struct.unpack_from(order + "I", data, 20)[0] != link:
        return Fault("BadLinkType", 20, 0)
    return order


def need(length):
    """The blocks that a frame of this length takes: 64 bytes of headroom, 2,048 bytes a block, and two spare ones."""
    return -(-(length + 64) // 2048) + 2


def next_record(data, at, number, link, needed, blocks):
    """The record at a place, None at the end, a fault, or what the round needs where that is more than there is."""
    if at == len(data):
        return None
    if len(data) - at < 16:
        return Fault("ShortRecordHeader", at, number)
    seconds, fraction, captured, original = struct.unpack_from(ORDERS[data[:4]] + "IIII", data, at)
    least, more = (ORIGINAL_HEAD, LONGEST_HEAD) if link == OFFLOAD_LINK else (0, 0)
    if number == 2**32:
        return Fault("TooMany", at, number)
    if captured > MOST_FRAME + more:
        return Fault("TooLong", at, number)
    if not least <= original <= MOST_ORIGINAL + more:
        return Fault("BadOriginal", at, number)
    if captured < least:
        return Fault("BadOffload", at, number)
    if blocks is not None and needed + need(captured - least) > blocks:
        return needed + need(captured - least)
    if len(data) - at - 16 < captured:
        return Fault("ShortRecord", at, number)
    return Packet(number, seconds, fraction, original, data[at + 16 : at + 16 + captured])


def rounds(data, options):
    """The rounds of a capture of Ethernet frames, and how it ends: None where it ends well."""
    found, packets, needed, at, number = [], [], 0, 24, 0
    while True:
        packet = next_record(data, at, number, ETHERNET_LINK, needed, options.blocks)
        if isinstance(packet, int):
            return found, PoolEmpty(len(found), packet, options.blocks)
        if not isinstance(packet, Packet):
            return found + [packets] if packets else found, packet
        packets.append(packet)
        needed += need(len(packet.frame))
        at, number = at + 16 + len(packet.frame), number + 1
        if len(packets) == options.budget:
            found, packets, needed = found + [packets], [], 0


def answer(end, output):
    """The status and the line of the log for an end."""
    if end is None:
        return Answer(0, "", output)
    if isinstance(end, Fault):
        return Answer(3, f"malformed: {end.kind} at {end.offset} in record {end.record}\n", output)
    return Answer(4, f"pool empty: round {end.round} needs {end.need} of {end.blocks} blocks\n", output)


def by_queue(packets, options):
    """A round's packets, queue by queue."""
    queues = [queue(packet.frame, options) for packet in packets]
    return [[packet for packet, where in zip(packets, queues) if where == own] for own in range(options.queues)]


def windows(packets, options, tap):
    """What a tap reads of a round, as (packet, bytes), without the empty windows."""
    found = ((packet, window(packet.frame, options, tap)) for packet in packets)
    return [(packet, own) for packet, own in found if own]


def window(frame, options, tap):
    """The tap's part of what the filter shows of a frame, which is all of it where there is no filter."""
    shown = frame if options.filter is None else frame[: value(options.filter, frame)]
    return shown[tap * options.snap : (tap + 1) * options.snap]


def record(order, packet, original, head, frame):
    """A record of link type 147."""
    body = head_bytes(head) + frame
    return struct.pack(order + "IIII", packet.seconds, packet.fraction, len(body), len(body) - len(frame) + original) + body


def item_record(order, item, where):
    packet = item.packet
    head = Head(2, SINGLE if item.n == 1 else MERGED, item.n, item.m, item.modes, where, packet.number)
    return record(order, packet, packet.original, head, packet.frame)


def window_record(order, packet, own, tap):
    return record(order, packet, len(own), Head(2, WINDOW, 0, 0, 0, tap, packet.number), own)


def merge(data, options=Options()):
    order = file_head(data, ETHERNET_LINK)
    if isinstance(order, Fault):
        return answer(order, b"")
    out = [data[:4], struct.pack(order + "HH", 2, 4), data[8:16], struct.pack(order + "II", MOST_FRAME + LONGEST_HEAD, OFFLOAD_LINK)]
    found, end = rounds(data, options)
    for packets in found:
        for where, own in enumerate(by_queue(packets, options)):
            out.extend(item_record(order, merged(run), where) for run in runs(own, options.segs))
        for tap in range(options.taps):
            out.extend(window_record(order, packet, own, tap) for packet, own in windows(packets, options, tap))
    return answer(end, b"".join(out))


def packets_of(found):
    """The packets that a record of link type 147 stands for; None where it fails the test."""
    known = read_head(found.frame)
    if known is None:
        return None
    head, size = known
    frame, original = found.frame[size:], found.original - size
    return segments(head, frame, original) if is_lawful(head, frame, original) else None


def segment(data, options=Options()):
    order = file_head(data, OFFLOAD_LINK)
    if isinstance(order, Fault):
        return answer(order, b"")
    out = [data[:4], struct.pack(order + "HH", 2, 4), data[8:16], struct.pack(order + "II", MOST_FRAME, ETHERNET_LINK)]
    at, number = 24, 0
    while True:
        found = next_record(data, at, number, OFFLOAD_LINK, 0, options.blocks)
        if isinstance(found, int):
            return answer(PoolEmpty(number, found, options.blocks), b"".join(out))
        if not isinstance(found, Packet):
            return answer(found, b"".join(out))
        packets = packets_of(found)
        if packets is None:
            return answer(Fault("BadOffload", at, number), b"".join(out))
        for frame, original in packets:
            out.append(struct.pack(order + "IIII", found.seconds, found.fraction, len(frame), original) + frame)
        at, number = at + 16 + len(found.frame), number + 1


def returned(run):
    """How many segments of a run's record are the run's packets."""
    item = merged(run)
    head = Head(2, SINGLE if item.n == 1 else MERGED, item.n, item.m, item.modes, 0, 0)
    came = segments(head, item.packet.frame, item.packet.original)
    return sum((packet.frame, packet.original) == own for packet, own in zip(run, came))


def counts_line(name, counts):
    return "{}: records {} items {} merged {} returned {}\n".format(name, *counts)


def check(data, options=Options()):
    lines = []
    if options.seed is not None:
        data = capture(options.seed, options.count)
        lines.append(f"made: records {options.count} bytes {len(data)}\n")
    order = file_head(data, ETHERNET_LINK)
    if isinstance(order, Fault):
        return answer(order, b"")
    found, end = rounds(data, options)
    queues, taps = [[0] * 4 for _ in range(options.queues)], [[0] * 2 for _ in range(options.taps)]
    for packets in found:
        for where, own in enumerate(by_queue(packets, options)):
            cut = runs(own, options.segs)
            more = len(own), len(cut), sum(len(run) > 1 for run in cut), sum(map(returned, cut))
            queues[where] = [a + b for a, b in zip(queues[where], more)]
        for tap in range(options.taps):
            read = windows(packets, options, tap)
            taps[tap] = [taps[tap][0] + len(read), taps[tap][1] + sum(len(own) for _, own in read)]
    lines += [counts_line(f"queue {where}", counts) for where, counts in enumerate(queues)]
    lines += [f"tap {tap}: windows {count} bytes {size}\n" for tap, (count, size) in enumerate(taps)]
    lines.append(counts_line("total", map(sum, zip(*queues))))
    return answer(end, "".join(lines).encode())
