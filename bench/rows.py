"""The rows that `throughput` and `instructions` measure: captures that are what their names say, and the programs that read them."""
import os
import re
import shutil
import struct
import subprocess
import sys
from typing import NamedTuple

from common import ROOT

HEADER = 24
RECORD = 16
SAMPLE = os.path.join(ROOT, "samples", "tcp_ipv4_four_flows.pcap")
PROGRAM = os.path.join(ROOT, "out", "offload")  # a link to what ./offload runs, which `build` makes
EMPTY = b"\xd4\xc3\xb2\xa1\x02\0\x04\0" + bytes(8) + b"\0\0\x04\0\x01\0\0\0"
SAMPLES = {"VXLAN": "tcp_vxlan", "IPv6": "tcp_ipv6_four_flows", "two tags": "tcp_two_tags"}


class Capture(NamedTuple):
    path: str
    packets: int  # of a capture that was merged, those before merging


class Run(NamedTuple):
    name: str
    command: list
    capture: str


class Group(NamedTuple):
    """Runs that are measured in turn, and those that the others are divided by.

    Of the kind "growth" the first run reads no records: its time is taken off the others', and each is divided by the second's. Of the kind
    "short" a run is told in milliseconds, and not by its packets."""

    title: str
    runs: list
    over: tuple
    kind: str = "rows"
    main: bool = False  # of the table that is measured before each release


# Captures.


def records_of(path, length=None):
    """A sample's file header, and its records, those of this length or all, as (seconds, fraction, frame)."""
    with open(path, "rb") as file:
        data = file.read()
    if data[:4] != b"\xd4\xc3\xb2\xa1":
        sys.exit(f"{path}: not a little-endian classic capture in microseconds (a compressed one is unpacked by gzip -dc)")
    at, found = HEADER, []
    while at + RECORD <= len(data):
        seconds, fraction, captured, _ = struct.unpack_from("<IIII", data, at)
        frame = data[at + RECORD : at + RECORD + captured]
        if len(frame) == captured and length in (None, captured):
            found.append((seconds, fraction, frame))
        at += RECORD + captured
    if not found:
        sys.exit(f"{path}: it has no frames of {length or 'any'} bytes, which the captures are made of")
    return found


def write_capture(path, records, size):
    """Repeats records up to about `size` bytes, and answers how many there are then."""
    block = b"".join(struct.pack("<IIII", s, f, len(p), len(p)) + p for s, f, p in records)
    times = max(1, size // len(block))
    with open(path, "wb") as out:
        out.write(EMPTY)
        for _ in range(times):
            out.write(block)
    return Capture(path, times * len(records))


def checksum(data):
    """The Internet checksum, by one division (RFC 1071)."""
    number = int.from_bytes(data + b"\0" * (len(data) % 2), "big")
    return 65535 - ((number - 1) % 65535 + 1 if number else 0)


def segment(port, sequence, acknowledgment, identification, payload, hosts=bytes((10, 77, 0, 1, 10, 77, 0, 2))):
    """A segment over IPv4 with twelve bytes of options, as Linux sends them: 66 bytes and its payload."""
    options = b"\1\1\x08\x0a\0\0\0\1\0\0\0\2"
    size = 32 + len(payload)

    def tcp(total):
        return struct.pack(">HHIIBBHHH", port, 5201, sequence % 2**32, acknowledgment, 0x80, 0x10, 1000, total, 0) + options + payload

    def ip4(total):
        return struct.pack(">BBHHHBBH", 0x45, 0, 20 + size, identification % 65536, 0x4000, 64, 6, total) + hosts

    ethernet = bytes((2, 0, 0, 0, 0, 2, 2, 0, 0, 0, 0, 1, 8, 0))
    return ethernet + ip4(checksum(ip4(0))) + tcp(checksum(hosts + struct.pack(">BBH", 0, 6, size) + tcp(0)))


def ip4(protocol, identification, carried):
    """An IPv4 datagram that may not be fragmented."""
    head = struct.pack(">BBHHHBB", 0x45, 0, 20 + len(carried), identification % 65536, 0x4000, 64, protocol)
    hosts = bytes((10, 77, 0, 1, 10, 77, 0, 2))
    return head + struct.pack(">H", checksum(head + hosts)) + hosts + carried


def datagram(port, identification, payload):
    """A UDP datagram over IPv4: 42 bytes and its payload."""
    size = 8 + len(payload)
    head = struct.pack(">HHH", port, 5201, size)
    total = checksum(bytes((10, 77, 0, 1, 10, 77, 0, 2)) + struct.pack(">BBH", 0, 17, size) + head + payload) or 65535
    return segment(0, 0, 0, 0, b"")[:14] + ip4(17, identification, head + struct.pack(">H", total) + payload)


def in_gre(frame, identification):
    """An untagged IPv4 frame's datagram behind GRE without a key."""
    return frame[:14] + ip4(47, identification, b"\0\0\x08\0" + frame[14:])


def segment6(port, sequence, payload):
    """A segment over IPv6 with twelve bytes of options: 86 bytes and its payload."""
    hosts = bytes.fromhex("fd00") + bytes(13) + b"\1" + bytes.fromhex("fd00") + bytes(13) + b"\2"
    size = 32 + len(payload)

    def tcp(total):
        return struct.pack(">HHIIBBHHH", port, 5201, sequence % 2**32, 1, 0x80, 0x10, 1000, total, 0) + b"\1\1\x08\x0a\0\0\0\1\0\0\0\2" + payload

    ethernet = bytes((2, 0, 0, 0, 0, 2, 2, 0, 0, 0, 0, 1, 0x86, 0xDD))
    return ethernet + struct.pack(">IHBB", 6 << 28, size, 6, 64) + hosts + tcp(checksum(hosts + struct.pack(">II", size, 6) + tcp(0)))


def full_records(name):
    """Frames of 1,514 bytes, all of one flow, 256 of them."""
    def payload(i, size):
        return bytes((7 * i + j) % 256 for j in range(size))

    if name == "datagrams":
        return [(1, 0, datagram(40000, 100 + i, payload(i, 1472))) for i in range(256)]
    if name == "GRE":
        return [(1, 0, in_gre(segment(40000, 1000 + 1424 * i, 1, 100 + i, payload(i, 1424)), 100 + i)) for i in range(256)]
    if name == "IPv6 segments":
        return [(1, 0, segment6(40000, 1000 + 1428 * i, payload(i, 1428))) for i in range(256)]
    return [(1, 0, segment(40000, 1000 + 1448 * i, 1, 100 + i, payload(i, 1448))) for i in range(256)]


FULL = ("segments", "datagrams", "GRE", "IPv6 segments")


def small_payload(i):
    return bytes((7 * i + j) % 256 for j in range(34))


def with_port(frame, port):
    """An untagged IPv4 frame with another TCP source port, its checksum corrected (RFC 1624, section 3)."""
    old, total = struct.unpack_from(">H", frame, 34)[0], struct.unpack_from(">H", frame, 50)[0]
    changed = bytearray(frame)
    struct.pack_into(">H", changed, 34, port)
    struct.pack_into(">H", changed, 50, checksum(struct.pack(">HHH", 65535 - total, 65535 - old, port)))
    return bytes(changed)


def is_plain(frame):
    """Whether a frame is untagged TCP over IPv4 without options, whose ports `with_port` can change."""
    return frame[12:15] == b"\x08\x00\x45" and frame[23] == 6


def large_records(sample, name):
    """The records of a capture of 1,514-byte frames, or None where the sample has none that it is made of."""
    records = records_of(sample, 1514)
    if name == "1,514 bytes":
        return records
    if name == "cut":  # their IP length is wrong then, so none is a candidate
        return [(s, f, p[:100]) for s, f, p in records]
    if not is_plain(records[0][2]):
        return None
    flows, order = re.fullmatch(r"([\d,]+) flows? (by 8|in turn)", name).groups()
    own = [record for record in records if record[2][34:38] == records[0][2][34:38]]
    burst = own[:8] if order == "by 8" else own[:1]
    return [(s, f, with_port(p, 1024 + flow)) for flow in range(int(flows.replace(",", ""))) for s, f, p in burst]


def times(number):
    """A step of the hash by which `merge` looks at an open run first (frame_runs, flow_hash)."""
    return number * 0x9E3779B1 % 2**32


def colliding_hosts(port):
    """Both addresses of a flow from a port, so that all such flows have one hash: what the ports add to it the destination takes off."""
    return bytes((10, 77, 0, 1)) + ((times(40000 << 16 | 5201) - times(port << 16 | 5201)) % 2**32).to_bytes(4, "big")


def small_records(name):
    if name.startswith("4,096 small flows"):
        flows = range(1024, 1024 + 4096)
        hosts = {port: colliding_hosts(port) if name.endswith("collide") else bytes((10, 77, 0, 1)) + (port * 2654435761 % 2**32).to_bytes(4, "big") for port in flows}
        return [(1, 0, segment(port, 1000, 1, 100, small_payload(port), hosts[port])) for port in flows]
    if name == "ACKs":
        return [(1, 0, segment(40000 + i % 4, 1000, 2000 + i, 100 + i, b"")) for i in range(256)]
    if name == "one flow":
        return [(1, 0, segment(40000, 1000 + 34 * i, 1, 100 + i, small_payload(i))) for i in range(256)]
    if name == "64 small flows by 16":  # each burst is one merged record, in rounds of 64 and of 1,024
        return [(1, 0, segment(40000 + i, 1000 + 34 * j, 1, 100 + j, small_payload(j))) for i in range(64) for j in range(16)]
    return [(1, 0, segment(40000 + i, 1000, 1, 100, small_payload(i))) for i in range(64)]


SMALL = ("cut", "ACKs", "one flow", "64 flows", "4,096 small flows", "4,096 small flows that collide", "64 small flows by 16")


def make(name, sample, size, folder):
    """Makes a capture by its name; `size` is that of 1,514-byte frames, and those of small ones have three tenths of it."""
    path = os.path.join(folder, name.replace(" ", "_").replace(",", "") + ".pcap")
    part = re.fullmatch(r"(.*), (\d+) of 16", name)
    if part:
        name, size = part[1], size * int(part[2]) // 16
    if name == "no records":
        with open(path, "wb") as file:
            file.write(EMPTY)
        return Capture(path, 1)
    if name.startswith("merged "):
        source = make(name.removeprefix("merged "), sample, size, folder)
        with open(source.path, "rb") as read, open(path, "wb") as write:
            subprocess.run([PROGRAM, "merge"], stdin=read, stdout=write, check=True)
        os.unlink(source.path)
        return Capture(path, source.packets)
    if name in SAMPLES:
        records = records_of(os.path.join(ROOT, "samples", SAMPLES[name] + ".pcap"))
    elif name in FULL:
        records = full_records(name)
    else:
        records = small_records(name) if name in SMALL[1:] else large_records(sample, name)
    return write_capture(path, records, size * 3 // 10 if name in SMALL else size) if records else None


# Programs.

# What the launcher sets for the program.
OWN_WORDS = {"GLIBC_TUNABLES": "glibc.malloc.hugetlb=1:glibc.malloc.top_pad=33554432"}


def takes(*words):
    """Whether the program takes such a line."""
    return subprocess.run([PROGRAM, *words], input=EMPTY, capture_output=True, check=False).returncode != 2


def beside(walk, capture):
    """What the program is measured beside."""
    runs = [Run("record walk in C", [walk], capture), Run("the same, bytes summed", [walk, "sum"], capture)]
    if shutil.which("tcpdump"):
        runs.append(Run("`tcpdump -r - -w -`", ["tcpdump", "-r", "-", "-w", "-"], capture))
    if shutil.which("editcap"):
        runs.append(Run("`editcap - -`", ["editcap", "-F", "pcap", "-", "-"], capture))
    return runs


BESIDE = ("the same, bytes summed", "`tcpdump -r - -w -`")


def merges(name, capture, *words):
    return Run(name, [PROGRAM, "merge", *words], capture)


def merge_lines(name, *lines):
    """Merging a capture by each of these options that the program takes."""
    return [merges(" ".join(("merge", *words)), name, *words) for words in lines if takes("merge", *words)]


def merging(walk):
    """Merging beside what else passes a capture on, and by flows and layouts."""
    titles = {"1,514 bytes": "merging 1,514-byte frames, as captured", "cut": "merging the same cut to 100 bytes, which can't be merged", "ACKs": "merging 66-byte acknowledgments"}
    titles |= {"one flow": "merging 100-byte segments of one flow", "64 flows": "merging 100-byte segments of 64 flows, none of which continues"}
    found = [Group(title, beside(walk, name) + [merges("`offload merge`", name)], BESIDE, main=True) for name, title in titles.items()]
    layouts = ("1,514 bytes", "4,096 flows in turn", "4,096 flows by 8", *SAMPLES)
    found.append(Group("merging by flows and layouts", [merges(f"merge, {name}", name) for name in layouts], ("merge, 1,514 bytes",), main=True))
    many = [merges(f"merge --budget 4096 --blocks 16384, {name}", name, "--budget", "4096", "--blocks", "16384") for name in SMALL[4:6]]
    found.append(Group("merging 100-byte segments of 4,096 flows, and of 4,096 whose hashes are equal", many, (many[0].name,)))
    kinds = [merges(f"merge, {name}", name) for name in FULL]
    # Of 45 segments a merged frame has 65,535 bytes at most, of 180 almost 262,144.
    long = [merges(f"merge --budget 180 --segs {segs}, IPv6 segments", "IPv6 segments", "--budget", "180", "--segs", str(segs)) for segs in (45, 180)]
    return [*found, Group("merging one flow of full frames by what they carry", [*kinds, *long], ("merge, segments",))]


def segmenting(walk):
    for name in ("merged 1,514 bytes", "merged one flow"):
        runs = beside(walk, name)[:2] + [Run("`offload segment`", [PROGRAM, "segment"], name)]
        yield Group(f"segmenting what merge wrote of {name.removeprefix('merged ')}", runs, BESIDE[:1], main=True)


def short_runs():
    runs = [merges("merge of no records", "no records"), Run("make of 1,000 records", [PROGRAM, "make"], "no records")]
    return Group("short runs", runs, (), kind="short", main=True)


def by_options():
    """Merging by budgets, blocks, queues and taps."""
    # A round of 4,096 frames needs 12,288 blocks.
    options = [("--budget", str(budget)) for budget in (16, 256, 1024)] + [("--budget", "4096", "--blocks", "16384"), ("--blocks", "384"), ("--blocks", "65536")]
    found = [Group("merging by options, 1,514-byte frames", merge_lines("1,514 bytes", (), *options), ("merge",))]
    # Of four queues the sample's flows have one, and those that are made of it have all.
    four = (("--queues", "4"), ("--taps", "1"), ("--taps", "8"), ("--queues", "4", "--taps", "2"))
    lanes = {"64 flows in turn": four, "64 flows": four}
    lanes |= {"1,514 bytes": (("--taps", "1"), ("--taps", "8"), ("--queues", "4")), "4,096 flows by 8": (("--queues", "4"),)}
    for name, own in lanes.items():
        runs = merge_lines(name, *(budget + lane for budget in ((), ("--budget", "1024")) for lane in ((), *own)))
        titled = f"{name} of 100 bytes" if name in SMALL else name
        found.append(Group(f"merging over queues and taps, {titled}", runs, ("merge", "merge --budget 1024")))
    runs = merge_lines("64 small flows by 16", (), ("--budget", "1024"))
    return [*found, Group("merging 100-byte segments of 64 flows in bursts of 16, by the budget", runs, ("merge",))]


def growth():
    """How the time of a packet grows with the records, the flows and the budget; what a run takes before its first record is taken off."""
    start = merges("no records", "no records")
    records = [merges(f"{part} of 16 parts", f"1,514 bytes, {part} of 16") for part in (1, 4, 16)]
    flows = [merges(name, f"{name} by 8, 4 of 16") for name in ("1 flow", "16 flows", "64 flows", "256 flows", "1,024 flows", "4,096 flows")]
    blocks = ("--blocks", "16384")
    budgets = [merges(f"--budget {budget}", "1,514 bytes, 4 of 16", "--budget", str(budget), *blocks) for budget in (64, 16, 256, 1024, 4096)]
    return [
        Group("growth over records, 1,514-byte frames", [start, *records], (), kind="growth"),
        Group("growth over flows, 1,514-byte frames in bursts of 8", [start, *flows], (), kind="growth"),
        Group("growth over the budget, 1,514-byte frames, --blocks 16384", [merges("no records", "no records", *blocks), *budgets], (), kind="growth"),
    ]


def groups(walk):
    """What is measured, in groups; options that the program doesn't take yet are left out."""
    return [*merging(walk), *segmenting(walk), short_runs(), *by_options(), *growth()]


def build():
    """Has the program found, or proved and built, and `PROGRAM` lead to it."""
    find = 'root=$0 teller=bench refused=1 && . "$root/contrib/lib/program.sh" && find_product && echo "$product"'
    found = subprocess.run(["bash", "-c", find, ROOT], stdin=subprocess.DEVNULL, stdout=subprocess.PIPE, text=True, check=True).stdout.strip()
    os.makedirs(os.path.dirname(PROGRAM), exist_ok=True)
    link = f"{PROGRAM}.{os.getpid()}"
    os.symlink(found, link)
    os.replace(link, PROGRAM)


def compile_walk(folder):
    walk = os.path.join(folder, "walk")
    subprocess.run(["cc", "-O3", "-o", walk, os.path.join(ROOT, "bench", "walk.c")], check=True)
    return walk
