"""What `wire` answers to a capture of a host, slowly and by the definition: status, line on standard error and output.

A packet that was captured whole, has a shape and right lengths gets the sums that the host left to its card: those whose field holds the
sum of the pseudo header alone, or each one. A TCP frame with more payload than `mss` that may be cut is written as its segments.
"""
import struct
from typing import NamedTuple

import commands
from commands import IP4, MOST_FRAME, SUM_FIELD, TCP, UDP, Answer, Fault, Packet, PoolEmpty, be16, checksum

MOST_ON_WIRE = 1514
USAGE = Answer(2, "usage: wire [--mss N] [--sums partial|all] [--blocks N] [--summary]\n", b"")
RANGES = {"mss": (1, 65535), "blocks": (1, 65536)}


class Options(NamedTuple):
    mss: int = 1448
    fills_all: bool = False
    blocks: int = 131
    has_summary: bool = False


def options_of(words):
    """The options that the words stand for; a ValueError says what is wrong with them."""
    words, found = list(words), {}
    while words:
        name, has_value, text = words.pop(0).partition("=")
        name = name.removeprefix("--") if name.startswith("--") else None
        has_none = not has_value and (name == "summary" or not words)
        if name in found or name not in ("mss", "blocks", "sums", "summary") or has_none != (name == "summary"):
            raise ValueError("options are --mss, --sums and --blocks, each with a value, and --summary, each once")
        if name == "summary":
            found[name] = True
            continue
        text = text if has_value else words.pop(0)
        if name == "sums":
            if text not in ("partial", "all"):
                raise ValueError("--sums is partial or all")
            found[name] = text == "all"
        else:
            least, most = RANGES[name]
            if not text.isdecimal() or not least <= int(text) <= most:
                raise ValueError(f"--{name}: no number from {least} to {most}")
            found[name] = int(text)
    named = {"mss": "mss", "blocks": "blocks", "sums": "fills_all", "summary": "has_summary"}
    return Options(**{named[name]: value for name, value in found.items()})


def pseudo_sum(frame, headers, i):
    """The sum of the pseudo header alone, as a host leaves it in the field."""
    kind, at = headers[i]
    ip, ip_at = headers[i - 1]
    protocol, length = (6 if kind == TCP else 17), len(frame) - at
    if ip == IP4:
        pseudo = frame[ip_at + 12 : ip_at + 20] + struct.pack(">BBH", 0, protocol, length % 65536)
    else:
        pseudo = frame[ip_at + 8 : ip_at + 40] + struct.pack(">IBBBB", length, 0, 0, 0, protocol)
    return 65535 - checksum(pseudo)


def is_whole(packet):
    found = commands.shape(packet.frame)
    if found is None or packet.original != len(packet.frame):
        return False
    fields = (commands.length_field(kind, at, len(packet.frame)) for kind, at in found[0])
    return all(be16(packet.frame, field[0]) == field[1] for field in fields if field)


def filled(frame, fills_all):
    """A frame with its sums filled in, how many were, and how many stay wrong."""
    headers, _ = commands.shape(frame)
    out, count, wrong = bytearray(frame), 0, 0
    for i in reversed(range(len(headers))):
        kind, at = headers[i]
        if kind not in SUM_FIELD:
            continue
        place = at + SUM_FIELD[kind]
        field = be16(out, place)
        if kind == UDP and field == 0:
            continue
        value = commands.sum_of(bytes(out), headers, i)
        is_due = fills_all or kind != IP4 and field == pseudo_sum(bytes(out), headers, i)
        if is_due:
            out[place : place + 2] = struct.pack(">H", value)
        count += is_due and field != value
        wrong += not is_due and field != value
    return bytes(out), count, wrong


def wired(packet, options):
    """The frames that stand on the wire of a packet, each with its original length, and what is counted."""
    frame, count, wrong = filled(packet.frame, options.fills_all) if is_whole(packet) else (packet.frame, 0, 0)
    found = commands.shape(frame)
    size = len(frame) - found[1] if found else 0
    if found and found[0][-1][0] == TCP and size > options.mss:
        head = commands.Head(2, commands.MERGED, -(-size // options.mss), options.mss, 0, 0, 0)
        if commands.is_lawful(head, frame, packet.original):
            return commands.segments(head, frame, packet.original), (1, count, wrong, 0)
    return [(frame, packet.original)], (0, count, wrong, int(len(frame) > MOST_ON_WIRE))


def wire(data, options=Options()):
    order = commands.file_head(data, commands.ETHERNET_LINK)
    if isinstance(order, Fault):
        return commands.answer(order, b"")
    out = [data[:4], struct.pack(order + "HH", 2, 4), data[8:16], struct.pack(order + "II", MOST_FRAME, commands.ETHERNET_LINK)]
    at, number, counts = 24, 0, (0, 0, 0, 0)
    while True:
        found = commands.next_record(data, at, number, commands.ETHERNET_LINK, 0, options.blocks)
        if isinstance(found, int):
            return commands.answer(PoolEmpty(number, found, options.blocks), b"".join(out))
        if not isinstance(found, Packet):
            break
        frames, own = wired(found, options)
        for frame, original in frames:
            out.append(struct.pack(order + "IIII", found.seconds, found.fraction, len(frame), original) + frame)
        counts = tuple(map(sum, zip(counts, own)))
        at, number = at + 16 + len(found.frame), number + 1
    answer = commands.answer(found, b"".join(out))
    if answer.status == 0 and options.has_summary:
        line = "cut {} frames, filled {} sums; left {} wrong sums, {} frames above 1514 bytes\n".format(*counts)
        return Answer(0, line, answer.output)
    return answer
