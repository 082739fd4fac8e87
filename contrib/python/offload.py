"""Captures in memory, merged and cut back, and frames merged and cut where they lie, by the proved library liboffload.so.

    import offload

    merged = offload.merge(capture, queues=4, taps=1)    # of link type 1; the options are those of `offload merge`
    packets = offload.segment(merged)                    # of link type 1 again: each flow's packets, in order and byte for byte
    for record in offload.records(merged):               # what each record says, and its frame, uncopied
        print(record.packets, record.segment, record.frame)
    offload.queue(frame, 4)                              # the receive queue of a frame's flow

    with offload.Gro(64) as gro:                         # frames of Ethernet, as they come: bytes, or anything with their protocol
        for run in gro.merge(frames):
            os.writev(device, run.slices())              # headers, and then the payloads where they lie
    offload.cut(frame, 1448, fill=True)                  # the segments of a merged frame, or of a large send
    offload.why(frame)                                   # why a frame can't be merged
    offload.why(first, second)                           # why two don't continue one another

    with offload.Pool(64) as pool:                       # blocks of 2048 bytes, and buffers over them as struct sk_buff
        packet = pool.packet(payload, headroom=64)
        clone = packet.clone()                           # no byte is copied
        clone.unshare()
        clone.push(header)

A call answers the bytes that the program writes, or raises an error of this module, whose text is the program's line. Nothing but the library
is needed, which is looked for at OFFLOAD_LIBRARY, where `contrib/install` puts it beside this file, and where the loader finds liboffload.so.3.
Calls run in the thread that makes them, without the interpreter's lock, so several threads may call at once.
"""

import ctypes
import os
import struct
import threading
from collections.abc import Callable, Iterable, Iterator, Sequence
from typing import NamedTuple, Optional, Union

__all__ = ["ENOUGH_BLOCKS", "Gro", "MalformedError", "NoMemoryError", "OffloadError", "PoolEmptyError", "Run", "UsageError"]
__all__ += ["BlocksError", "NoRoomError", "NotSoleError", "Packet", "Pool", "Record", "cut", "merge", "queue", "records", "segment", "why"]

Bytes = Union[bytes, bytearray, memoryview]

VERSION = 3  # of contrib/c/offload.h
OK, USAGE, MALFORMED, POOL_EMPTY, NOT_SOLE, NO_MEMORY, NO_ROOM = 0, 2, 3, 4, 5, 7, 9
CAUSES = ("", "cut short", "a fragment", "IPv4 options", "an extension header", "another layout", "length", "flags", "no payload", "sum")
FIRST_CAUSE, SECOND_CAUSE, FLOW_CAUSE = 10, 11, 12  # of two frames
CAUSES_OF_TWO = ("another flow", "another header field", "a UDP sum", "longer", "behind PSH or FIN", "sequence number", "identification", "too long")
ENOUGH_BLOCKS = 8384  # with so many no round of 64 records exceeds the pool
BLOCKS_OF_A_RECORD = 131
ETHERNET_LINK, OFFLOAD_LINK = 1, 147
ORDERS = {b"\xd4\xc3\xb2\xa1": "<", b"\x4d\x3c\xb2\xa1": "<", b"\xa1\xb2\xc3\xd4": ">", b"\xa1\xb2\x3c\x4d": ">"}
FILE_HEAD, RECORD_HEAD, LEAST_OFFLOAD_HEAD, MOST_OFFLOAD_HEAD = 24, 16, 12, 16
_KINDS = ("single", "merged", "window")
_HEADS = {1: struct.Struct(">xBHHBBI"), 2: struct.Struct(">xBBBIII")}  # of each version
_HEAD_NAMES = {
    1: ("kind", "packets", "segment", "modes", "lane", "number"),
    2: ("kind", "modes", "lane", "packets", "segment", "number"),
}
MOST_FRAME, MOST_ORIGINAL, MOST_RECORDS = 262144, 2**31 - 1, 2**32


class OffloadError(Exception):
    """What a call couldn't do; `status` is the program's."""

    status = 0


class UsageError(OffloadError, ValueError):
    """An option isn't as it has to be."""

    status = USAGE


class MalformedError(OffloadError):
    """The capture is malformed: a `kind`, the `offset` of a byte in the capture and the number of a `record`, from 0. `output` is what comes of
    the records before."""

    status = MALFORMED

    def __init__(self, kind: str, offset: int, record: int, output: bytes) -> None:
        super().__init__(f"malformed: {kind} at {offset} in record {record}")
        self.kind, self.offset, self.record, self.output = kind, offset, record, output


class PoolEmptyError(OffloadError):
    """A `round`, from 0, has a `need` of more `blocks` than there are. `output` is what comes of the rounds before."""

    status = POOL_EMPTY

    def __init__(self, round: int, need: int, blocks: int, output: bytes) -> None:
        super().__init__(f"pool empty: round {round} needs {need} of {blocks} blocks")
        self.round, self.need, self.blocks, self.output = round, need, blocks, output


class NoMemoryError(OffloadError, MemoryError):
    """There was no memory; nothing comes of the call."""

    status = NO_MEMORY


class BlocksError(OffloadError):
    """Fewer blocks of a pool are home than a call takes; nothing has changed."""

    status = POOL_EMPTY


class NotSoleError(OffloadError):
    """Others hold the block that would be written, or it was shared too often; nothing has changed."""

    status = NOT_SOLE


class NoRoomError(OffloadError):
    """There is no headroom or tailroom for so many bytes; nothing has changed."""

    status = NO_ROOM


class Options(ctypes.Structure):
    """struct offload_options of contrib/c/offload.h."""

    _fields_ = [
        ("size", ctypes.c_size_t),
        ("budget", ctypes.c_uint32),
        ("blocks", ctypes.c_uint32),
        ("queues", ctypes.c_uint32),
        ("taps", ctypes.c_uint32),
        ("snap", ctypes.c_uint32),
        ("segs", ctypes.c_uint32),
        ("filter", ctypes.c_char_p),
        ("filter_length", ctypes.c_size_t),
        ("rss_key", ctypes.c_char_p),
        ("rss_key_length", ctypes.c_size_t),
        ("rss_table", ctypes.c_char_p),
        ("rss_table_length", ctypes.c_size_t),
    ]


class _Frame(ctypes.Structure):
    """struct offload_frame of contrib/c/offload_burst.h."""

    _fields_ = [("bytes", ctypes.c_void_p), ("length", ctypes.c_size_t), ("original", ctypes.c_uint32), ("number", ctypes.c_uint32)]


class _Run(ctypes.Structure):
    """struct offload_run of contrib/c/offload_burst.h."""

    _fields_ = [
        *((name, ctypes.c_uint32) for name in ("first", "n", "m", "length", "headers_length")),
        ("pseudo", ctypes.c_uint16),
        *((name, ctypes.c_uint8) for name in ("kind", "modes", "ip_at", "leaf_at", "leaf")),
        ("headers", ctypes.c_uint8 * 200),
    ]


class _Segment(ctypes.Structure):
    """struct offload_segment of contrib/c/offload_burst.h."""

    _fields_ = [*((name, ctypes.c_uint32) for name in ("at", "length", "headers_length")), ("headers", ctypes.c_uint8 * 200)]


class _Engine(ctypes.Structure):
    """struct offload_gro of contrib/c/offload_burst.h, and struct offload_pool and offload_skb of contrib/c/offload.h."""

    _fields_ = [("at", ctypes.c_void_p), ("made", ctypes.c_uint8)]


def _loaded() -> ctypes.CDLL:
    """The library, with the types of its calls."""
    name = f"liboffload.so.{VERSION}"
    installed = os.path.join(os.path.dirname(os.path.realpath(__file__)), "..", "..", "..", "lib", name)
    path = os.environ.get("OFFLOAD_LIBRARY") or (installed if os.path.exists(installed) else name)
    try:
        library = ctypes.CDLL(path)
    except OSError as error:
        raise ImportError(f"{error}; contrib/install or contrib/c/build makes {name}, and OFFLOAD_LIBRARY may name it") from error
    size, number, data, count = ctypes.c_size_t, ctypes.c_uint32, ctypes.c_char_p, ctypes.POINTER(ctypes.c_size_t)
    out = ctypes.c_void_p
    library.offload_merge_bound.argtypes, library.offload_merge_bound.restype = [size, size, number, number], size
    library.offload_merge.argtypes, library.offload_merge.restype = [ctypes.POINTER(Options), data, size, out, size, count], number
    library.offload_segment.argtypes, library.offload_segment.restype = [number, data, size, out, size, count], number
    library.offload_queue.argtypes, library.offload_queue.restype = [data, size, number], number
    library.offload_queue_rss.argtypes, library.offload_queue_rss.restype = [data, size, data, data, size, number], number
    frames, runs, engine = ctypes.POINTER(_Frame), ctypes.POINTER(_Run), ctypes.POINTER(_Engine)
    indices = ctypes.POINTER(ctypes.c_uint32)
    library.offload_gro_new_link.argtypes, library.offload_gro_new_link.restype = [engine, number, number, number, number], number
    library.offload_gro_receive.argtypes, library.offload_gro_receive.restype = [engine, frames, size], number
    library.offload_gro_flush.argtypes = [engine, frames, size, indices, size, runs, size, count]
    library.offload_gro_flush.restype = number
    library.offload_gro_free.argtypes, library.offload_gro_free.restype = [engine], None
    library.offload_gso_burst.argtypes = [out, size, number, ctypes.c_uint8, ctypes.POINTER(_Segment), size, count]
    library.offload_gso_burst.restype = number
    library.offload_fill_sums.argtypes, library.offload_fill_sums.restype = [out, size], number
    library.offload_why.argtypes, library.offload_why.restype = [out, size, number], number
    library.offload_why_apart.argtypes, library.offload_why_apart.restype = [frames, frames], number
    library.offload_pool_new.argtypes, library.offload_pool_new.restype = [engine, number], number
    library.offload_pool_home.argtypes, library.offload_pool_home.restype = [engine], number
    library.offload_pool_free.argtypes, library.offload_pool_free.restype = [engine], None
    library.offload_skb_length.argtypes, library.offload_skb_length.restype = [engine], size
    for name, types in (
        ("new", [engine, engine, size]),
        ("release", [engine, engine]),
        ("read", [engine, size, out, size]),
        ("push", [engine, data, size]),
        ("put_tail", [engine, data, size]),
        ("pull", [engine, engine, size]),
        ("trim", [engine, engine, size]),
        ("clone", [engine, engine]),
        ("copy", [engine, engine, engine]),
        ("unshare", [engine, engine]),
        ("split_at", [engine, engine, size, engine]),
        ("attach", [engine, engine, engine]),
    ):
        call = getattr(library, f"offload_skb_{name}")
        call.argtypes, call.restype = types, number
    return library


_library = _loaded()


def _number(name: str, value: int) -> int:
    if not 0 <= value < 2**32:
        raise UsageError(f"{name} is out of its range: {value}")
    return value


def _size(name: str, value: int) -> int:
    if not 0 <= value < 2**63:
        raise UsageError(f"{name} is out of its range: {value}")
    return value


def _key(rss: Union[Bytes, str, None]) -> bytes:
    """The key of the hash, which may be given as 80 hexadecimal digits; no byte where there is none."""
    try:
        key = bytes.fromhex(rss) if isinstance(rss, str) else bytes(rss or b"")
    except ValueError:
        key = b"-"
    if rss is not None and len(key) != 40:
        raise UsageError("rss is no key of 40 bytes, or 80 hexadecimal digits")
    return key


def _table(table: Optional[Sequence[int]]) -> bytes:
    if table is None:
        return b""
    if not 1 <= len(table) <= 128 or not all(0 <= queue <= 63 for queue in table):
        raise UsageError("table has no 1 to 128 queues")
    return bytes(table)


def merge(
    capture: Bytes,
    *,
    budget: int = 64,
    blocks: int = ENOUGH_BLOCKS,
    queues: int = 1,
    taps: int = 0,
    snap: int = 64,
    segs: int = 4096,
    filter: str = "",
    rss: Union[Bytes, str, None] = None,
    table: Optional[Sequence[int]] = None,
) -> bytes:
    """Merges a capture of Ethernet frames (classic pcap, link type 1) to one of link type 147, as `offload merge` does with these options.

    Raises UsageError where an option is out of its range, MalformedError, PoolEmptyError and NoMemoryError.
    """
    data, key, places, text = bytes(capture), _key(rss), _table(table), filter.encode()
    numbers = [
        _number(name, value)
        for name, value in (("budget", budget), ("blocks", blocks), ("queues", queues), ("taps", taps), ("snap", snap), ("segs", segs))
    ]
    options = Options(ctypes.sizeof(Options), *numbers, text, len(text), key, len(key), places, len(places))
    # (where these two are out of their ranges, the bound may be beyond all memory, and the answer is the same without room)
    room = _library.offload_merge_bound(len(data), len(data) // RECORD_HEAD, taps, snap) if taps <= 8 and snap <= 2048 else 0
    status, written = _called(room, lambda *output: _library.offload_merge(options, data, len(data), *output))
    if status == USAGE:
        raise UsageError("an option is out of its range")
    if status in (MALFORMED, POOL_EMPTY):
        raise _end(data, ETHERNET_LINK, written, budget, blocks)
    return _answer(status, written)


def segment(capture: Bytes, *, blocks: int = BLOCKS_OF_A_RECORD) -> bytes:
    """Cuts a capture of link type 147 into the packets that its records stand for, a capture of link type 1, as `offload segment` does.

    Raises UsageError where `blocks` isn't 1 to 65536, MalformedError, PoolEmptyError and NoMemoryError.
    """
    data = bytes(capture)
    status, written = _segmented(data, _number("blocks", blocks))
    if status == USAGE:
        raise UsageError(f"blocks is out of its range: {blocks}")
    if status in (MALFORMED, POOL_EMPTY):
        raise _end_of_segments(data, written, blocks)
    return _answer(status, written)


class Record(NamedTuple):
    """A record of an offload capture. `kind` is single, merged or window; of a merged one `packets` is how many, each with `segment` bytes of payload
    but the last, which may have fewer. `lane` is its queue, of a window its tap; `number` is that of its first packet. Its time is `seconds` and
    `fraction`, as the capture counts that. `frame` is a view of the capture; before it was cut short it had `original` bytes."""

    kind: str
    packets: int
    segment: int
    modes: int
    lane: int
    number: int
    seconds: int
    fraction: int
    original: int
    frame: memoryview


def records(capture: Bytes) -> Iterator[Record]:
    """The records of a capture of link type 147, in order, of either version. Raises MalformedError behind the last whole record."""
    data = memoryview(capture).cast("B")
    for found in _walk(data, OFFLOAD_LINK):
        if isinstance(found, _Fault):
            raise MalformedError(*found, b"")
        at = found.offset + RECORD_HEAD
        if len(data) - at >= found.captured:
            seconds, fraction, _, original = struct.unpack_from(ORDERS[bytes(data[:4])] + "IIII", data, found.offset)
            head = _HEADS.get(data[at])
            if head is None or data[at + 1] >= len(_KINDS) or found.captured < head.size:
                raise MalformedError("BadOffload", found.offset, found.number, b"")
            said = dict(zip(_HEAD_NAMES[data[at]], head.unpack_from(data, at)))
            frame = data[at + head.size : at + found.captured]
            yield Record(_KINDS[said.pop("kind")], **said, seconds=seconds, fraction=fraction, original=original - head.size, frame=frame)


def queue(frame: Bytes, queues: int, *, rss: Union[Bytes, str, None] = None, table: Optional[Sequence[int]] = None) -> int:
    """The receive queue, below `queues`, of the flow of an Ethernet frame: by the program's own hash, or by the Toeplitz hash with a key.

    Raises UsageError where `queues` isn't 1 to 64, the key has no 40 bytes, or the table isn't as `merge` takes it.
    """
    data, key, places = bytes(frame), _key(rss), _table(table)
    number = _number("queues", queues)
    if places and not key:
        raise UsageError("a table stands with a key alone")
    if key:
        found = _library.offload_queue_rss(data, len(data), key, places, len(places), number)
    else:
        found = _library.offload_queue(data, len(data), number)
    if found >= number:
        raise UsageError("queues is no number from 1 to 64, or the table has a queue that there isn't")
    return int(found)


def _called(room: int, call: Callable[[int, int, ctypes.c_size_t], int]) -> tuple[int, bytes]:
    """The status of a call, and what it wrote; where the room doesn't suffice it is asked again, with as much as it says."""
    count = ctypes.c_size_t()
    while True:
        output = bytearray(room + 1)
        status = call(ctypes.addressof(ctypes.c_char.from_buffer(output)), room, count)
        if status != NO_ROOM:
            return status, bytes(memoryview(output)[: count.value])
        room = count.value


def _segmented(data: bytes, blocks: int) -> tuple[int, bytes]:
    return _called(2 * len(data), lambda *output: _library.offload_segment(blocks, data, len(data), *output))


def _answer(status: int, written: bytes) -> bytes:
    if status == NO_MEMORY:
        raise NoMemoryError("no memory")
    if status != OK:
        raise OffloadError(f"status {status}")
    return written


# ---- frames, merged and cut where they lie


def _lent(frame: Bytes) -> tuple[memoryview, int, object]:
    """A view of a frame, its address, and what has to live as long as that is used. What can't be written but bytes is copied."""
    view = memoryview(frame).cast("B")
    if view.readonly:
        kept = frame if isinstance(frame, bytes) else bytes(view)
        return memoryview(kept), ctypes.cast(ctypes.c_char_p(kept), ctypes.c_void_p).value or 0, kept
    if not view:
        return _lent(b"")
    array = (ctypes.c_char * len(view)).from_buffer(view)
    return view, ctypes.addressof(array), array


class Run(NamedTuple):
    """What frames of one flow come to: `packets` of them, each with `segment` bytes of payload but the last, which may have fewer. Of a frame
    that is alone `headers` are empty, `segment` and `modes` 0. `frames` are views of those that were received, and no payload is copied."""

    packets: int
    segment: int
    modes: int
    pseudo: int
    headers: bytes
    frames: list[memoryview]

    def slices(self) -> list[Union[bytes, memoryview]]:
        """The merged frame, for os.writev: its headers, and then the payloads where they lie."""
        at = len(self.headers)
        return [*([self.headers] if at else []), *(frame[at:] for frame in self.frames)]

    def __bytes__(self) -> bytes:
        return b"".join(self.slices())


# What packets begin with, by the numbers of captures' link types.
_LINKS = {"ethernet": 1, "raw": 101}


class Gro:
    """An engine that merges at most `frames` (65,535 or fewer) frames between two flushes, in runs of at most `segs` whose merged frame has at
    most `length` bytes; 0 is no bound. They begin with an Ethernet header, or by `link="raw"` with IP, as those of a TUN device; so do the headers
    that are told then.

    with offload.Gro(64) as gro:
        for run in gro.merge(frames):
            os.writev(device, run.slices())

    Frames are bytes, or anything with their protocol, and stay as they are until they are flushed. Raises UsageError and NoMemoryError.
    """

    def __init__(self, frames: int = 64, segs: int = 4096, length: int = 0, link: str = "ethernet") -> None:
        self._engine = _Engine()
        if link not in _LINKS:
            raise UsageError(f"no link {link!r}: ethernet or raw")
        numbers = _LINKS[link], _number("frames", frames), _number("segs", segs), _number("length", length)
        _checked(_library.offload_gro_new_link(self._engine, *numbers), "frames or segs are out of their range")
        self._limit, self._kept = frames, []
        self._frames, self._next, self._runs = (_Frame * frames)(), (ctypes.c_uint32 * frames)(), (_Run * frames)()

    def __enter__(self) -> "Gro":
        return self

    def __exit__(self, *_: object) -> None:
        self.close()

    def __del__(self) -> None:
        self.close()

    def close(self) -> None:
        """Ends the engine; what it has received is dropped."""
        _library.offload_gro_free(self._engine)
        self._kept = []

    def receive(self, frame: Bytes, original: Optional[int] = None) -> bool:
        """One more frame, which had `original` bytes before it was cut short. Whether there is room for a further one before a flush."""
        view, address, kept = _lent(frame)
        count = len(self._kept)
        if count >= self._limit:
            raise UsageError(f"more than {self._limit} frames without a flush")
        length = len(view)
        self._frames[count] = _Frame(address, length, _number("original", length if original is None else original), count)
        _checked(_library.offload_gro_receive(self._engine, self._frames, count + 1), "no frame, or the engine was closed")
        self._kept.append((view, kept))
        return count + 1 < self._limit

    def flush(self) -> list[Run]:
        """What all frames come to that were received since the last flush, in the order of the runs' first frames."""
        count, limit = ctypes.c_size_t(), self._limit
        status = _library.offload_gro_flush(self._engine, self._frames, len(self._kept), self._next, limit, self._runs, limit, count)
        _checked(status, "the engine was closed")
        views, self._kept = [view for view, _ in self._kept], []
        return [self._told(self._runs[i], views) for i in range(count.value)]

    def merge(self, frames: Iterable[Bytes]) -> Iterator[Run]:
        """The runs of frames, flushed where there is room for no more, and at the end."""
        for frame in frames:
            if not self.receive(frame):
                yield from self.flush()
        yield from self.flush()

    def _told(self, run: _Run, views: list[memoryview]) -> Run:
        members, at = [], run.first
        for _ in range(run.n):
            members.append(views[at])
            at = self._next[at]
        return Run(run.n, run.m, run.modes, run.pseudo, bytes(run.headers[: run.headers_length]), members)


class Pool:
    """A pool of so many blocks of 2048 bytes, 1 to 65,536, and the packets over them; threads take turns.

    A packet that isn't released gives its blocks back once nothing refers to it. Raises UsageError and NoMemoryError.
    """

    def __init__(self, blocks: int = 64) -> None:
        self._at, self._lock = _Engine(), threading.RLock()
        _checked(_library.offload_pool_new(self._at, _number("blocks", blocks)), f"blocks is out of its range: {blocks}")

    def __enter__(self) -> "Pool":
        return self

    def __exit__(self, *_: object) -> None:
        self.close()

    def __del__(self) -> None:
        self.close()

    def close(self) -> None:
        """Ends the pool; packets that are left can be read and cloned, and their blocks are freed."""
        with self._lock:
            _library.offload_pool_free(self._at)

    @property
    def home(self) -> int:
        """How many blocks are home: all that were made, once each packet was released."""
        with self._lock:
            return _library.offload_pool_home(self._at)

    def packet(self, payload: Bytes = b"", headroom: int = 64) -> "Packet":
        """A packet of these bytes, behind so much headroom of its block. Raises UsageError, BlocksError, NoRoomError and NoMemoryError."""
        packet = Packet(self)
        packet._call("new", _size("headroom", headroom))
        if payload:
            packet.put_tail(payload)
        return packet


class Packet:
    """A packet buffer of a pool, which Pool.packet makes, as struct sk_buff: calls are those of contrib/c/offload.h.

    bytes(packet) are its bytes, which are copied. Each call raises UsageError where it can't be made, and then nothing has changed.
    """

    def __init__(self, pool: Pool) -> None:
        self._pool, self._at = pool, _Engine()

    def __del__(self) -> None:
        if not self._at.made:
            return
        with self._pool._lock:
            if _library.offload_skb_release(self._pool._at, self._at) == USAGE:  # the pool is closed: one without a place frees the blocks
                other = _Engine()
                if _library.offload_pool_new(other, 1) == OK:
                    _library.offload_skb_release(other, self._at)
                    _library.offload_pool_free(other)

    def __len__(self) -> int:
        with self._pool._lock:
            return _library.offload_skb_length(self._at)

    def __bytes__(self) -> bytes:
        return self.read(0, len(self))

    def _call(self, name: str, *words: object, of_pool: bool = True) -> None:
        with self._pool._lock:
            places = (self._pool._at, self._at) if of_pool else (self._at,)
            status = getattr(_library, f"offload_skb_{name}")(*places, *words)
        for kind in (BlocksError, NotSoleError, NoRoomError):
            if status == kind.status:
                raise kind(f"{name}: {kind.__doc__.split(';', maxsplit=1)[0]}")
        _checked(status, f"{name} can't be done with these numbers, or of a packet that was released")

    def _made(self, name: str, *words: object, of_pool: bool = True) -> "Packet":
        packet = Packet(self._pool)
        self._call(name, *words, packet._at, of_pool=of_pool)
        return packet

    def read(self, at: int, length: int) -> bytes:
        """A copy of so many bytes, from a place on."""
        room = ctypes.create_string_buffer(_size("length", length) or 1)
        self._call("read", _size("at", at), room, length, of_pool=False)
        return room.raw[:length]

    def push(self, front: Bytes) -> None:
        """Bytes in front. Raises NoRoomError, and NotSoleError."""
        self._call("push", bytes(front), len(front), of_pool=False)

    def put_tail(self, back: Bytes) -> None:
        """Bytes behind. Raises NoRoomError, and NotSoleError."""
        self._call("put_tail", bytes(back), len(back), of_pool=False)

    def pull(self, length: int) -> None:
        """The first bytes are gone."""
        self._call("pull", _size("length", length))

    def trim(self, length: int) -> None:
        """The last bytes are gone."""
        self._call("trim", _size("length", length))

    def clone(self) -> "Packet":
        """A second packet of the same bytes, uncopied. Raises NotSoleError where it was cloned too often."""
        return self._made("clone", of_pool=False)

    def copy(self) -> "Packet":
        """A packet of the same bytes in blocks of its own. Raises BlocksError."""
        return self._made("copy")

    def unshare(self) -> None:
        """Nobody else holds the head's block then. Raises BlocksError."""
        self._call("unshare")

    def split_at(self, at: int) -> "Packet":
        """The packet keeps its first bytes; the rest is another one, uncopied. Raises BlocksError and NotSoleError."""
        return self._made("split_at", _size("at", at))

    def attach(self, other: "Packet") -> None:
        """Another packet's bytes follow, uncopied, and that one is released."""
        if other is self or other._pool is not self._pool:
            raise UsageError("a packet is attached to another one of its pool")
        self._call("attach", other._at)

    def release(self) -> None:
        """The packet gives its blocks back."""
        self._call("release")


def cut(frame: Bytes, segment: int, *, modes: int = 0, fill: bool = False) -> list[list[Union[bytes, memoryview]]]:
    """The segments of a merged frame, with `segment` bytes of payload each but the last: of each its headers, and a view of its payload.

    Where `fill` is set, sums that a host left to its card are filled in first, in a copy. Raises UsageError where the frame can't be cut so.
    """
    view, address, kept = _lent(bytearray(frame) if fill else frame)
    number, count, length = _number("segment", segment), ctypes.c_size_t(), len(view)
    if fill:
        _checked(_library.offload_fill_sums(address, length), "a sum of the frame is wrong, or its headers aren't known")
    if not 0 <= modes < 256:
        raise UsageError(f"modes is out of its range: {modes}")
    room = length // max(number, 1) + 1
    segments = (_Segment * room)()
    _checked(_library.offload_gso_burst(address, length, number, modes, segments, room, count), "the frame is no merged one that can be cut so")
    del kept
    told = segments[: count.value]
    return [[bytes(one.headers[: one.headers_length]), view[one.at : one.at + one.length]] for one in told]


def why(frame: Bytes, second: Optional[Bytes] = None, *, original: Optional[int] = None, original_of_second: Optional[int] = None) -> str:
    """Why a frame that had `original` bytes before it was captured can't be merged, in a word or two; nothing of one that can.

    With a `second` frame, why that doesn't continue the first; nothing where both are a run.
    """
    first, kept = _captured(frame, original)
    if second is None:
        number = _library.offload_why(first.bytes, first.length, first.original)
        del kept
        return CAUSES[number]
    behind, kept_too = _captured(second, original_of_second)
    number = _library.offload_why_apart(first, behind)
    del kept, kept_too
    if number == FIRST_CAUSE:
        return f"the first: {why(frame, original=original)}"
    if number == SECOND_CAUSE:
        return f"the second: {why(second, original=original_of_second)}"
    return CAUSES_OF_TWO[number - FLOW_CAUSE] if number else ""


def _captured(frame: Bytes, original: Optional[int]) -> tuple[_Frame, object]:
    """A frame that had so many bytes before it was captured, and what has to live as long as it is used."""
    view, address, kept = _lent(frame)
    return _Frame(address, len(view), _number("original", len(view) if original is None else original), 0), kept


def _checked(status: int, reason: str) -> None:
    if status == NO_MEMORY:
        raise NoMemoryError("no memory")
    if status != OK:
        raise UsageError(reason)


# Where a call stopped. The library tells that it did, and what comes of what stands before; the place follows from the lengths in the capture.


class _Record(NamedTuple):
    number: int
    offset: int
    captured: int


class _Fault(NamedTuple):
    kind: str
    offset: int
    record: int


def _head_fault(data: Bytes, link: int) -> Optional[_Fault]:
    order = ORDERS.get(bytes(data[:4]))
    if len(data) < FILE_HEAD:
        return _Fault("ShortHeader", 0, 0)
    if order is None:
        return _Fault("BadMagic", 0, 0)
    if struct.unpack_from(order + "HH", data, 4) != (2, 4):
        return _Fault("BadVersion", 4, 0)
    return None if struct.unpack_from(order + "I", data, 20)[0] == link else _Fault("BadLinkType", 20, 0)


def _walk(data: Bytes, link: int) -> Iterator[Union[_Record, _Fault]]:
    """The records whose headers are taken, up to a fault of a header, or of the bytes behind one."""
    head = _head_fault(data, link)
    if head:
        yield head
        return
    lengths = struct.Struct(ORDERS[bytes(data[:4])] + "II")
    least, more = (LEAST_OFFLOAD_HEAD, MOST_OFFLOAD_HEAD) if link == OFFLOAD_LINK else (0, 0)
    number, at = 0, FILE_HEAD
    while at < len(data):
        if len(data) - at < RECORD_HEAD:
            yield _Fault("ShortRecordHeader", at, number)
            return
        captured, original = lengths.unpack_from(data, at + 8)
        if number == MOST_RECORDS:
            kind = "TooMany"
        elif captured > MOST_FRAME + more:
            kind = "TooLong"
        elif not least <= original <= MOST_ORIGINAL + more:
            kind = "BadOriginal"
        else:
            kind = "BadOffload" if captured < least else ""
        if kind:
            yield _Fault(kind, at, number)
            return
        yield _Record(number, at, captured)
        if len(data) - at - RECORD_HEAD < captured:
            yield _Fault("ShortRecord", at, number)
            return
        number, at = number + 1, at + RECORD_HEAD + captured


def _need(length: int) -> int:
    """The blocks that a frame needs: 2048 bytes each, 64 bytes before it, and two more."""
    return -(-(length + 64) // 2048) + 2


def _end(data: bytes, link: int, written: bytes, budget: int, blocks: int) -> OffloadError:
    """Where rounds of records end: at a fault, or where a round needs more blocks than there are."""
    needed = 0
    for found in _walk(data, link):
        if isinstance(found, _Fault):
            return MalformedError(*found, written)
        needed = (needed if found.number % budget else 0) + _need(found.captured - (LEAST_OFFLOAD_HEAD if link == OFFLOAD_LINK else 0))
        if needed > blocks:
            return PoolEmptyError(found.number // budget, needed, blocks, written)
    return OffloadError("the library refuses the capture")


def _end_of_segments(data: bytes, written: bytes, blocks: int) -> OffloadError:
    """The same of segmenting, where each record is a round, and may be refused for its frame too. That is the first one that is refused alone, of
    those that stand behind as many packets as were written."""
    packets = sum(1 for found in _walk(written, ETHERNET_LINK) if isinstance(found, _Record)) if written else 0
    for found in _walk(data, OFFLOAD_LINK):
        if packets > 0 and isinstance(found, _Record):
            packets -= _packets_of(data, found)
        elif isinstance(found, _Record) and _need(found.captured - LEAST_OFFLOAD_HEAD) <= blocks:
            end = found.offset + RECORD_HEAD + found.captured
            if end <= len(data) and _segmented(data[:FILE_HEAD] + data[found.offset : end], blocks)[0] == MALFORMED:
                return MalformedError("BadOffload", found.offset, found.number, written)
        else:
            break
    return _end(data, OFFLOAD_LINK, written, 1, blocks)


def _packets_of(data: bytes, record: _Record) -> int:
    """How many packets a lawful record stands for."""
    at = record.offset + RECORD_HEAD
    kind = data[at + 1]
    if kind != 1:
        return 1 if kind == 0 else 0
    return int.from_bytes(data[at + 2 : at + 4] if data[at] == 1 else data[at + 4 : at + 8], "big")
