"""The capture of `offload make`, by its description alone. It shares no code with the proved program, so the two can be compared."""
import struct


def checksum(data):
    """The Internet checksum, by one division (RFC 1071)."""
    data += b"\0" * (len(data) % 2)
    total = sum(struct.unpack(f">{len(data) // 2}H", data))
    return 65535 - ((total - 1) % 65535 + 1 if total else 0)


def ethernet(flow, kind):
    return bytes([2, 0, 0, 0, 1, flow, 2, 0, 0, 0, 2, flow]) + struct.pack(">H", kind)


def ip4(ends, identification, protocol, content):
    def header(total):
        return struct.pack(">BBHHHBBH", 0x45, 0, 20 + len(content), identification, 0x4000, 64, protocol, total) + ends

    return header(checksum(header(0))) + content


def tcp(ends, pseudo, flow, sequence, flags, payload):
    def header(total):
        return struct.pack(">HHIIBBHHH", 40000 + flow, 5001, sequence, 1, 0x50, flags, 1024, total, 0)

    return header(checksum(ends + pseudo + header(0) + payload)) + payload


def frame(flow, sequence, identification, flags, payload):
    size = 20 + len(payload)
    if flow % 4 == 2:
        ends = bytes.fromhex("20010db8") + bytes(11) + bytes([flow]) + bytes.fromhex("20010db8") + bytes(10) + bytes([1, flow])
        segment = tcp(ends, struct.pack(">II", size, 6), flow, sequence, flags, payload)
        return ethernet(flow, 0x86DD) + struct.pack(">IHBB", 0x60000000, size, 6, 64) + ends + segment
    ends = bytes([10, 0, 0, flow, 10, 0, 1, flow])
    packet = ip4(ends, identification, 6, tcp(ends, struct.pack(">BBH", 0, 6, size), flow, sequence, flags, payload))
    if flow % 4 == 1:
        return ethernet(flow, 0x8100) + struct.pack(">HH", 100 + flow, 0x0800) + packet
    plain = ethernet(flow, 0x0800) + packet
    if flow % 4 == 0:
        return plain
    udp = struct.pack(">HHHH", 50000 + flow, 4789, 16 + len(plain), 0)
    vxlan = bytes([8, 0, 0, 0]) + struct.pack(">I", 4096 + flow << 8)
    return ethernet(flow, 0x0800) + ip4(bytes([192, 0, 2, flow, 192, 0, 2, 100]), identification, 17, udp + vxlan + plain)


def records(seed, count):
    state, sequences, identifications = seed, [1000 * flow for flow in range(8)], [0] * 8

    def draw(limit):
        nonlocal state
        state = (6364136223846793005 * state + 1442695040888963407) % 2**64
        return state // 2**33 % limit

    for number in range(count):
        flow, event = draw(8), draw(16)
        if event == 15:
            identifications[flow] = (identifications[flow] + 7) % 2**16
        size = 1 + draw(1199) if event == 12 else 0 if event == 14 else 1200
        payload = bytes((flow + number + place) % 256 for place in range(size))
        made = frame(flow, sequences[flow], identifications[flow], 0x18 if event == 13 else 0x10, payload)
        sequences[flow] = (sequences[flow] + size) % 2**32
        identifications[flow] = (identifications[flow] + 1) % 2**16
        yield struct.pack("<IIII", number // 1000, number % 1000 * 1000, len(made), len(made)) + made


def capture(seed, count):
    """The whole capture of a seed and a number of records."""
    return struct.pack("<IHHIIII", 0xA1B2C3D4, 2, 4, 0, 0, 262144, 1) + b"".join(records(seed, count))
