#!/usr/bin/env python3
"""What the library does to packets that scapy made: ten segments become one packet, and ten again.

usage: PYTHONPATH=PREFIX/share/offload/python contrib/python/examples/scapy_example.py

where contrib/install put the module below PREFIX. It has a folder of its own, since Python looks for modules beside a script first.
"""
import io

import offload
from scapy.layers.inet import IP, TCP
from scapy.layers.l2 import Ether
from scapy.utils import PcapReader, PcapWriter


def capture_of(packets):
    """A capture of these packets, in memory."""
    file = io.BytesIO()
    file.close = lambda: None  # (scapy closes what it wrote)
    with PcapWriter(file, linktype=1) as writer:
        writer.write(packets)
    return file.getvalue()


segments = [
    Ether(src="02:00:00:00:00:01", dst="02:00:00:00:00:02")
    / IP(src="192.0.2.1", dst="192.0.2.2", flags="DF")
    / TCP(sport=4000, dport=80, flags="A", seq=1 + 1000 * i)
    / bytes(1000)
    for i in range(10)
]
merged = offload.merge(capture_of(segments))
for record in offload.records(merged):
    print(f"{record.packets} packets: {Ether(record.frame).summary()}, {len(record.frame)} bytes")

cut = list(PcapReader(io.BytesIO(offload.segment(merged))))
assert [bytes(packet) for packet in cut] == [bytes(packet) for packet in segments]
print(f"{len(cut)} packets again, byte for byte")
