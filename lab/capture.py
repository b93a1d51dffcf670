"""Writes what the agents sent and received as a packet capture (classic pcap), which Wireshark and tshark open."""

from __future__ import annotations

import struct
from collections.abc import Iterable
from dataclasses import dataclass
from ipaddress import ip_address

from is_ice import SocketAddress

from .clock import BEGINNING
from .session import Trace

# The header of the file: microseconds, version 2.4, whole packets, and that each packet begins with its IP header (LINKTYPE_RAW).
MAGIC, SNAPLEN, LINKTYPE_RAW = 0xA1B2C3D4, 65535, 101
UDP, HOPS = 17, 64


@dataclass(frozen=True)
class Captured:
    """A UDP packet as its sender or its receiver sees it. The time is nanoseconds from the start of the session."""

    time: int
    side: str
    source: SocketAddress
    destination: SocketAddress
    contents: bytes


def of_trace(trace: Trace, sides: str = "ab") -> list[Captured]:
    """Returns what these sides sent and received, in the order of time."""
    sent = [(d.time, d.side, d.source, d.destination, d.contents) for d in trace.datagrams]
    packets = [Captured(time - BEGINNING, side, source, destination, contents)
               for time, side, source, destination, contents in [*sent, *trace.received] if side in sides]
    return sorted(packets, key=lambda packet: packet.time)


def bytes_of(packets: Iterable[Captured]) -> bytes:
    """Returns the contents of the file."""
    parts = [struct.pack("<IHHiIII", MAGIC, 2, 4, 0, 0, SNAPLEN, LINKTYPE_RAW)]
    for packet in packets:
        whole = ip_packet(packet.source, packet.destination, packet.contents)
        seconds, rest = divmod(packet.time, 10**9)
        parts += [struct.pack("<IIII", seconds, rest // 1000, len(whole), len(whole)), whole]
    return b"".join(parts)


def ip_packet(source: SocketAddress, destination: SocketAddress, contents: bytes) -> bytes:
    """Returns a UDP packet with its IP header, IPv4 (RFC 791) or IPv6 (RFC 8200), and its checksums."""
    here, there = (ip_address(address.ip).packed for address in (source, destination))
    length = 8 + len(contents)
    pseudo = here + there + struct.pack("!II", length, UDP)
    header = struct.pack("!HHH", source.port, destination.port, length)
    udp = header + struct.pack("!H", checksum(pseudo + header + b"\0\0" + contents) or 0xFFFF) + contents
    if source.version == 6:
        return struct.pack("!IHBB", 6 << 28, length, UDP, HOPS) + here + there + udp
    first, last = struct.pack("!BBHHHBB", 0x45, 0, 20 + length, 0, 0x4000, HOPS, UDP), here + there
    return first + struct.pack("!H", checksum(first + b"\0\0" + last)) + last + udp


def checksum(data: bytes) -> int:
    """Returns the Internet checksum (RFC 1071)."""
    data += b"\0" * (len(data) % 2)
    total: int = sum(struct.unpack(f"!{len(data) // 2}H", data))
    while total > 0xFFFF:
        total = (total & 0xFFFF) + (total >> 16)
    return total ^ 0xFFFF
