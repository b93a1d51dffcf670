"""Finds the protocol of a datagram by its first bytes, for sockets that several protocols share (RFC 7983)."""

from __future__ import annotations

import enum
from ctypes import c_size_t

from ._library import library


class PacketKind(enum.Enum):
    """The protocol of a datagram, by the ranges of RFC 7983, section 7. OTHER is in no range, or empty."""

    STUN = range(0, 4)
    ZRTP = range(16, 20)
    DTLS = range(20, 64)
    TURN_CHANNEL = range(64, 80)
    RTP = range(128, 192)
    OTHER = range(0)


_KINDS = [next((kind for kind in PacketKind if byte in kind.value), PacketKind.OTHER) for byte in range(256)]


def packet_kind(data: bytes) -> PacketKind:
    """Returns the protocol of a datagram, by its first byte. RTP is RTCP too."""
    return _KINDS[data[0]] if data else PacketKind.OTHER


def is_stun(data: bytes) -> bool:
    """Returns whether a datagram begins as a STUN message: with two zero bits, a whole header and its magic cookie (RFC 8489)."""
    if type(data) is not bytes:
        data = bytes(memoryview(data))
    return not library.loop_calls.is_ice_is_stun(data, c_size_t(len(data)))
