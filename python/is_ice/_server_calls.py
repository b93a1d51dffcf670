"""The calls of `Servers` that each datagram needs, with little work by ctypes: `_loop_calls` says why, and what to take care of."""

from __future__ import annotations

import ctypes
import struct
import threading
from ctypes import byref, c_size_t, c_uint8, c_uint64, create_string_buffer
from functools import partial

from . import _abi
from ._abi import NOTHING, OK, WRAPPING_LENGTH
from ._loop_calls import PACKET
from .address import PATHS, POINTERS, PROTOCOLS, Protocol, SocketAddress, in_range
from .errors import done
from .events import Transmit

# is_ice_datagram as bytes: source and destination, the first byte, the length.
DATAGRAM = struct.Struct("=56sQQ")
_BUFFER_LENGTH = 2048
_GREATEST_TIME = (1 << 64) - 1


class _Arguments:
    """What a call passes, and what it is returned in. One call has it at a time."""

    __slots__ = ("now", "protocol", "length", "random_length", "due", "datagram", "datagram_at", "packet", "packet_at", "buffer", "size",
                 "receive", "outgoing", "poll_timeout")

    def __init__(self, library: ctypes.PyDLL, servers: object) -> None:
        self.now, self.protocol, self.length, self.due = c_uint64(), c_uint8(), c_size_t(), c_uint64()
        self.random_length = c_size_t()
        self.datagram, self.packet = _abi.Datagram(), _abi.Packet()
        self.datagram_at, self.packet_at = byref(self.datagram), byref(self.packet)
        self.receive = partial(library.is_ice_servers_receive, servers, self.now, self.protocol)
        self.outgoing = partial(library.is_ice_servers_outgoing, servers, self.now)
        self.poll_timeout = partial(library.is_ice_servers_poll_timeout, servers, byref(self.due))
        self.make_room(_BUFFER_LENGTH)

    def make_room(self, size: int) -> None:
        """Makes a longer buffer for packets."""
        self.buffer, self.size = create_string_buffer(size), c_size_t(size)


class ServerCalls:
    """The calls of the clients of servers. `lock` is that of their object."""

    def __init__(self, library: ctypes.PyDLL, servers: object, lock: threading.RLock) -> None:
        self._library, self._servers, self._lock = library, servers, lock
        self._spare: list[_Arguments] = []

    def _new(self) -> _Arguments:
        return _Arguments(self._library, self._servers)

    def receive(self, now: int, source: SocketAddress, destination: SocketAddress, contents: bytes,
                protocol: Protocol) -> tuple[SocketAddress, SocketAddress, bytes] | None:
        """`Servers.receive`."""
        if type(contents) is not bytes:
            contents = bytes(memoryview(contents))
        if not 0 <= now <= _GREATEST_TIME:
            in_range(now, 64, "a time")
        with self._lock:
            own = self._spare.pop() if self._spare else self._new()
            own.now.value, own.protocol.value, own.length.value = now, protocol, len(contents)
            code = own.receive(POINTERS[source], POINTERS[destination], contents, own.length, own.datagram_at)
            path, offset, length = DATAGRAM.unpack_from(own.datagram)
            self._spare.append(own)
        if code:
            done(code)
            return None
        if offset == 0:  # what comes through a server is in a message of its
            return source, destination, contents
        return *PATHS[path], contents[offset : offset + length]

    def outgoing(self, now: int, source: SocketAddress, destination: SocketAddress, contents: bytes, random: bytes) -> Transmit | None:
        """`Servers.outgoing`."""
        if type(contents) is not bytes:
            contents = bytes(memoryview(contents))
        if type(random) is not bytes:
            random = bytes(memoryview(random))
        if not 0 <= now <= _GREATEST_TIME:
            in_range(now, 64, "a time")
        with self._lock:
            own = self._spare.pop() if self._spare else self._new()
            if len(contents) + WRAPPING_LENGTH > own.size.value:
                own.make_room(len(contents) + WRAPPING_LENGTH)
            own.now.value, own.length.value, own.random_length.value = now, len(contents), len(random)
            code = own.outgoing(POINTERS[source], POINTERS[destination], contents, own.length, random, own.random_length, own.buffer,
                                own.size, own.packet_at)
            path, length, protocol = PACKET.unpack_from(own.packet)
            wrapped: bytes = own.buffer[:length] if code == OK else b""  # type: ignore[assignment]
            self._spare.append(own)
        if code == NOTHING:
            return Transmit(Protocol.UDP, source, destination, contents)
        return Transmit(PROTOCOLS[protocol], *PATHS[path], wrapped) if done(code) else None

    def poll_timeout(self) -> int | None:
        """`Servers.poll_timeout`."""
        with self._lock:
            own = self._spare.pop() if self._spare else self._new()
            code, due = own.poll_timeout(), own.due.value
            self._spare.append(own)
        return due if done(code) else None
