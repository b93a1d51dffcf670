"""The calls that a loop makes all the time, with little work by ctypes.

ctypes compares each argument with the type that `_abi` declares for it, which takes longer than most calls themselves. Here nothing is
declared: a pointer is made once by `byref`, and a number is in an object of its C type. So whoever adds a call here has to pass what the
header says. The interpreter's lock is held during these calls: they take a few microseconds, and to get it back may take longer.
"""

from __future__ import annotations

import ctypes
import struct
import threading
from ctypes import byref, c_size_t, c_uint8, c_uint64, create_string_buffer
from functools import partial

from . import _abi
from ._abi import BUFFER_TOO_SHORT, NOTHING, OK
from .address import PATHS, POINTERS, PROTOCOLS, Protocol, SocketAddress, in_range
from .errors import done
from .events import Transmit

# is_ice_packet as bytes: source and destination, the length, the protocol.
PACKET = struct.Struct("=56sQB7x")
# The source and the destination, with which is_ice_media_path begins.
PATH = struct.Struct("=56s")
_PACKET_LENGTH = 2048
_GREATEST_TIME = (1 << 64) - 1
_new_tuple = tuple.__new__  # of a NamedTuple, in half the time of its constructor


class _Arguments:
    """What a call passes, and what it is returned in. One call has it at a time: a handler of a signal, or the `__hash__` of an address,
    may make another call on the same agent in the same thread before this one is made, or before its result is read."""

    __slots__ = ("now", "protocol", "length", "due", "event", "packet", "buffer", "handle_packet", "handle_timeout", "poll_timeout",
                 "poll_event", "poll_transmit", "next_packet", "path", "path_for_media")

    def __init__(self, library: ctypes.PyDLL, agent: object) -> None:
        self.now, self.protocol, self.length, self.due = c_uint64(), c_uint8(), c_size_t(), c_uint64()
        self.event, self.packet = _abi.Event(), _abi.Packet()
        self.handle_packet = partial(library.is_ice_handle_packet, agent, self.now, self.protocol)
        self.handle_timeout = partial(library.is_ice_handle_timeout, agent, self.now)
        self.poll_timeout = partial(library.is_ice_poll_timeout, agent, byref(self.due))
        self.poll_event = partial(library.is_ice_poll_event, agent, byref(self.event))
        self.poll_transmit = partial(library.is_ice_poll_transmit, agent)
        self.path = _abi.MediaPath()
        self.path_for_media = partial(library.is_ice_path_for_media, agent, self.now, byref(self.path))
        self.make_room(_PACKET_LENGTH)

    def make_room(self, length: int) -> None:
        """Makes a buffer for packets of this length."""
        self.buffer = create_string_buffer(length)
        self.next_packet = partial(self.poll_transmit, byref(self.buffer), c_size_t(length), byref(self.packet))


class LoopCalls:
    """These calls for one agent. Each holds its lock, and takes arguments that no other call has. After an exception they are not used
    again."""

    def __init__(self, library: ctypes.PyDLL, agent: object, lock: threading.RLock) -> None:
        self._acquire, self._release = lock.acquire, lock.release  # a `with` statement takes twice as long
        self._new = partial(_Arguments, library, agent)
        self._spare = [self._new()]

    def handle_packet(self, now: int, source: SocketAddress, destination: SocketAddress, contents: bytes, protocol: Protocol) -> bool:
        """`IceAgent.handle_packet`."""
        if type(contents) is not bytes:
            contents = bytes(memoryview(contents))  # ctypes would pass a text as wide characters
        if not 0 <= now <= _GREATEST_TIME:
            in_range(now, 64, "a time")
        self._acquire()
        try:
            own = self._spare.pop() if self._spare else self._new()
            own.now.value, own.protocol.value, own.length.value = now, protocol, len(contents)
            code = own.handle_packet(POINTERS[source], POINTERS[destination], contents, own.length)
            self._spare.append(own)
        finally:
            self._release()
        return code == OK or done(code)

    def handle_timeout(self, now: int, random: bytes) -> None:
        """`IceAgent.handle_timeout`."""
        if type(random) is not bytes:
            random = bytes(memoryview(random))
        if not 0 <= now <= _GREATEST_TIME:
            in_range(now, 64, "a time")
        self._acquire()
        try:
            own = self._spare.pop() if self._spare else self._new()
            own.now.value, own.length.value = now, len(random)
            code = own.handle_timeout(random, own.length)
            self._spare.append(own)
        finally:
            self._release()
        done(code)

    def poll_timeout(self) -> int | None:
        """`IceAgent.poll_timeout`."""
        self._acquire()
        try:
            own = self._spare.pop() if self._spare else self._new()
            code, due = own.poll_timeout(), own.due.value
            self._spare.append(own)
        finally:
            self._release()
        return due if done(code) else None

    def media_addresses(self, now: int) -> tuple[SocketAddress, SocketAddress] | None:
        """`IceAgent.media_addresses`."""
        if not 0 <= now <= _GREATEST_TIME:
            in_range(now, 64, "a time")
        self._acquire()
        try:
            own = self._spare.pop() if self._spare else self._new()
            own.now.value = now
            code = own.path_for_media()
            (path,) = PATH.unpack_from(own.path)
            self._spare.append(own)
        finally:
            self._release()
        return PATHS[path] if done(code) else None

    def poll_event(self) -> _abi.Event | None:
        """The next event, or None. Whoever calls this holds the lock."""
        own = self._spare.pop() if self._spare else self._new()
        code = own.poll_event()
        event = _abi.Event.from_buffer_copy(own.event) if code == OK else None
        self._spare.append(own)
        if code != NOTHING:
            done(code)
        return event

    def poll_transmit(self) -> Transmit | None:
        """`IceAgent.poll_transmit`."""
        self._acquire()
        try:
            own = self._spare.pop() if self._spare else self._new()
            while code := own.next_packet():
                if code != BUFFER_TOO_SHORT:
                    break
                own.make_room(own.packet.length)
            path, length, protocol = PACKET.unpack_from(own.packet)
            contents = own.buffer[:length] if code == OK else b""
            self._spare.append(own)
        finally:
            self._release()
        if code == NOTHING:
            return None
        done(code)
        source, destination = PATHS[path]
        return _new_tuple(Transmit, (PROTOCOLS[protocol], source, destination, contents))
