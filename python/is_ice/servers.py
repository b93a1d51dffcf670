"""The clients of STUN and TURN servers (RFC 8489, RFC 8656), without I/O: what is between a program's sockets and its agent."""

from __future__ import annotations

import enum
import os
import threading
from ctypes import byref, c_size_t, create_string_buffer, string_at
from dataclasses import dataclass
from typing import NamedTuple

from . import _abi
from ._library import library, text_from
from ._locked import holds_the_lock, one_call_at_a_time
from ._server_calls import ServerCalls
from ._unique import Unique
from .address import PROTOCOLS, Protocol, SocketAddress, address_of, in_range, socket_of
from .errors import done, utf8
from .events import Transmit

_new_tuple = tuple.__new__  # of a NamedTuple, in half the time of its constructor


class Scheme(enum.IntEnum):
    """What a URL is for: the address at which the server sees a socket (RFC 7064), or a relayed one (RFC 7065)."""

    STUN = _abi.STUN
    TURN = _abi.TURN


@dataclass(frozen=True)
class ServerUrl:
    """What the URL of a server says. `protocol` is UDP, TCP or TLS. `host` is a name or an IP address."""

    scheme: Scheme
    protocol: Protocol
    host: str
    port: int

    def __str__(self) -> str:
        scheme = self.scheme.name.lower() + ("s" if self.protocol is Protocol.TLS else "")
        transport = "?transport=tcp" if self.protocol is Protocol.TCP else ""
        return f"{scheme}:{SocketAddress(self.host, self.port)}{transport}"


def server_url(text: str) -> ServerUrl:
    """Reads `stun:192.0.2.1`, `turn:turn.example.org:3478?transport=tcp` or `turns:[2001:db8::1]`. BadUrl if it is not such a URL, or one
    of TURN over DTLS."""
    url, data = _abi.ServerUrl(), utf8(text)
    done(library.calls.is_ice_server_url_of(data, len(data), byref(url)))
    host = data[url.host_start : url.host_start + url.host_length].decode()
    return ServerUrl(Scheme(url.scheme), PROTOCOLS[url.protocol], host, url.port)


def frame_length(data: bytes) -> int | None:
    """Returns the length of the frame that begins a stream from a TURN server, or None if fewer than four bytes are there.

    Unparsed: it is neither a STUN message nor ChannelData, so close the connection.
    """
    length = c_size_t()
    return length.value if done(library.calls.is_ice_frame_length(data, len(data), byref(length))) else None


class Datagram(NamedTuple):
    """A datagram for the agent, or media. Through a TURN server it comes from the peer and arrives at the relayed address."""

    source: SocketAddress
    destination: SocketAddress
    contents: bytes


class EndedWhy(enum.IntEnum):
    """Why a client ended. FAILED: it never had a mapped or relayed address. LOST: it had one. CLOSED: by `Servers.close`."""

    FAILED = _abi.ENDED_FAILED
    LOST = _abi.ENDED_LOST
    CLOSED = _abi.ENDED_CLOSED


@dataclass(frozen=True)
class ServerEvent:
    """What happened to a client: over `protocol`, from the socket or connection `local`, at `server`. `str` is a line for a log."""

    protocol: Protocol
    local: SocketAddress
    server: SocketAddress

    def __str__(self) -> str:
        struct = self._struct()
        struct.local, struct.server, struct.protocol = address_of(self.local), address_of(self.server), self.protocol
        return text_from(lambda *into: library.calls.is_ice_servers_event_line(byref(struct), *into)) or ""

    def _struct(self) -> _abi.ServerEvent:
        raise NotImplementedError


@dataclass(frozen=True)
class ServerMapped(ServerEvent):
    """The server sees the socket at `mapped`: a server-reflexive candidate. Reported again if it changes."""

    mapped: SocketAddress

    __str__ = ServerEvent.__str__

    def _struct(self) -> _abi.ServerEvent:
        return _abi.ServerEvent(kind=_abi.SERVER_MAPPED, mapped=address_of(self.mapped))


@dataclass(frozen=True)
class ServerAllocated(ServerEvent):
    """The server allocated `relayed`: a relayed candidate. `mapped` is where it sees the socket, if it said so."""

    relayed: SocketAddress
    mapped: SocketAddress | None

    __str__ = ServerEvent.__str__

    def _struct(self) -> _abi.ServerEvent:
        struct = _abi.ServerEvent(kind=_abi.SERVER_ALLOCATED, relayed=address_of(self.relayed), has_mapped=self.mapped is not None)
        if self.mapped:
            struct.mapped = address_of(self.mapped)
        return struct


@dataclass(frozen=True)
class ServerNotPermitted(ServerEvent):
    """The server lets in no packets of the IP address `peer`. `code` is that of its error response; None: it sent none."""

    peer: str
    code: int | None

    __str__ = ServerEvent.__str__

    def _struct(self) -> _abi.ServerEvent:
        peer = address_of(SocketAddress(self.peer, 0))
        return _abi.ServerEvent(kind=_abi.SERVER_NOT_PERMITTED, peer=peer, code=self.code or 0)


@dataclass(frozen=True)
class ServerEnded(ServerEvent):
    """The last event of a client. `code` is that of the server's error response, as 486.

    `unverified` is the code of a response that nobody signed, for the log: 401 after a wrong password, 200 if it was a success.
    """

    why: EndedWhy
    code: int | None
    unverified: int | None

    __str__ = ServerEvent.__str__

    def _struct(self) -> _abi.ServerEvent:
        return _abi.ServerEvent(kind=_abi.SERVER_ENDED, why=self.why, code=self.code or 0, unverified=self.unverified or 0)


def _event_of(event: _abi.ServerEvent) -> ServerEvent:
    client = PROTOCOLS[event.protocol], socket_of(event.local), socket_of(event.server)
    if event.kind == _abi.SERVER_MAPPED:
        return ServerMapped(*client, socket_of(event.mapped))
    if event.kind == _abi.SERVER_ALLOCATED:
        return ServerAllocated(*client, socket_of(event.relayed), socket_of(event.mapped) if event.has_mapped else None)
    if event.kind == _abi.SERVER_NOT_PERMITTED:
        return ServerNotPermitted(*client, socket_of(event.peer).ip, event.code or None)
    return ServerEnded(*client, EndedWhy(event.why), event.code or None, event.unverified or None)


@one_call_at_a_time
class Servers(Unique):
    """The STUN and TURN clients of a program. Times are whole nanoseconds. It cannot be copied or pickled.

    Pass each datagram of a socket to `receive`, and what that returns to the agent. Pass each packet of the agent, and media, to
    `outgoing`, and send what that returns. `IceGatherer` does both. Any thread may use it: its calls are made one at a time.
    """

    def __init__(self) -> None:
        """Makes the clients of a program: there are none yet. HasServers if it is called again."""
        if not hasattr(self, "_lock"):
            self._slot = _abi.Servers()
            self._at = byref(self._slot)
            self._lock = threading.RLock()
            self._c = library.calls
            self._calls = ServerCalls(library.loop_calls, self._at, self._lock)
            self._size = _abi.SERVERS_PACKET_LENGTH
            self._buffer = create_string_buffer(self._size)
        with self._lock:
            done(self._c.is_ice_servers_new(self._at))

    def free(self) -> None:
        """Frees all clients, with their passwords and keys; servers keep their allocations. Later calls raise NoServers."""
        self._c.is_ice_servers_free(self._at)

    def __del__(self) -> None:
        if getattr(self, "_c", None) is not None:
            self.free()

    # ---- clients

    def add_stun(self, now: int, local: SocketAddress, server: SocketAddress) -> None:
        """Adds the STUN client of a socket, over UDP, and starts it."""
        done(self._c.is_ice_servers_add_stun(self._at, _time(now), address_of(local), address_of(server)))

    def add_turn(self, now: int, local: SocketAddress, server: SocketAddress, username: str | None = None, password: str | None = None,
                 protocol: Protocol = Protocol.UDP, family: int | None = None, places: int = _abi.SERVERS_PLACES) -> None:
        """Adds the TURN client of a socket or connection, and starts it. `protocol` is UDP or TCP; TCP also over TLS.

        `family` is the IP version of the relayed address, None the server's default, which is 4. `places` is how many permissions and
        channels there are together at most. CredentialsTooLong: USERNAME is longer than 508 bytes, or the password than 763.
        """
        user, secret = utf8(username or ""), utf8(password or "")
        done(self._c.is_ice_servers_add_turn(
            self._at, _time(now), protocol, address_of(local), address_of(server), in_range(family or 0, 8, "an IP version"),
            in_range(places, 64, "a number of places"), user, len(user), secret, len(secret)))

    def permit(self, now: int, peer: SocketAddress) -> None:
        """Has each TURN server let in packets from the IP address of this peer: at once, or once it has made its allocation."""
        done(self._c.is_ice_servers_permit(self._at, _time(now), address_of(peer)))

    def probe(self, now: int) -> None:
        """Has each TURN client ask its server now whether it still has the allocation, as after sleep."""
        done(self._c.is_ice_servers_probe(self._at, _time(now)))

    def close(self, now: int) -> None:
        """Has each client end, and TURN clients free their allocations. Go on until ServerEnded was polled of each."""
        done(self._c.is_ice_servers_close(self._at, _time(now)))

    def lose(self, local: SocketAddress, protocol: Protocol = Protocol.UDP) -> None:
        """Says that a socket or connection is gone: its clients end at once."""
        done(self._c.is_ice_servers_lose(self._at, protocol, address_of(local)))

    # ---- datagrams and packets

    @holds_the_lock
    def receive(self, now: int, source: SocketAddress, destination: SocketAddress, contents: bytes,
                protocol: Protocol = Protocol.UDP) -> Datagram | None:
        """Takes a datagram that arrived at a socket, or over TCP a frame that arrived on a connection.

        Returns what is for the agent, or media: the datagram itself, or what a peer sent through the server. None: it was a client's.
        """
        told = self._calls.receive(now, source, destination, contents, protocol)
        return _new_tuple(Datagram, told) if told else None

    @holds_the_lock
    def outgoing(self, now: int, source: SocketAddress, destination: SocketAddress, contents: bytes,
                 random: bytes | None = None) -> Transmit | None:
        """Says how a packet of the agent, or media, goes out: as it is, or from a relayed address through its server.

        None: drop it, since the relayed address is gone, or the server does not let it through to this peer. `random`: 12 new bytes, by
        default the system's.
        """
        random = os.urandom(_abi.SERVERS_RANDOM) if random is None else random
        return self._calls.outgoing(now, source, destination, contents, random)

    # ---- the loop

    def handle_timeout(self, now: int, random: bytes | None = None) -> None:
        """Passes the current time to the client whose time comes first: one packet at most. `random`: 12 new bytes, by default the
        system's."""
        random = os.urandom(_abi.SERVERS_RANDOM) if random is None else random
        done(self._c.is_ice_servers_handle_timeout(self._at, _time(now), random, len(random)))

    @holds_the_lock
    def poll_timeout(self) -> int | None:
        """Returns the time at which to call `handle_timeout` next, or None. It changes nothing."""
        return self._calls.poll_timeout()

    def poll_transmit(self) -> Transmit | None:
        """Returns the next packet of a client, or None. One over TCP goes into the stream of the connection that is its source.

        If its destination is another server, the client was redirected (RFC 8489, section 10): open a connection to that one for it, and
        close the other. In all calls and events the address of the first one stands for it.
        """
        packet = _abi.Packet()
        if not done(self._c.is_ice_servers_poll_transmit(self._at, self._buffer, self._size, byref(packet))):
            return None
        return _transmit_of(packet, string_at(self._buffer, packet.length))

    def poll_event(self) -> ServerEvent | None:
        """Returns the next event of a client, or None."""
        event = _abi.ServerEvent()
        return _event_of(event) if done(self._c.is_ice_servers_poll_event(self._at, byref(event))) else None

    @property
    def is_gathering(self) -> bool:
        """Whether a client waits for its first answer: then more candidates may come."""
        return done(self._c.is_ice_servers_gathering(self._at))


def _time(now: int) -> int:
    return in_range(now, 64, "a time")


def _transmit_of(packet: _abi.Packet, contents: bytes) -> Transmit:
    return Transmit(PROTOCOLS[packet.protocol], socket_of(packet.source), socket_of(packet.destination), contents)
