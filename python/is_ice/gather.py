"""The clients of STUN and TURN servers over asyncio: resolves names, opens connections over TCP and TLS, and keeps the clients' time."""

from __future__ import annotations

import asyncio
import contextlib
import errno
import socket
import ssl
from collections.abc import Callable, Coroutine, Iterable
from dataclasses import dataclass
from typing import Any, TypeVar, Union

from .address import Protocol, SocketAddress
from .errors import IceError, MessageTooLong, Unparsed
from .events import Transmit
from .gatherer import GatheringComplete, GatheringEvent, IceGatherer, LocalCandidate, Server
from .servers import Datagram, EndedWhy, Scheme, ServerEnded, ServerNotPermitted, ServerUrl, frame_length

_RESOLVING = 10.0  # seconds for a name, and for a connection
_CLOSING = 1.0  # seconds for TURN servers to free allocations
_MOST_WAITING = 1 << 18  # bytes that wait in a connection: then media is dropped
_MOST_PROBLEMS = 16  # that are listed

ServerAddress = tuple[str, int]
T = TypeVar("T")


async def all_of(*calls: Coroutine[Any, Any, T]) -> list[T]:
    """Returns what these calls return, once all have ended. If it is cancelled, it cancels them and waits for them too."""
    tasks = [asyncio.ensure_future(call) for call in calls]
    try:
        if tasks:
            await asyncio.wait(tasks)
    except asyncio.CancelledError:
        for task in tasks:
            task.cancel()
        await asyncio.wait(tasks)
        raise
    return [task.result() for task in tasks]


def stun_and_turn(stun: ServerAddress | None, turn: ServerAddress | None, username: str | None, password: str | None, is_secure: bool,
                  transport: str) -> list[Server]:
    """Returns the servers of the arguments that aioice's `Connection` has: a STUN server, and a TURN server over "udp" or "tcp", or over
    TLS if `is_secure`. ValueError for another transport."""
    protocols = {"udp": Protocol.UDP, "tcp": Protocol.TCP}
    if transport not in protocols:
        raise ValueError(f"the transport of a TURN server is udp or tcp, not {transport}")
    servers = [Server(ServerUrl(Scheme.STUN, Protocol.UDP, *stun[:2]))] if stun else []
    if turn:
        protocol = Protocol.TLS if is_secure else protocols[transport]
        servers.append(Server(ServerUrl(Scheme.TURN, protocol, *turn[:2]), username, password))
    return servers


@dataclass(frozen=True)
class ServerUnreachable:
    """The name of a server is not known, or there is no connection to it over TCP or TLS."""

    url: ServerUrl
    why: str

    def __str__(self) -> str:
        return f"server {self.url}: {self.why}"


LoopEvent = Union[GatheringEvent, ServerUnreachable]


class _Stream(asyncio.Protocol):
    """A connection to the TURN server of a URL: cuts what arrives into frames. Its client knows it as `local`: by its own address, or after
    a redirection by that of the connection before."""

    def __init__(self, url: ServerUrl, local: SocketAddress | None, take: Callable[[_Stream, bytes], None],
                 lost: Callable[[_Stream], None]) -> None:
        self.url, self._known_as, self._take, self._lost = url, local, take, lost
        self._kept = bytearray()
        self.local = self.remote = SocketAddress("", 0)
        self.transport: Any = None

    def connection_made(self, transport: Any) -> None:
        """Keeps the addresses of both ends."""
        self.transport = transport
        self.local = self._known_as or SocketAddress(*transport.get_extra_info("sockname"))
        self.remote = SocketAddress(*transport.get_extra_info("peername"))

    def data_received(self, data: bytes) -> None:
        """Passes on the frames that are whole. What is no frame ends the connection."""
        self._kept += data
        try:
            while (length := frame_length(bytes(self._kept[:4]))) is not None and len(self._kept) >= length:
                frame = bytes(self._kept[:length])
                del self._kept[:length]
                self._take(self, frame)
        except Unparsed:
            self.transport.abort()

    def connection_lost(self, exc: Exception | None) -> None:
        """Reports it."""
        self._lost(self)

    def send(self, data: bytes, is_media: bool) -> None:
        """Writes a frame. Media is dropped while too much waits, as on a slow path."""
        if not self.transport.is_closing() and not (is_media and self.transport.get_write_buffer_size() > _MOST_WAITING):
            self.transport.write(data)


class ServerLoop:
    """Runs the clients of a gatherer. `send` sends a datagram from a socket, `take` gets what arrived for the agent, or media.

    `report` is called with each event; `changed` after the agent got or lost a candidate.
    """

    def __init__(self, gatherer: IceGatherer, now: Callable[[], int], send: Callable[[SocketAddress, SocketAddress, bytes], None],
                 take: Callable[[Datagram], None], report: Callable[[LoopEvent], None], changed: Callable[[], None],
                 tls: ssl.SSLContext | None) -> None:
        self.problems: list[str] = []  # servers that brought nothing, or peers that they do not let in
        self._gatherer, self._now, self._send, self._take = gatherer, now, send, take
        self._report, self._changed, self._tls = report, changed, tls
        self._streams: dict[SocketAddress, _Stream] = {}
        self._following: set[asyncio.Task[None]] = set()  # connections to servers that others named
        self._reaching: asyncio.Task[None] | None = None
        self._complete: asyncio.Future[None] | None = None
        self._timer: asyncio.TimerHandle | None = None
        self._due: int | None = None  # what the timer is set to
        self._over: asyncio.Future[None] | None = None  # it closes
        self._when_over: Callable[[], None] = lambda: None

    @property
    def is_running(self) -> bool:
        """Whether a client runs: then it gets each datagram first."""
        return not self._gatherer.is_over

    # ---- gathering

    def gather(self, bases: Iterable[SocketAddress]) -> asyncio.Future[None]:
        """Starts a client of each socket at each server. The result is done when gathering is complete, or closed."""
        self._gatherer.reach_again()
        for base in bases:
            self._gatherer.add_socket(self._now(), base, is_host=False)
        if self._complete is None or self._complete.done():
            self._complete = asyncio.get_running_loop().create_future()
        if self._over:
            self._complete.set_result(None)
        else:
            self._reaching = asyncio.ensure_future(self._reach_all(self._reaching))
            self.turn()
        return self._complete

    async def _reach_all(self, before: asyncio.Task[None] | None) -> None:
        if before:
            await asyncio.wait({before})
        await all_of(*(self._reach(server) for server in self._gatherer.to_reach))

    async def _reach(self, server: Server) -> None:
        """Resolves a server, and connects to it, from each socket's address."""
        try:
            ips = await asyncio.wait_for(_resolved(server.url), _RESOLVING)
        except (OSError, UnicodeError, asyncio.TimeoutError) as error:
            self._cannot_reach(server.url, f"the name is not resolved: {error or type(error).__name__}")
            ips = []
        try:
            if server.url.protocol is Protocol.UDP:
                for ip in ips:
                    self._gatherer.add_server(self._now(), server, ip)
            else:
                await all_of(*(self._connect(server, base, ip) for base in self._bases() for ip in ips if (":" in base) == (":" in ip)))
        except IceError as error:  # as a username that is too long
            self._cannot_reach(server.url, str(error))
        self._gatherer.reached(server)
        self.turn()

    def _bases(self) -> list[str]:
        return list(dict.fromkeys(local.ip for local in self._gatherer.sockets))

    async def _connect(self, server: Server, base: str, ip: str) -> None:
        if any(stream.local.ip == base and stream.remote[:2] == (ip, server.url.port) for stream in self._streams.values()):
            return
        if stream := await self._opened(server.url, base, (ip, server.url.port), None):
            self._gatherer.add_connection(self._now(), server, stream.local, stream.remote)
            self.turn()

    async def _opened(self, url: ServerUrl, base: str, remote: ServerAddress, known_as: SocketAddress | None) -> _Stream | None:
        """Opens a connection from a socket's address. None: there is none, or nobody needs it any more."""
        try:
            connecting = asyncio.get_running_loop().create_connection(
                lambda: _Stream(url, known_as, self._framed, self._lost), *remote, local_addr=(base, 0), **self._security(url))
            _, stream = await asyncio.wait_for(connecting, _RESOLVING)
        except (OSError, asyncio.TimeoutError, ssl.CertificateError) as error:
            self._cannot_reach(url, f"no connection from {base} to {remote[0]}: {error or type(error).__name__}")
            return None
        if self._over or stream.transport.is_closing() or base not in self._bases():
            stream.transport.abort()
            return None
        self._streams[stream.local] = stream
        return stream

    def _security(self, url: ServerUrl) -> dict[str, Any]:
        if url.protocol is not Protocol.TLS:
            return {}
        self._tls = self._tls or ssl.create_default_context()
        return {"ssl": self._tls, "server_hostname": url.host}

    def _cannot_reach(self, url: ServerUrl, why: str) -> None:
        self._tell(ServerUnreachable(url, why))

    # ---- packets

    def receive(self, source: SocketAddress, local: SocketAddress, data: bytes) -> Datagram | None:
        """Takes a datagram of a socket. Returns what is for the agent, or media. None: it was a client's."""
        told = self._gatherer.receive(self._now(), source, local, data)
        if told is None:
            self.turn()
        elif told.destination != local:
            self._set_timer()  # what peers send may make a renewal due
        return told

    def send(self, source: SocketAddress, destination: SocketAddress, data: bytes) -> None:
        """Sends a datagram from a relayed address. It is lost if that is gone, or if the server does not let it through. OSError as of a
        socket, also if it is longer than a message."""
        try:
            packet = self._gatherer.outgoing(self._now(), source, destination, data)
        except MessageTooLong as error:
            raise OSError(errno.EMSGSIZE, str(error)) from error
        if packet is None or packet.source == source:
            return
        if packet.protocol is Protocol.UDP:
            self._send(packet.source, packet.destination, packet.contents)
        elif stream := self._streams.get(packet.source):
            stream.send(packet.contents, is_media=True)
        self._set_timer()

    def _framed(self, stream: _Stream, frame: bytes) -> None:
        told = self._gatherer.receive(self._now(), stream.remote, stream.local, frame, Protocol.TCP)
        if told is None:
            self.turn()
        else:
            self._set_timer()
            self._take(told)

    def _lost(self, stream: _Stream) -> None:
        if self._streams.pop(stream.local, None):
            self._gatherer.lose_connection(self._now(), stream.local)
            self.turn()

    # ---- time and events

    def turn(self) -> None:
        """Passes the time to the clients, sends their packets, reports their events and sets the timer."""
        gatherer = self._gatherer
        gatherer.handle_servers_timeout(self._now())
        while packet := gatherer.clients.poll_transmit():
            if packet.protocol is not Protocol.UDP:
                self._send_over(packet)
                continue
            with contextlib.suppress(OSError):  # lost, as on the network: the client repeats it
                self._send(packet.source, packet.destination, packet.contents)
        has_changed = False
        while event := gatherer.poll_gathering_event():
            has_changed = has_changed or isinstance(event, (LocalCandidate, ServerEnded))
            self._tell(event)
        if has_changed and not self._over:
            self._changed()
        self._set_timer()
        self._end_if_over()

    def _send_over(self, packet: Transmit) -> None:
        """Puts a packet of a client into its connection. If it is for another server, the client was redirected (RFC 8489, section 10), and
        goes on over a connection to that one."""
        stream = self._streams.get(packet.source)
        if stream and stream.remote[:2] == packet.destination[:2]:
            stream.send(packet.contents, is_media=False)
        elif stream:
            del self._streams[stream.local]
            stream.transport.close()
            task = asyncio.ensure_future(self._follow(stream.url, packet))
            self._following.add(task)
            task.add_done_callback(self._following.discard)

    async def _follow(self, url: ServerUrl, packet: Transmit) -> None:
        """Connects to the server that a packet is for, over TLS with the certificate of the URL's host. Without it the client ends."""
        if stream := await self._opened(url, packet.source.ip, packet.destination[:2], packet.source):
            stream.send(packet.contents, is_media=False)
        else:
            self._gatherer.lose_connection(self._now(), packet.source)
            self.turn()

    def _tell(self, event: LoopEvent) -> None:
        has_ended = isinstance(event, ServerEnded) and event.why is not EndedWhy.CLOSED
        if has_ended or isinstance(event, (ServerNotPermitted, ServerUnreachable)):
            self.problems = [*self.problems[1 - _MOST_PROBLEMS:], str(event)]
        if isinstance(event, ServerEnded) and event.protocol is Protocol.TCP and (stream := self._streams.pop(event.local, None)):
            stream.transport.close()  # a connection serves one client
        if isinstance(event, GatheringComplete) and self._complete and not self._complete.done():
            self._complete.set_result(None)
        self._report(event)

    def _set_timer(self) -> None:
        due = self._gatherer.clients.poll_timeout()
        if due == self._due or self._over and self._over.done():
            return
        if self._timer:
            self._timer.cancel()
        self._timer, self._due = None, due
        if due is not None:
            self._timer = asyncio.get_running_loop().call_later(max(0, due - self._now()) / 1e9, self._timed_out)

    def _timed_out(self) -> None:
        self._due = None
        self.turn()

    # ---- the end

    def remove_socket(self, local: SocketAddress) -> None:
        """Removes a socket with its candidates and clients, and the connections from its address if it was the last one there."""
        self._gatherer.remove_socket(self._now(), local)
        for stream in [] if local.ip in self._bases() else list(self._streams.values()):
            if stream.local.ip == local.ip:
                stream.transport.abort()
                self._lost(stream)
        self.turn()

    def close(self, when_over: Callable[[], None]) -> None:
        """Frees the allocations, for a second at most. Then it calls `when_over`; at once if no client runs, or no event loop."""
        if self._over:
            return
        self._when_over = when_over
        for task in {task for task in (self._reaching, *self._following) if task}:
            task.cancel()
        if self._complete and not self._complete.done():
            self._complete.set_result(None)
        try:
            loop = asyncio.get_running_loop()
        except RuntimeError:
            self._finish()
            return
        self._over = loop.create_future()
        self._gatherer.close(self._now())
        self.turn()
        if not self._over.done():
            loop.call_later(_CLOSING, self._finish)

    async def wait_closed(self) -> None:
        """Waits, after `close`, until the servers have freed the allocations, for a second at most."""
        tasks = {task for task in (self._over, self._reaching, *self._following) if task}
        if tasks:
            await asyncio.wait(tasks)

    def _end_if_over(self) -> None:
        if self._over and self._gatherer.is_over:
            self._finish()

    def _finish(self) -> None:
        if self._over and self._over.done():
            return
        if self._timer:
            self._timer.cancel()
        streams, self._streams = self._streams, {}
        for stream in streams.values():
            stream.transport.close()
        self._when_over()
        if self._over:
            self._over.set_result(None)


async def _resolved(url: ServerUrl) -> list[str]:
    """Returns the first address of each IP version that a name resolves to."""
    found = await asyncio.get_running_loop().getaddrinfo(url.host, url.port, type=socket.SOCK_DGRAM)
    ips = [str(address[0]) for *_, address in found]
    return list({":" in ip: ip for ip in reversed(ips)}.values())
