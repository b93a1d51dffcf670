"""Runs an agent over UDP sockets of asyncio."""

from __future__ import annotations

import asyncio
import logging
import socket
import ssl
import time
from collections.abc import Callable, Iterable

from ._report import tried
from ._session_log import SessionLog
from ._unique import Unique
from .address import SocketAddress
from .agent import IceAgent
from .candidate import AddResult, Candidate
from .demux import is_stun
from .errors import HasAgent, IceError, NoAgent, Unparsed
from .events import IceAgentEvent, Unserved
from .gather import LoopEvent, ServerLoop, ServerUnreachable
from .gatherer import IceGatherer, ServerLike
from .servers import Datagram, EndedWhy, ServerEnded, ServerEvent

_log = logging.getLogger(__name__)

_AGAIN = 50_000_000  # nanoseconds until `handle_timeout` is called again if it failed
_IDLE = 1.0  # seconds until the agent is asked again, if it names no time
_RECEIVE_BUFFER = 256 * 1024

EventHandler = Callable[[IceAgentEvent], None]
GatheringHandler = Callable[[LoopEvent], None]
PathHandler = Callable[[], None]
DatagramHandler = Callable[[SocketAddress, SocketAddress, bytes], None]
StunHandler = Callable[[SocketAddress, SocketAddress, bytes], object]
FailureHandler = Callable[[SocketAddress, SocketAddress, OSError], None]
Send = Callable[[SocketAddress, bytes], None]


class _Socket(asyncio.DatagramProtocol):
    def __init__(self, receive: DatagramHandler) -> None:
        self._receive = receive
        self.local = SocketAddress("", 0)
        self.error: Exception | None = None  # of the datagram that was sent last

    def connection_made(self, transport: asyncio.BaseTransport) -> None:
        """Stores the local address, and makes room for bursts."""
        self.local = SocketAddress(*transport.get_extra_info("sockname"))
        transport.get_extra_info("socket").setsockopt(socket.SOL_SOCKET, socket.SO_RCVBUF, _RECEIVE_BUFFER)

    def datagram_received(self, data: bytes, addr: tuple[str, int]) -> None:
        """Passes a datagram on with both addresses."""
        self._receive(SocketAddress(*addr), self.local, data)

    def error_received(self, exc: Exception) -> None:
        """Keeps the error of a datagram that the system did not send: asyncio reports it here, and `sendto` returns."""
        self.error = exc


class IceLoop(Unique):
    """An agent, its sockets, its clients at STUN and TURN servers, and its timer. It cannot be copied or pickled.

    Calls `on_event` with events, `on_media` with datagrams that are not STUN messages, and `on_stun` with STUN messages that are not
    for the agent or a client. The last two get the source, the local address and the bytes; `on_stun` returns True if it took the
    message. What comes through a TURN server has the peer as its source and the relayed address as the local one. Calls
    `on_failed_send` with the source, the destination and the error of a datagram that the system did not send, each time; it is lost,
    as on the network. If a handler raises, the event loop's exception handler gets the exception, and the session goes on. A handler
    may close the loop and the agent.

    Calls `on_path` once, as soon as media may flow both ways: there is a path for it, and media from its destination is taken
    (`media_path` and `takes_media_from` of the agent). Another path may be selected later: call `media_path` for each datagram.

    `servers` are those of `IceGatherer`; `gather` starts their clients. `on_gathering` is called with what happens to them, and with each
    `LocalCandidate` for the peer. `tls` is for connections to servers over TLS; by default the system's certificates count.

    The logger `is_ice.loop` has a line for each event, also of servers, for each pair that is removed, for the first STUN message of
    each kind that nobody took or that got no response, and for the first datagram on each path that was not sent.
    """

    def __init__(self, agent: IceAgent, on_event: EventHandler, on_media: DatagramHandler, on_stun: StunHandler | None = None,
                 on_failed_send: FailureHandler | None = None, servers: Iterable[ServerLike] = (),
                 on_gathering: GatheringHandler | None = None, tls: ssl.SSLContext | None = None, relay_only: bool = False,
                 on_path: PathHandler | None = None) -> None:
        if hasattr(self, "agent"):
            raise HasAgent
        self.gatherer = IceGatherer(agent, servers, relay_only)
        self.agent = agent
        self.log = SessionLog(_log, agent)
        self._on_event, self._on_media, self._on_stun, self._on_failed_send = on_event, on_media, on_stun, on_failed_send
        self._start = time.monotonic_ns()
        self._on_gathering, self._on_path = on_gathering, on_path
        self._opened: list[SocketAddress] = []
        self._sends: dict[SocketAddress, Send] = {}
        self._closes: dict[SocketAddress, Callable[[], None]] = {}
        self._servers = ServerLoop(self.gatherer, self.now, self._send_from_socket, self._arrived, self._gathered, self._changed, tls)
        self._timer: asyncio.TimerHandle | None = None
        self._due: int | None = None  # what the timer is set to
        self._began = self._closed = False

    def now(self) -> int:
        """The current time for the agent, in nanoseconds."""
        return time.monotonic_ns() - self._start

    async def open(self, ip: str, port: int = 0) -> SocketAddress:
        """Binds a socket at a local address and returns that address, with the port. No candidate is added."""
        loop = asyncio.get_running_loop()
        transport, protocol = await loop.create_datagram_endpoint(lambda: _Socket(self.receive), local_addr=(ip, port))

        def send(destination: SocketAddress, data: bytes) -> None:
            protocol.error = None
            transport.sendto(data, destination[:2] if destination.version == 4 else tuple(destination))
            if protocol.error:
                raise protocol.error

        self.add_socket(protocol.local, send, transport.close)
        self._opened.append(protocol.local)
        return protocol.local

    async def bind(self, ip: str, port: int = 0) -> str | None:
        """Binds a socket at a local address, adds it as a host candidate, and returns that for signaling."""
        return self.agent.add_local_candidate(Candidate.host(await self.open(ip, port)))

    def add_socket(self, local: SocketAddress, send: Send, close: Callable[[], None] | None = None) -> None:
        """Adds a socket of the caller's, which has no clients at servers.

        The loop calls `send` with a destination and a datagram, and `close` when it is closed. `send` raises the OSError of a datagram that
        is not sent. Pass what arrives to `receive`.
        """
        if self._closed:
            if close:
                close()
            return
        self._sends[local] = send
        if close:
            self._closes[local] = close

    def remove_socket(self, local: SocketAddress) -> None:
        """Closes a socket, ends its clients, and invalidates its candidates, as when the network changed."""
        if local in self._opened:
            self._opened.remove(local)
        self._servers.remove_socket(local)
        self._sends.pop(local, None)
        self._closes.pop(local, lambda: None)()
        self.wake()

    def gather(self) -> asyncio.Future[None]:
        """Starts a client of each open socket at each server. Call it again if sockets were opened.

        What servers bring is added to the agent, and `on_gathering` is called with it. The result is done when gathering is complete:
        await it, or go on.
        """
        return self._servers.gather(self._opened)

    def probe(self) -> None:
        """Has TURN clients ask whether their allocations are still there: after sleep, if the network changed, if a path was lost."""
        self.gatherer.probe(self.now())
        self._servers.turn()

    def add_remote_candidate(self, line: str) -> AddResult:
        """Adds a candidate of the peer to the agent, has TURN servers let in its packets, and does what `wake` does."""
        result = self.gatherer.add_remote_candidate(self.now(), line)
        if self._servers.is_running:
            self._servers.turn()
        self.wake()
        return result

    def begin(self) -> None:
        """Starts the session: calls `handle_timeout` now, and at each time that `poll_timeout` returns.

        Checks of the peer may come before. The agent stores them until it has the peer's credentials, and responds then.
        """
        self._began, self._due = not self._closed, None
        self._timed_out()

    def wake(self) -> None:
        """Sends packets, reports events and sets the timer. Call it after each call of yours on the agent."""
        self._turn()

    def send(self, source: SocketAddress, destination: SocketAddress, data: bytes) -> None:
        """Sends a datagram from a socket, by its local address, or from a relayed address. If there is none, the datagram is lost."""
        try:
            if self._closed:
                return
            if send := self._sends.get(source):
                send(destination, data)
            elif self._servers.is_running:
                self._servers.send(source, destination, data)
        except OSError as error:
            self._note_failed_send(source, destination, error)

    def _send_from_socket(self, source: SocketAddress, destination: SocketAddress, data: bytes) -> None:
        if send := self._sends.get(source):
            send(destination, data)

    def _note_failed_send(self, source: SocketAddress, destination: SocketAddress, error: OSError) -> None:
        """Passes it to the agent, which lists it, to the log and to the handler."""
        try:
            self.agent.send_failed(source, destination, error.errno or 0)
            self.log.send_failed(source, destination, error.errno or 0)
        except IceError:
            return  # as when a handler closed the agent
        self._report(self._on_failed_send, source, destination, error)

    def receive(self, source: SocketAddress, local: SocketAddress, data: bytes) -> None:
        """Takes a datagram that arrived at a local address. The loop's own sockets call it themselves."""
        if self._servers.is_running:  # also while allocations are freed
            told = self._servers.receive(source, local, bytes(data))
            if told is None:
                return
            source, local, data = told
        if self._closed:
            return
        if is_stun(data):
            self._take(source, local, bytes(data))
        else:
            self._on_media(source, local, data)

    def _arrived(self, datagram: Datagram) -> None:
        """Takes what came through a TURN server over TCP."""
        if self._closed:
            return
        if is_stun(datagram.contents):
            self._take(*datagram)
        else:
            self._on_media(*datagram)

    def _gathered(self, event: LoopEvent) -> None:
        if isinstance(event, (ServerEvent, ServerUnreachable)):
            is_bad = isinstance(event, ServerUnreachable) or isinstance(event, ServerEnded) and event.why is not EndedWhy.CLOSED
            self.log.log(logging.WARNING if is_bad else logging.INFO, "%s", event)
        self._report(self._on_gathering, event)

    def _changed(self) -> None:
        if not self._closed:
            self.wake()

    def tried(self) -> str:
        """Says what the session tried and what came back: candidates, pairs with their checks, pairs that were removed with the reason,
        counters, STUN messages that nobody took, servers that failed. NoAgent if the agent was closed.
        """
        return tried(self.agent, self.log.discarded, self._servers.problems)

    def close(self) -> None:
        """Stops the timer, frees allocations of TURN servers, for a second at most, and closes the sockets. `wait_closed` waits for it."""
        self._began, self._closed = False, True
        if self._timer:
            self._timer.cancel()
        self._servers.close(self._close_sockets)

    async def wait_closed(self) -> None:
        """Waits, after `close`, until the servers have freed the allocations, for a second at most."""
        await self._servers.wait_closed()

    def _close_sockets(self) -> None:
        self._sends.clear()
        while self._closes:
            self._closes.popitem()[1]()

    def _timed_out(self) -> None:
        due, self._due = self._due, None
        if not self._began:
            return
        if due is not None and self.now() < due:  # a timer may be early, and a call too early would only add its delay
            self._set_timer(due)
            return
        try:
            early = self.agent.early_requests
            self.agent.handle_timeout(self.now())
            served = self.agent.early_requests < early
        except NoAgent:
            self.close()
        except IceError:
            self._set_timer(self.now() + _AGAIN)  # as when out of memory: the agent is unchanged
        else:
            self._turn()
            if served and self._began and self._due is None:  # with `Original` there is no time yet: the call did no more
                self._set_timer(self.now())

    def _take(self, source: SocketAddress, local: SocketAddress, data: bytes) -> None:
        try:
            if self.agent.unserved(source, local, data) not in (None, Unserved.EARLY):  # an early request waits for its response
                self.log.message_discarded(source, local, data)
            accepted = self.agent.handle_packet(self.now(), source, local, data)
        except Unparsed:
            accepted = False  # a response without MESSAGE-INTEGRITY, as of a STUN server
        except NoAgent:
            self.close()
            return
        except IceError:
            return  # the agent is unchanged, as if the datagram had been lost
        if accepted:
            self._turn()
        else:
            self._pass_on(source, local, data)

    def _pass_on(self, source: SocketAddress, local: SocketAddress, data: bytes) -> None:
        if not self._report(self._on_stun, source, local, data):
            self.log.message_discarded(source, local, data)

    def _turn(self) -> None:
        """Before the session only packets are sent: responses to checks of a peer that is known."""
        try:
            if self._began:
                self._set_timer(self.agent.poll_timeout())  # with `Original` the time is sooner before packets are polled
            while not self._closed and (packet := self.agent.poll_transmit()):
                self.send(packet.source, packet.destination, packet.contents)
            if not self._began:
                return
            self.log.removals()  # before what they cause: a handler may close the agent
            while self._began and (event := self.agent.poll_event()):
                self.log.event(event)
                self._report(self._on_event, event)
            if self._on_path and self._began and self._has_path():
                on_path, self._on_path = self._on_path, None
                self._report(on_path)
            if self._began:
                self._set_timer(self.agent.poll_timeout())
        except NoAgent:
            self.close()

    def _has_path(self) -> bool:
        """Whether media may flow both ways."""
        now = self.now()
        path = self.agent.media_addresses(now)
        return path is not None and self.agent.takes_media_from(now, path[1])

    def _set_timer(self, due: int | None) -> None:
        """Sets the timer to this time, unless it is set to an earlier one.

        None: nothing is due until a call changes the agent, which `wake` reports; it is asked again anyway. Then a time that is set stays:
        that of a call that failed.
        """
        if self._due is not None and (due is None or self._due <= due):
            return
        self._due = due
        if self._timer:
            self._timer.cancel()
        loop = asyncio.get_running_loop()
        if due is None:
            self._timer = loop.call_later(_IDLE, self._turn)
        else:
            self._timer = loop.call_later(max(0, due - self.now()) / 1e9, self._timed_out)

    def _report(self, handler: Callable[..., object] | None, *told: object) -> object:
        """Calls a handler, and returns what it returns."""
        try:
            return handler(*told) if handler else None
        except Exception as error:
            asyncio.get_running_loop().call_exception_handler({"message": "a handler of IceLoop raised", "exception": error})
            return None
