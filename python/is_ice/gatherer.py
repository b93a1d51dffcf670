"""An agent with the clients of its sockets at STUN and TURN servers, without I/O."""

from __future__ import annotations

import logging
from collections import deque
from collections.abc import Iterable, Mapping, Sequence
from dataclasses import dataclass, field
from ipaddress import ip_address
from typing import Any, Union

from ._unique import Unique
from .address import Protocol, SocketAddress
from .agent import IceAgent
from .candidate import AddResult, Candidate
from .demux import is_stun
from .errors import HasAgent, IceError, NoAgent, Unparsed
from .events import IceAgentEvent, Transmit
from .lines import line_fields
from .servers import Datagram, EndedWhy, Scheme, ServerAllocated, ServerEnded, ServerEvent, ServerMapped, Servers, ServerUrl, server_url

_log = logging.getLogger(__name__)


@dataclass(frozen=True)
class IceServer:
    """A server as in the `iceServers` of browsers: a URL or several, and for TURN a username and a password."""

    urls: Union[str, Sequence[str]]
    username: str | None = None
    credential: str | None = field(default=None, repr=False)


@dataclass(frozen=True)
class Server:
    """One URL of an `IceServer`, with its credentials."""

    url: ServerUrl
    username: str | None = None
    credential: str | None = field(default=None, repr=False)

    @property
    def needs_a_name(self) -> bool:
        """Whether its host is a name, and no IP address."""
        try:
            ip_address(self.url.host)
        except ValueError:
            return True
        return False


ServerLike = Union[IceServer, Server, Mapping[str, Any]]


def servers_of(values: Iterable[ServerLike]) -> list[Server]:
    """Reads servers: `IceServer`, or dictionaries with the keys `urls`, `username` and `credential`. TURN servers come first.

    BadUrl for a URL that is not one of a server.
    """
    found: list[Server] = []
    for value in values:
        if isinstance(value, Server):
            found.append(value)
            continue
        one = value if isinstance(value, IceServer) else IceServer(value["urls"], value.get("username"), value.get("credential"))
        urls = [one.urls] if isinstance(one.urls, str) else one.urls
        found += [Server(server_url(url), one.username, one.credential) for url in urls]
    return sorted(found, key=lambda server: server.url.scheme is Scheme.STUN)


@dataclass(frozen=True)
class LocalCandidate:
    """A candidate that a server brought was added: signal it to the peer."""

    line: str


@dataclass(frozen=True)
class GatheringComplete:
    """No server is waited for any more. Another one follows if sockets or servers are added."""


GatheringEvent = Union[ServerEvent, LocalCandidate, GatheringComplete]
_Client = tuple[Protocol, SocketAddress, SocketAddress]


class IceGatherer(Unique):
    """An agent with the clients of its sockets at servers, in the agent's own calls. `agent` is there for all else.

    `servers` are those of `servers_of`. The caller opens sockets, and adds them by `add_socket`. A client of each socket starts at each
    server over UDP that is an IP address. `to_reach` lists the other servers: the caller resolves the name of one over UDP and calls
    `add_server`, connects to one over TCP or TLS and calls `add_connection`, and then calls `reached`.

    What servers bring is added to the agent, and is an event of `poll_event`: `LocalCandidate`. `relay_only`: of TURN servers only relayed
    candidates are added, and not where they see a socket; do not add host candidates then. Use it in one thread at a time. It cannot be
    copied or pickled.
    """

    def __init__(self, agent: IceAgent, servers: Iterable[ServerLike] = (), relay_only: bool = False) -> None:
        if hasattr(self, "agent"):
            raise HasAgent
        self.agent, self.servers, self.clients, self.relay_only = agent, servers_of(servers), Servers(), relay_only
        self.sockets: list[SocketAddress] = []
        self._at_udp: list[tuple[Server, SocketAddress]] = []  # servers over UDP whose address is known
        self._others = [server for server in self.servers if not self._is_ready(server)]
        self._unreached = list(self._others)
        self._started: set[tuple[_Client, Scheme]] = set()
        self._alive = 0  # clients that have not ended
        self._found: dict[_Client, list[Candidate]] = {}
        self._events: deque[GatheringEvent] = deque()
        self._has_told, self._has_begun, self._is_closing = True, False, False

    def _is_ready(self, server: Server) -> bool:
        """Takes a server that needs neither a name nor a connection. Returns whether it is one, or one that there is no client for."""
        if server.url.protocol is not Protocol.UDP:
            return server.url.scheme is Scheme.STUN  # there is no client for STUN over TLS
        if server.needs_a_name:
            return False
        self._at_udp.append((server, SocketAddress(server.url.host, server.url.port)))
        return True

    # ---- sockets and servers

    def add_socket(self, now: int, local: SocketAddress, is_host: bool = True) -> str | None:
        """Adds a UDP socket, and starts its clients. Returns its host candidate for signaling, or None if that is redundant.

        `is_host` False: without a host candidate, for only relayed ones.
        """
        line = self.agent.add_local_candidate(Candidate.host(local)) if is_host else None
        if local not in self.sockets:
            self.sockets.append(local)
        for server, address in self._at_udp:
            self._start(now, server, Protocol.UDP, local, address)
        self._has_told = False
        return line

    def remove_socket(self, now: int, local: SocketAddress) -> None:
        """Removes a socket with its candidates and clients: call it before the socket is closed."""
        if local in self.sockets:
            self.sockets.remove(local)
        self.clients.lose(local)
        self._take_events(now)
        self.agent.invalidate_candidate(Candidate.host(local))

    @property
    def to_reach(self) -> list[Server]:
        """The servers that the caller has to resolve, or to connect to: see `add_server`, `add_connection`, `reached`."""
        return list(self._unreached)

    def reach_again(self) -> None:
        """Lists all of them again: for new sockets, or after the network changed."""
        self._unreached = list(self._others)
        self._has_told = False

    def add_server(self, now: int, server: Server, ip: str) -> None:
        """Adds an address of a server over UDP, to which its name resolves. A client starts of each socket of this IP version."""
        address = SocketAddress(ip, server.url.port)
        if (server, address) not in self._at_udp:
            self._at_udp.append((server, address))
        for local in self.sockets:
            self._start(now, server, Protocol.UDP, local, address)
        self._has_told = False

    def add_connection(self, now: int, server: Server, local: SocketAddress, remote: SocketAddress) -> None:
        """Adds a connection to a server over TCP or TLS, by its addresses at both ends. What arrives on it goes to `handle_packet` in the
        frames that `frame_length` finds."""
        self._start(now, server, Protocol.TCP, local, remote)
        self._has_told = False

    def reached(self, server: Server) -> None:
        """Says that no more addresses and connections of this server come: all were added, or none can be."""
        if server in self._unreached:
            self._unreached.remove(server)

    def lose_connection(self, now: int, local: SocketAddress) -> None:
        """Says that a connection broke: its client ends, and its candidates are invalidated."""
        self.clients.lose(local, Protocol.TCP)
        self._take_events(now)

    def _start(self, now: int, server: Server, protocol: Protocol, local: SocketAddress, address: SocketAddress) -> None:
        client, scheme = (protocol, local, address), server.url.scheme
        # a TURN server says where it sees a socket, too
        if local.version != address.version or (client, scheme) in self._started or (client, Scheme.TURN) in self._started:
            return
        if scheme is Scheme.STUN:
            self.clients.add_stun(now, local, address)
        else:
            family = 6 if local.version == 6 else None  # without one a server allocates an IPv4 address
            self.clients.add_turn(now, local, address, server.username, server.credential, protocol, family)
        self._started.add((client, scheme))
        self._alive += 1

    # ---- candidates of the peer

    def add_remote_candidate(self, now: int, line: str) -> AddResult:
        """Adds a candidate of the peer to the agent, as `IceAgent.add_remote_candidate`, and has TURN servers let in its packets."""
        result = self.agent.add_remote_candidate(line)
        if not result.is_ignored and self._alive:
            self.clients.permit(now, line_fields(line).address)
        return result

    # ---- the calls of the agent

    def handle_packet(self, now: int, source: SocketAddress, destination: SocketAddress, contents: bytes,
                      protocol: Protocol = Protocol.UDP) -> Datagram | None:
        """Takes a datagram that arrived at a socket, or a frame of a connection (TCP). Returns it if it is media: with the peer as its
        source, and the socket or the relayed address as its destination. None: it was a client's, the agent's, or for nobody."""
        told = self.receive(now, source, destination, contents, protocol)
        if told is None or not is_stun(told.contents):
            return told
        try:
            self.agent.handle_packet(now, *told)
        except Unparsed:
            pass  # a STUN message that nobody asked for
        return None

    def receive(self, now: int, source: SocketAddress, destination: SocketAddress, contents: bytes,
                protocol: Protocol = Protocol.UDP) -> Datagram | None:
        """The first half of `handle_packet`: what is for the agent, or media. None: it was a client's."""
        if not self._alive:  # a connection has no other frames than its client's
            return Datagram(source, destination, contents) if protocol is Protocol.UDP else None
        told = self.clients.receive(now, source, destination, contents, protocol)
        if told is None:
            self._take_events(now)
        elif protocol is not Protocol.UDP and told.destination == destination:
            return None
        return told

    def outgoing(self, now: int, source: SocketAddress, destination: SocketAddress, contents: bytes) -> Transmit | None:
        """Says how media goes out, from a socket or a relayed address. None: drop it. A packet over TCP goes into the stream of the
        connection that is its source."""
        if not self._alive:
            return Transmit(Protocol.UDP, source, destination, contents) if source in self.sockets else None
        return self.clients.outgoing(now, source, destination, contents)

    def handle_timeout(self, now: int, random: bytes | None = None) -> None:
        """Passes the current time to the agent, if its time has come, and to the clients. The first call starts the session."""
        due = self.agent.poll_timeout()
        if not self._has_begun or due is not None and due <= now:
            self.agent.handle_timeout(now, random)
            self._has_begun = True
        self.handle_servers_timeout(now)

    def handle_servers_timeout(self, now: int) -> None:
        """Passes the current time to each client whose time has come, for a loop that keeps the agent's time itself."""
        for _ in range(self._alive):  # a call serves one client
            due = self.clients.poll_timeout()
            if due is None or due > now:
                break
            self.clients.handle_timeout(now)
        self._take_events(now)

    def poll_timeout(self) -> int | None:
        """Returns the time at which to call `handle_timeout` next, or None."""
        dues = [due for due in (self.agent.poll_timeout(), self.clients.poll_timeout()) if due is not None]
        return min(dues, default=None)

    def poll_transmit(self, now: int) -> Transmit | None:
        """Returns the next packet to send, of the agent or of a client, or None."""
        while packet := self.agent.poll_transmit():
            if sent := self.outgoing(now, packet.source, packet.destination, packet.contents):
                return sent
        return self.clients.poll_transmit()

    def poll_event(self) -> IceAgentEvent | GatheringEvent | None:
        """Returns the next event, of the agent or of gathering, or None."""
        return self.poll_gathering_event() or self.agent.poll_event()

    def poll_gathering_event(self) -> GatheringEvent | None:
        """Returns the next event of gathering, or None, for a loop that polls the agent's events itself."""
        if self._events:
            return self._events.popleft()
        if self._has_told or self.is_gathering:
            return None
        self._has_told = True
        return GatheringComplete()

    @property
    def is_gathering(self) -> bool:
        """Whether a server is waited for."""
        return bool(self._unreached) or self.clients.is_gathering

    def probe(self, now: int) -> None:
        """Has TURN clients ask whether their allocations are still there: after sleep, if the network changed, if a path was lost."""
        self.clients.probe(now)

    # ---- the end

    def close(self, now: int) -> None:
        """Has each client free its allocation. Go on with the loop until `is_over`, for a second at most."""
        self._is_closing = True
        self.clients.close(now)
        self._take_events(now)

    @property
    def is_over(self) -> bool:
        """Whether each client has ended."""
        return not self._alive

    # ---- events of clients

    def _take_events(self, now: int) -> None:
        while (event := self.clients.poll_event()) is not None:
            self._events.append(event)
            client = event.protocol, event.local, event.server
            if isinstance(event, ServerMapped):
                self._add(client, Candidate.server_reflexive(event.mapped, event.local))
            elif isinstance(event, ServerAllocated):
                self._add(client, Candidate.relayed(event.relayed, event.local))
                if event.mapped and not self.relay_only:
                    self._add(client, Candidate.server_reflexive(event.mapped, event.local))
                self._permit_all(now)
            elif isinstance(event, ServerEnded):
                self._end(client, event.why)

    def _add(self, client: _Client, candidate: Candidate) -> None:
        if self._is_closing:
            return
        try:
            line = self.agent.add_local_candidate(candidate)
        except IceError as error:
            _log.warning("no candidate at %s: %s", candidate.address, error)
            return
        if line is not None:
            self._found.setdefault(client, []).append(candidate)
            self._events.append(LocalCandidate(line))

    def _permit_all(self, now: int) -> None:
        if self._is_closing:
            return
        try:
            for fields in self.agent.remote_fields():
                self.clients.permit(now, fields.address)
        except NoAgent:
            pass  # it was closed before its clients

    def _end(self, client: _Client, why: EndedWhy) -> None:
        self._alive -= 1
        self._started -= {(client, Scheme.STUN), (client, Scheme.TURN)}
        for candidate in self._found.pop(client, []):
            try:
                self.agent.invalidate_candidate(candidate)
            except NoAgent:
                pass  # it was closed before its clients
