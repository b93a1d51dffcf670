"""An endpoint whose clients of STUN and TURN servers are the library's, and the strict TURN server as a node of a network."""

from __future__ import annotations

from dataclasses import dataclass
from random import Random
from typing import Any

from is_ice import Candidate, EndedWhy, ServerAllocated, ServerEnded, ServerEvent, ServerMapped, Servers, SocketAddress
from is_ice.demux import is_stun

from . import turn_bytes
from .clock import SECOND
from .endpoint import Endpoint
from .guarantees import Broken
from .network import Datagram, Interface, Network, Packet
from .turn_server import PASSWORD, USER, TurnServer

# A client renews a permission that it uses. One that was not used for so long may have lapsed.
IN_USE = 60 * SECOND


class Standing:
    """What a client may rely on, seen from outside: the IP addresses that it has the server's word for, while it uses them."""

    def __init__(self) -> None:
        self._requested: dict[bytes, str] = {}
        self._used: dict[str, int] = {}  # of those that are permitted: when the client sent to it last

    def sent(self, contents: bytes) -> None:
        """Takes a packet of the client."""
        message = turn_bytes.read(contents)
        if message and message.method in (turn_bytes.CREATE_PERMISSION, turn_bytes.CHANNEL_BIND):
            peer = message.address(turn_bytes.XOR_PEER_ADDRESS)
            self._requested[message.transaction] = peer.ip if peer else ""

    def received(self, now: int, contents: bytes) -> None:
        """Takes a packet of the server."""
        message = turn_bytes.read(contents)
        if message and message.kind == turn_bytes.SUCCESS and message.transaction in self._requested:
            self._used.setdefault(self._requested[message.transaction], now)

    def used(self, now: int, ip: str) -> None:
        """Notes that the client sends to an IP address."""
        if self.stands(now, ip):
            self._used[ip] = now
        else:
            self._used.pop(ip, None)

    def stands(self, now: int, ip: str) -> bool:
        """Whether the server has to let packets to and from this IP address through."""
        return ip in self._used and now - self._used[ip] < IN_USE


@dataclass(frozen=True)
class FromClient:
    """Bytes from a client to its server."""

    contents: bytes
    standing: Standing


class TurnNode:
    """The server in a network. The simulator stops if it drops data that the client could rely on."""

    def __init__(self, ip: str, network: Network, random: Random) -> None:
        self.server = TurnServer(SocketAddress(ip, 3478), random)
        self._network = network
        self._standings: dict[SocketAddress, Standing] = {}
        network.attach(ip, self)

    def arrive(self, packet: Packet) -> None:
        """Takes a packet of a client, or one for a relayed address."""
        now, refused = self._network.clock.now, len(self.server.refused)
        if isinstance(packet.payload, FromClient):
            self._standings[packet.source] = packet.payload.standing
            sent = self.server.receive(now, packet.source, packet.payload.contents)
        elif packet.datagram:
            sent = self.server.receive_from_peer(now, packet.destination, packet.source, packet.datagram.contents)
        else:
            return
        if len(self.server.refused) > refused:
            self._judge(now, packet)
        for one in sent:
            is_through = one.source != self.server.address
            if is_through and (packet.datagram is None or one.contents != packet.datagram.contents):
                raise Broken("a client wrapped a datagram as other data")
            payload: object = packet.datagram if is_through else one.contents
            self._network.route(Packet(one.source, one.destination, payload, len(one.contents), packet.datagram))

    def _judge(self, now: int, packet: Packet) -> None:
        refusal = self.server.refused[-1]
        standing = self._standings.get(refusal.client)
        if refusal.kind == "ChannelData" or refusal.peer and standing and standing.stands(now, refusal.peer.ip):
            raise Broken(f"the TURN server dropped {refusal.kind} data of {refusal.client} with {refusal.peer}: {refusal.why}")
        if packet.datagram:
            packet.datagram.fates.append((now, "not permitted at the relay"))


class RelayedEndpoint(Endpoint):
    """One side of a session. Between its sockets and its agent is `Servers` of the library."""

    def __init__(self, *given: Any) -> None:
        super().__init__(*given)
        self.servers = Servers()
        self.heard: list[Datagram] = []  # media
        self.ended: list[ServerEnded] = []
        self._standings: dict[SocketAddress, Standing] = {}  # by socket
        self._servers_due: int | None = None

    def say(self, number: int, path: tuple[SocketAddress, SocketAddress]) -> None:
        """Sends media on a path."""
        self._carry(Datagram(number, self.side, self._clock.now, *path, b"\x80" + number.to_bytes(4, "big") + bytes(95)))
        self.turn()

    # ---- gathering

    def _gather(self, socket: SocketAddress) -> None:
        now = self._clock.now
        self._standings[socket] = Standing()
        for server in self._servers:
            if server.version == socket.version and self.settings.relay:
                self.servers.add_turn(now, socket, server, USER, PASSWORD, family=server.version)
            elif server.version == socket.version and self.settings.stun:
                self.servers.add_stun(now, socket, server)
        self.turn()

    def _is_gathering(self) -> bool:
        return self.servers.is_gathering

    def _note(self, event: ServerEvent) -> None:
        """Adds the candidates that an event brings, and removes those of a client that has ended."""
        if isinstance(event, ServerAllocated):
            self.relays[event.relayed] = event.local, event.server
            self._add(event.local, Candidate.relayed(event.relayed, event.local))
            for ip in self._peers:
                self.servers.permit(self._clock.now, SocketAddress(ip, 0))
        if isinstance(event, (ServerAllocated, ServerMapped)) and event.mapped and event.mapped != event.local:
            self._add(event.local, Candidate.server_reflexive(event.mapped, event.local))
        if isinstance(event, ServerEnded):
            self.ended.append(event)
            if event.why is EndedWhy.LOST:
                for relayed in [r for r, where in self.relays.items() if where == (event.local, event.server)]:
                    self.agent.invalidate_candidate(Candidate.relayed(relayed, event.local))
        self._signal_candidates()

    def _let_in(self, peer: SocketAddress) -> None:
        self._peers[peer.ip] = None
        self.servers.permit(self._clock.now, peer)

    # ---- the loop

    def turn(self) -> None:
        """Sends packets, reports events, and sets the next timeouts: of the servers' clients, too."""
        while event := self.servers.poll_event():
            self._note(event)
        super().turn()
        while packet := self.servers.poll_transmit():
            self._to_server(packet.source, packet.destination, packet.contents, None)
        due = self.servers.poll_timeout()
        if due is not None and due != self._servers_due:
            self._clock.at(due, self._servers_timed_out, due)
        self._servers_due = due

    def _servers_timed_out(self, due: int) -> None:
        if due == self._servers_due:
            self._servers_due = None
            self.servers.handle_timeout(self._clock.now, self._random.randbytes(12))
            self.turn()

    def _carry(self, datagram: Datagram) -> None:
        now, peer = self._clock.now, datagram.destination
        packet = self.servers.outgoing(now, datagram.source, peer, datagram.contents, self._random.randbytes(12))
        if packet is None:
            datagram.fates.append((now, "the relay is gone"))
        elif packet.source == datagram.source:
            if interface := self.sockets.get(packet.source):
                interface.send(Packet(packet.source, peer, datagram, len(packet.contents), datagram))
        else:
            if standing := self._standings.get(packet.source):
                standing.used(now, peer.ip)
            self._to_server(packet.source, packet.destination, packet.contents, datagram)

    def _to_server(self, socket: SocketAddress, server: SocketAddress, contents: bytes, datagram: Datagram | None) -> None:
        if interface := self.sockets.get(socket):
            self._standings[socket].sent(contents)
            interface.send(Packet(socket, server, FromClient(contents, self._standings[socket]), len(contents), datagram))

    def _take(self, interface: Interface, packet: Packet) -> None:
        socket = packet.destination
        if socket not in self.sockets:
            return
        contents = packet.payload if isinstance(packet.payload, bytes) else packet.datagram.contents if packet.datagram else b""
        if isinstance(packet.payload, bytes):
            self._standings[socket].received(self._clock.now, contents)
        told = self.servers.receive(self._clock.now, packet.source, socket, contents)
        if told is None:
            self.turn()
        elif packet.datagram is None or told.contents != packet.datagram.contents:
            raise Broken(f"{self.side}: the library took data that nobody sent")
        elif is_stun(told.contents):
            self._take_datagram(packet.datagram, told.source, told.destination)
        else:
            self.heard.append(packet.datagram)
            self.turn()
