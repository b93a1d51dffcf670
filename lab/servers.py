"""A STUN and TURN server. Its messages are simulated: they are objects, not bytes."""

from __future__ import annotations

from dataclasses import dataclass

from is_ice import SocketAddress

from .network import Datagram, Network, Packet, lose

# The approximate size of such a message on a link.
SMALL = 60
# The bytes that a relay adds to a datagram to or from its client (RFC 8656, section 11: Send and Data indications).
WRAPPED = 36


@dataclass(frozen=True)
class BindingRequest:
    """A Binding request to a STUN server."""


@dataclass(frozen=True)
class AllocateRequest:
    """An Allocate request to a TURN server."""


@dataclass(frozen=True)
class CreatePermission:
    """A CreatePermission request: the relay accepts packets from this IP address (RFC 8656, section 9)."""

    relay: SocketAddress
    ip: str


@dataclass(frozen=True)
class SuccessResponse:
    """A success response with the mapped address, or with the relayed one."""

    server: SocketAddress
    address: SocketAddress
    is_relay: bool


@dataclass(frozen=True)
class Relayed:
    """A datagram between a client and its relay, with the peer that it is to or from."""

    relay: SocketAddress
    peer: SocketAddress
    contents: Datagram


class Server:
    """Returns the mapped addresses of its clients, and allocates relayed addresses."""

    def __init__(self, ip: str, network: Network) -> None:
        self.address = SocketAddress(ip, 3478)
        self._network = network
        self._clients: dict[int, SocketAddress] = {}
        self._ports: dict[SocketAddress, int] = {}
        self._permitted: set[tuple[int, str]] = set()
        network.attach(ip, self)

    def arrive(self, packet: Packet) -> None:
        """Receives a message of a client, or a datagram to a relayed address."""
        word = packet.payload
        if packet.destination.port != self.address.port:
            self._to_client(packet)
        elif isinstance(word, BindingRequest):
            self._answer(packet.source, SuccessResponse(self.address, packet.source, False))
        elif isinstance(word, AllocateRequest):
            self._answer(packet.source, SuccessResponse(self.address, self._lend(packet.source), True))
        elif isinstance(word, CreatePermission) and self._clients.get(word.relay.port) == packet.source:
            self._permitted.add((word.relay.port, word.ip))
        elif isinstance(word, Relayed) and self._clients.get(word.relay.port) == packet.source:
            self._to_peer(word)
        else:
            lose(packet, self._network.clock.now, "no such relay")

    def _lend(self, client: SocketAddress) -> SocketAddress:
        port = self._ports.setdefault(client, 50000 + len(self._ports))
        self._clients[port] = client
        return SocketAddress(self.address.ip, port)

    def _answer(self, to: SocketAddress, told: SuccessResponse) -> None:
        self._network.route(Packet(self.address, to, told, SMALL))

    def _to_peer(self, word: Relayed) -> None:
        datagram = word.contents
        self._permitted.add((word.relay.port, word.peer.ip))
        self._network.route(Packet(word.relay, word.peer, datagram, len(datagram.contents), datagram))

    def _to_client(self, packet: Packet) -> None:
        port, datagram = packet.destination.port, packet.datagram
        client = self._clients.get(port)
        if client is None or datagram is None or (port, packet.source.ip) not in self._permitted:
            lose(packet, self._network.clock.now, "not permitted at the relay")
            return
        word = Relayed(SocketAddress(self.address.ip, port), packet.source, datagram)
        self._network.route(Packet(self.address, client, word, len(datagram.contents) + WRAPPED, datagram))
