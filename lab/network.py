"""Networks, their nodes, and the routing of packets."""

from __future__ import annotations

from collections.abc import Callable
from dataclasses import dataclass, field
from random import Random
from typing import Protocol as Interface_

from is_ice import SocketAddress

from .clock import Clock
from .link import Link, LinkSettings
from .nat import Nat, NatSettings

# The bytes of the IP header, by version, and of the UDP header.
HEADERS = {4: 28, 6: 48}


@dataclass
class Datagram:
    """A packet of an agent, with where it went. `source` and `destination` are those that the agent named."""

    number: int
    side: str
    time: int
    source: SocketAddress
    destination: SocketAddress
    contents: bytes
    hops: list[tuple[int, str]] = field(default_factory=list)
    fates: list[tuple[int, str]] = field(default_factory=list)


@dataclass
class Packet:
    """An in-flight datagram, or an in-flight message between an endpoint and a server."""

    source: SocketAddress
    destination: SocketAddress
    payload: object
    size: int
    datagram: Datagram | None = None

    def copy(self) -> Packet:
        """Returns a copy, whose addresses are translated separately."""
        return Packet(self.source, self.destination, self.payload, self.size, self.datagram)


class Node(Interface_):
    """Something with an address in a network."""

    def arrive(self, packet: Packet) -> None:
        """Receives a packet for its address."""


class Network:
    """Nodes that reach each other, and perhaps a gateway to another network."""

    def __init__(self, name: str, clock: Clock, delay: int = 0) -> None:
        self.name = name
        self.clock = clock
        self.delay = delay
        self.nodes: dict[str, Node] = {}
        self.gateway: Gateway | None = None

    def attach(self, ip: str, node: Node) -> None:
        """Gives a node an address. ValueError if the address is in use."""
        if ip in self.nodes:
            raise ValueError(f"{ip} is attached to {self.name} twice")
        self.nodes[ip] = node

    def route(self, packet: Packet) -> None:
        """Delivers a packet to the node of its destination, or to the gateway."""
        node = self.nodes.get(packet.destination.ip)
        if node is not None:
            self.clock.at(self.clock.now + self.delay, node.arrive, packet)
        elif self.gateway is not None and packet.destination.version == 4:
            self.gateway.leave(packet)
        else:
            lose(packet, self.clock.now, "no route")


class Gateway:
    """A NAT between an inner network and an outer one."""

    def __init__(self, name: str, settings: NatSettings, inner: Network, outer: Network, random: Random) -> None:
        self.name = name
        self.nat = Nat(settings, random)
        self.inner, self.outer = inner, outer
        inner.gateway = self
        outer.attach(settings.outside, self)

    def leave(self, packet: Packet) -> None:
        """Forwards a packet from inside."""
        now = self.inner.clock.now
        settings = self.nat.settings
        hop(packet, now, self.name)
        is_hairpin = packet.destination.ip == settings.outside
        if is_hairpin and not settings.hairpinning:
            lose(packet, now, f"no hairpin at {self.name}")
            return
        packet.source = self.nat.outgoing(now, packet.source, packet.destination)
        if is_hairpin:
            self.arrive(packet)
        else:
            self.outer.route(packet)

    def arrive(self, packet: Packet) -> None:
        """Forwards a packet from outside."""
        now = self.inner.clock.now
        hop(packet, now, self.name)
        inside = self.nat.incoming(now, packet.source, packet.destination)
        if inside is None:
            lose(packet, now, f"filtered by {self.name}")
            return
        packet.destination = inside
        self.inner.route(packet)


class Interface:
    """A network interface of a side, with a link to its network and one back."""

    def __init__(self, name: str, ip: str, network: Network, up: LinkSettings, down: LinkSettings, random: Random) -> None:
        self.name, self.ip, self.network = name, ip, network
        self.up, self.down = Link(up, random), Link(down, random)
        self.is_on = True
        self.is_mute = False  # what it sends is lost
        self.take: Callable[[Interface, Packet], None] = lambda interface, packet: None
        network.attach(ip, self)

    def send(self, packet: Packet) -> None:
        """Sends a packet, unless the interface is off."""
        now = self.network.clock.now
        if not self.is_on:
            lose(packet, now, f"{self.name} is off")
            return
        if self.is_mute:
            lose(packet, now, "lost")
            return
        self._carry(self.up, packet, self.network.route)

    def arrive(self, packet: Packet) -> None:
        """Carries a packet from the network to the side."""
        self._carry(self.down, packet, self._deliver)

    def _carry(self, link: Link, packet: Packet, then: Callable[[Packet], None]) -> None:
        clock = self.network.clock
        arrivals = link.carry(clock.now, packet.size + HEADERS[packet.destination.version])
        if not arrivals:
            lose(packet, clock.now, "lost")
        for arrival in arrivals:
            clock.at(arrival, then, packet.copy())

    def _deliver(self, packet: Packet) -> None:
        if self.is_on:
            self.take(self, packet)
        else:
            lose(packet, self.network.clock.now, f"{self.name} is off")


def hop(packet: Packet, now: int, place: str) -> None:
    """Records that a datagram passed a gateway."""
    if packet.datagram is not None:
        packet.datagram.hops.append((now, place))


def lose(packet: Packet, now: int, why: str) -> None:
    """Records why a datagram was lost."""
    if packet.datagram is not None:
        packet.datagram.fates.append((now, why))
