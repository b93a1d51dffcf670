"""Agents with gatherers in simulated time, whose packets go through a strict TURN server, over a network with delay and loss."""

from __future__ import annotations

import heapq
import itertools
import random
from collections.abc import Callable
from typing import Any

from is_ice import GatheringComplete, IceAgent, IceGatherer, NominatedSend, SocketAddress, Transmit
from turn_server import PASSWORD, SECOND, USER, Address, StrictServer

MS = 10**6
DELAY = 20 * MS
AT = SocketAddress("192.0.2.1", 3478)
TURN = {"urls": "turn:192.0.2.1", "username": USER, "credential": PASSWORD}


class Side:
    """An agent with its gatherer, and what happened to it."""

    def __init__(self, world: World, ip: str, controlling: bool, servers: list[Any], relay_only: bool) -> None:
        self.world, self.agent = world, IceAgent(tie_breaker=int(controlling))
        self.agent.set_controlling(controlling)
        self.ice = IceGatherer(self.agent, servers, relay_only)
        self.local = SocketAddress(ip, 5000)
        self.events: list[tuple[int, Any]] = []
        self.heard: list[tuple[int, bytes]] = []
        world.sides[self.local] = self
        self.line = self.ice.add_socket(world.now, self.local, not relay_only)

    def of(self, kind: type) -> list[Any]:
        """The events of a kind."""
        return [event for _, event in self.events if isinstance(event, kind)]

    @property
    def lines(self) -> list[str]:
        """The candidates for signaling."""
        return self.agent.local_candidates()

    def take(self, source: SocketAddress, data: bytes) -> None:
        """Takes a datagram of its socket."""
        if media := self.ice.handle_packet(self.world.now, source, self.local, data):
            self.heard.append((self.world.now, media.contents))
        self.turn()

    def turn(self) -> None:
        """Sends and reports what there is."""
        while packet := self.ice.poll_transmit(self.world.now):
            self.world.carry(packet)
        while event := self.ice.poll_event():
            self.events.append((self.world.now, event))

    def say(self, data: bytes) -> None:
        """Sends media, if there is a path."""
        path = self.agent.media_path(self.world.now)
        if path and (packet := self.ice.outgoing(self.world.now, path.source, path.destination, data)):
            self.world.carry(packet)


class World:
    """A network with a TURN server at `AT`, in simulated time. Only what `opens` says goes directly from one side to another."""

    def __init__(self, seed: int = 1, loss: float = 0.0, **more: Any) -> None:
        self.now, self.loss, self.random = 1000 * SECOND, loss, random.Random(seed)
        self.ports = itertools.count(50000)
        self.server = StrictServer(self._relay, **more)
        self.sides: dict[SocketAddress, Side] = {}
        self.sent: list[tuple[SocketAddress, SocketAddress, bytes]] = []
        self.opens: Callable[[SocketAddress, SocketAddress], bool] = lambda source, destination: False
        self._queue: list[tuple[int, int, Callable[[], None]]] = []
        self._count = itertools.count()

    def _relay(self, client: Address, family: int) -> Address:
        return ("198.51.100.1" if family == 4 else "2001:db8::1"), next(self.ports)

    def side(self, ip: str, controlling: bool = True, servers: list[Any] | None = None, relay_only: bool = False) -> Side:
        return Side(self, ip, controlling, [TURN] if servers is None else servers, relay_only)

    def _later(self, what: Callable[[], None]) -> None:
        if self.random.random() >= self.loss:
            heapq.heappush(self._queue, (self.now + DELAY, next(self._count), what))

    def carry(self, packet: Transmit) -> None:
        """Takes a packet of a side."""
        self.sent.append(packet[1:])
        self._later(lambda: self._arrive(*packet[1:]))

    def _arrive(self, source: SocketAddress, destination: SocketAddress, data: bytes) -> None:
        if destination[:2] == AT[:2]:
            response, told = self.server.handle(self.now, source[:2], data)
            if response:
                self._later(lambda: self.sides[source].take(AT, response or b""))
            if told:
                self._from_relay(*told)
        elif destination.ip in ("198.51.100.1", "2001:db8::1"):
            self._to_relay(destination[:2], source[:2], data)
        elif destination in self.sides and self.opens(source, destination):
            self.sides[destination].take(source, data)

    def _from_relay(self, relayed: Address, peer: Address, data: bytes) -> None:
        if peer[0] == relayed[0]:
            self._to_relay(peer, relayed, data)
        elif SocketAddress(*peer) in self.sides:
            self._later(lambda: self.sides[SocketAddress(*peer)].take(SocketAddress(*relayed), data))

    def _to_relay(self, relayed: Address, peer: Address, data: bytes) -> None:
        if told := self.server.from_peer(self.now, relayed, peer, data):
            client, wrapped = told
            self._later(lambda: self.sides[SocketAddress(*client)].take(AT, wrapped))

    def run(self, duration: int, until: Callable[[], bool] = lambda: False) -> bool:
        """Lets time pass. Returns whether the condition came to hold; then it ends."""
        end = self.now + duration
        for side in self.sides.values():
            side.turn()
        while not until():
            dues = [due for side in self.sides.values() if (due := side.ice.poll_timeout()) is not None]
            if self._queue and self._queue[0][0] <= min([end, *dues]):
                self.now, _, what = heapq.heappop(self._queue)
                what()
                continue
            if min([end, *dues]) >= end:
                self.now = end
                return until()
            self.now = max(self.now, min(dues))
            for side in list(self.sides.values()):
                if (due := side.ice.poll_timeout()) is not None and due <= self.now:
                    side.ice.handle_timeout(self.now)
                    side.turn()
        return True

    def join(self, a: Side, b: Side, patience: int = 5 * SECOND) -> None:
        """Gathers, signals, and runs until both have selected a path. AssertionError if that takes longer."""
        assert self.run(patience, lambda: all(side.of(GatheringComplete) for side in (a, b)))
        for one, other in ((a, b), (b, a)):
            one.agent.set_remote_credentials(other.agent.local_credentials)
            for line in other.lines:
                one.ice.add_remote_candidate(self.now, line)
            one.ice.handle_timeout(self.now)
        assert self.run(patience, lambda: all(side.of(NominatedSend) for side in (a, b))), (a.events, b.events)

    def talk(self, sides: tuple[Side, ...], duration: int, each: int = SECOND // 2) -> int:
        """Lets each of these sides send media. Returns how many they sent."""
        count = 0
        for _ in range(duration // each):
            for side in sides:
                count += 1
                side.say(b"\x80media %d" % count)
            self.run(each)
        self.run(SECOND)
        return count
