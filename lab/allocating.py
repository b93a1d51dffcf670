"""How long the library's TURN client takes to allocate, in simulated time: a client at a strict server, over a link that loses packets."""

from __future__ import annotations

from random import Random

from is_ice import ServerAllocated, Servers, SocketAddress

from .clock import BEGINNING, MILLISECOND, SECOND, Clock
from .link import Link, LinkSettings
from .turn_server import PASSWORD, USER, TurnServer

CLIENT, SERVER = SocketAddress("192.0.2.2", 5000), SocketAddress("192.0.2.1", 3478)
LONGEST = 120 * SECOND


class Allocation:
    """A client that allocates. `taken` is how long it took in milliseconds, or None."""

    def __init__(self, loss: float, round_trip_ms: float, seed: int) -> None:
        self._random, self._clock, self._servers = Random(f"allocation {seed}"), Clock(), Servers()
        link = LinkSettings(delay_ms=round_trip_ms / 2, loss=loss)
        self._up, self._down, self._server = Link(link, self._random), Link(link, self._random), TurnServer(SERVER, self._random)
        self._due: int | None = None
        self.taken: float | None = None
        self._servers.add_turn(BEGINNING, CLIENT, SERVER, USER, PASSWORD)
        self._turn()
        while self.taken is None and self._clock.step(BEGINNING + LONGEST):
            pass

    def _turn(self) -> None:
        while packet := self._servers.poll_transmit():
            for arrival in self._up.carry(self._clock.now, len(packet.contents)):
                self._clock.at(arrival, self._serve, packet.contents)
        while event := self._servers.poll_event():
            if isinstance(event, ServerAllocated):
                self.taken = (self._clock.now - BEGINNING) / MILLISECOND
        due = self._servers.poll_timeout()
        if due is not None and due != self._due:
            self._clock.at(due, self._timed_out, due)
        self._due = due

    def _timed_out(self, due: int) -> None:
        if due == self._due:
            self._due = None
            self._servers.handle_timeout(self._clock.now, self._random.randbytes(12))
            self._turn()

    def _serve(self, contents: bytes) -> None:
        for one in self._server.receive(self._clock.now, CLIENT, contents):
            for arrival in self._down.carry(self._clock.now, len(one.contents)):
                self._clock.at(arrival, self._take, one.contents)

    def _take(self, contents: bytes) -> None:
        self._servers.receive(self._clock.now, SERVER, CLIENT, contents)
        self._turn()


def times(count: int, loss: float, round_trip_ms: float = 60) -> list[float | None]:
    """How long so many clients take, in milliseconds. `loss` is that of each direction."""
    return [Allocation(loss, round_trip_ms, seed).taken for seed in range(count)]
