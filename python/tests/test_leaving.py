"""Two connections over loopback sockets, in simulated time: both leave a path that dies within 4 s if another one works, also one that dies
in one direction, and no path if none works."""

from __future__ import annotations

import asyncio
import unittest
from unittest import mock

from is_ice import IceAgentEvent, NominatedSend
from is_ice.connection import Connection
from is_ice.loop import _Socket

from pairs import close, join
from simulated import run

FIRST, SECOND, PEER = "127.0.0.1", "127.0.0.2", "127.0.0.3"
PHASES = (5.0, 6.1, 7.3, 8.7)  # seconds from connecting until the path dies: checks on it are 2.9 s apart


class Wire:
    """Loses datagrams from one address to another one."""

    def __init__(self) -> None:
        self.lost = set[tuple[str, str]]()
        self._receive = _Socket.datagram_received

    def receive(self, at: _Socket, data: bytes, source: tuple[str, int]) -> None:
        if (source[0], at.local.ip) not in self.lost:
            self._receive(at, data, source)


async def left(wire: Wire, controlling: bool, after: float, lost: set[tuple[str, str]]) -> list[float]:
    """Connects, and loses these datagrams after some time. Returns how much later each side selected its last path."""
    a, b = Connection(controlling, addresses=[FIRST, SECOND]), Connection(not controlling, addresses=[PEER])
    loop, last = asyncio.get_running_loop(), dict[Connection, float]()
    await join(a, b)
    await asyncio.sleep(after)
    began, wire.lost = loop.time(), lost

    for side in (a, b):
        def on_event(event: IceAgentEvent, side: Connection = side) -> None:
            if isinstance(event, NominatedSend):
                last[side] = loop.time() - began

        side.on_event = on_event
    await asyncio.sleep(10)
    await close(a, b)
    return list(last.values())


class Leaving(unittest.TestCase):
    def played(self, controlling: bool, after: float, lost: set[tuple[str, str]]) -> list[float]:
        wire = Wire()

        def receive(at: _Socket, data: bytes, addr: tuple[str, int]) -> None:
            wire.receive(at, data, addr)

        with mock.patch.object(_Socket, "datagram_received", receive):
            return run(left(wire, controlling, after, lost))[0]

    def assert_left(self, lost: set[tuple[str, str]]) -> None:
        for controlling in (True, False):
            for after in PHASES:
                times = self.played(controlling, after, lost)
                self.assertEqual(len(times), 2, (controlling, after))
                self.assertLess(max(times), 4, (controlling, after))

    def test_a_path_that_dies(self) -> None:
        self.assert_left({(FIRST, PEER), (PEER, FIRST)})

    def test_one_that_dies_in_one_direction(self) -> None:
        self.assert_left({(FIRST, PEER)})
        self.assert_left({(PEER, FIRST)})

    def test_none_if_all_die(self) -> None:
        everything = {(PEER, FIRST), (FIRST, PEER), (PEER, SECOND), (SECOND, PEER)}
        for controlling in (True, False):
            self.assertEqual(self.played(controlling, PHASES[0], everything), [])


if __name__ == "__main__":
    unittest.main()
