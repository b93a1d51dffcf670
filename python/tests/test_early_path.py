"""`connect` returns as soon as data may flow, also before a path is selected: over loopback, and with delays in simulated time."""

from __future__ import annotations

import asyncio
import unittest
from collections.abc import Callable
from typing import Any, NamedTuple
from unittest import mock

from is_ice import IceAgentEvent, IceConnectionState, NominatedSend, Settings
from is_ice.connection import Connection, ConnectionClosed
from is_ice.loop import _Socket

from pairs import add_candidates, agent, close, gather, introduced, talk, until, within
from simulated import run
from test_loop import Side, two_sides

Deliver = Callable[[_Socket, bytes, tuple[str, int]], None]
DELAY = 0.15  # seconds one way: the round trip is twice as long
USE_CANDIDATE = b"\x00\x25\x00\x00"  # RFC 8445: the attribute that nominates
FIRST, SECOND = ["127.0.1.1", "127.0.1.2", "127.0.1.3"], ["127.0.2.1", "127.0.2.2", "127.0.2.3"]
deliver: Deliver = _Socket.datagram_received


def network(delay_of: Callable[[str, str, bytes], float | None]) -> Any:
    """Datagrams take so long by their source, destination and bytes. None: they are lost."""
    def receive(at: _Socket, data: bytes, source: tuple[str, int]) -> None:
        delay = delay_of(source[0], at.local.ip, data)
        if delay is not None:
            asyncio.get_running_loop().call_later(delay, deliver, at, data, source)

    return mock.patch.object(_Socket, "datagram_received", receive)


class Seen(NamedTuple):
    """What a side saw, in seconds."""

    connected: float
    selected: float
    heard: float


async def session(controlling: bool, settings: Settings) -> tuple[Seen, Seen]:
    """Both connect, and send a datagram at once. The first one controls, or the second one."""
    loop, selected = asyncio.get_running_loop(), dict[Connection, float]()
    sides = Connection(controlling, addresses=FIRST), Connection(not controlling, addresses=SECOND)
    await gather(*sides)
    await add_candidates(*sides)
    start = loop.time()

    async def seen(one: Connection, other: Connection) -> Seen:
        one.agent.set_settings(settings)

        def on_event(event: IceAgentEvent) -> None:
            if isinstance(event, NominatedSend):
                selected.setdefault(one, loop.time() - start)

        one.on_event = on_event
        await one.connect()
        connected = loop.time() - start
        await one.send(one.local_username.encode())
        assert await one.recv() == other.local_username.encode()
        heard = loop.time() - start
        await until(lambda: one in selected)
        return Seen(connected, selected[one], heard)

    a, b = await asyncio.gather(seen(*sides), seen(*sides[::-1]))
    await talk(*sides)
    await close(*sides)
    return (a, b) if controlling else (b, a)


def one_pair_works(source: str, destination: str, _: bytes) -> float | None:
    return DELAY if {source, destination} == {FIRST[1], SECOND[2]} else None


class FarPeers(unittest.TestCase):
    def test_the_controlled_side_connects_half_a_round_trip_before_it_selects(self) -> None:
        for settings in (Settings.modern(), Settings.original()):
            for controlling in (True, False):
                with self.subTest(settings=settings, controlling=controlling), network(one_pair_works):
                    (ing, ed), _ = run(session(controlling, settings))
                    self.assertEqual(ing.connected, ing.selected)
                    self.assertLess(ed.connected, ed.selected - 0.9 * DELAY)
                    self.assertLess(ed.connected, ing.connected + 0.1)
                    for side, other in ((ing, ed), (ed, ing)):  # what was sent when `connect` returned arrives as soon as it can
                        self.assertAlmostEqual(side.heard, max(side.connected, other.connected + DELAY), delta=0.01)

    def test_data_follows_the_path_that_is_selected(self) -> None:
        """The path of greater priority takes longer, so another one is valid before."""
        paths = dict[str, list[str]]()
        delays = {(FIRST[0], SECOND[0]): 2 * DELAY, (FIRST[2], SECOND[2]): DELAY / 3}

        def arrives(source: str, destination: str, data: bytes) -> float | None:
            if data[:1] > b"\x03":
                paths.setdefault(destination, []).append(source)
            return delays.get((min(source, destination), max(source, destination)))

        async def play(controlling: bool) -> tuple[bool, list[Any]]:
            a, b = Connection(controlling, addresses=FIRST), Connection(not controlling, addresses=SECOND)
            await gather(a, b)
            await add_candidates(a, b)
            await asyncio.gather(a.connect(), b.connect())
            is_early = any(side.agent.nominated_pair is None for side in (a, b))
            await talk(a, b)
            await asyncio.sleep(3)
            paths.clear()
            await talk(a, b)
            selected = [side.agent.nominated_pair for side in (a, b)]
            await close(a, b)
            return is_early, selected

        for controlling in (True, False):
            with self.subTest(controlling=controlling), network(arrives):
                (is_early, selected), _ = run(play(controlling))
                self.assertTrue(is_early)
                self.assertEqual([(pair.source.ip, pair.destination.ip) for pair in selected],
                                 [(FIRST[0], SECOND[0]), (SECOND[0], FIRST[0])])
                self.assertEqual({at: set(sources) for at, sources in paths.items()}, {FIRST[0]: {SECOND[0]}, SECOND[0]: {FIRST[0]}})

    def test_a_path_that_was_never_selected_and_is_lost_closes_the_connection(self) -> None:
        is_cut = False

        def arrives(_: str, __: str, data: bytes) -> float | None:
            return None if is_cut or USE_CANDIDATE in data else DELAY

        async def play() -> tuple[IceConnectionState, float, object]:
            nonlocal is_cut
            a, b = await introduced()
            await asyncio.gather(a.connect(), b.connect())
            await talk(a, b)
            state, start, is_cut = b.agent.state, asyncio.get_running_loop().time(), True
            event = await b.get_event()
            took = asyncio.get_running_loop().time() - start
            await close(a, b)
            return state, took, event

        with network(arrives):
            (state, took, event), _ = run(play())
        self.assertEqual(state, IceConnectionState.CHECKING)
        self.assertIsInstance(event, ConnectionClosed)
        self.assertLess(took, 30)


class Loopback(unittest.IsolatedAsyncioTestCase):
    """Real time; nominations are lost until `lets` is True."""

    def setUp(self) -> None:
        self.lets = False
        patch = network(lambda _, __, data: 0 if self.lets or USE_CANDIDATE not in data else None)
        patch.start()
        self.addCleanup(patch.stop)

    async def test_it_connects_without_a_nomination(self) -> None:
        for controlling in (True, False):
            with self.subTest(controlling=controlling):
                self.lets = False
                a, b = await introduced((controlling, not controlling))
                await within(asyncio.gather(a.connect(), b.connect()), 2)
                controlled = b if controlling else a
                self.assertIsNone(controlled.agent.nominated_pair)
                await talk(a, b)
                self.assertIsNone(controlled.agent.nominated_pair)
                self.lets = True
                await until(lambda: bool(a.agent.nominated_pair and b.agent.nominated_pair), 5)
                await talk(a, b)
                await close(a, b)

    async def test_a_loop_reports_a_path_once(self) -> None:
        errors: list[BaseException] = []
        asyncio.get_running_loop().set_exception_handler(lambda _, context: errors.append(context["exception"]))
        for closes in (False, True):
            with self.subTest(closes=closes):
                self.lets, seen = False, list[object]()
                a, b = await two_sides()

                def on_path(closes: bool = closes, b: Side = b, seen: list[object] = seen) -> None:
                    seen.append(b.agent.nominated_pair)
                    if closes:
                        b.agent.close()
                    raise RuntimeError("in a handler")

                b.loop._on_path = on_path
                for side in (a, b):
                    side.loop.begin()
                await within(a.path, 2)
                await until(lambda: bool(seen))
                self.lets = True
                if not closes:
                    await within(b.path, 5)
                a.loop.wake()
                self.assertEqual(seen, [None])
                for side in (a, b):
                    side.loop.close()
        self.assertEqual([str(error) for error in errors], ["in a handler"] * 2)

    async def test_a_lite_agent_waits_for_a_nomination(self) -> None:
        """Anybody may have sent a check again, and nothing says yet that its responses arrive."""
        full, lite = agent(True), agent(False)
        lite.agent.set_ice_lite(True)
        full.remote_is_lite = True
        await gather(full, lite)
        await add_candidates(full, lite)
        connecting = asyncio.ensure_future(lite.connect())
        await within(full.connect(), 2)
        await asyncio.sleep(0.3)
        self.assertIsNotNone(lite.agent.valid_path)
        self.assertFalse(connecting.done())
        self.lets = True
        await within(connecting, 5)
        await talk(full, lite)
        await close(full, lite)


if __name__ == "__main__":
    unittest.main()
