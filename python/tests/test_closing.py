"""Closing of a connection: what it ends, at whatever time, and what outlives it."""

from __future__ import annotations

import asyncio
import copy
import gc
import os
import pickle
import socket
import time
import unittest
from collections.abc import Awaitable, Callable
from typing import Any

from is_ice import HasAgent, NominatedSend
from is_ice.connection import ConnectionClosed

from pairs import PATIENCE, agent, close, introduced, join, other_tasks, within
from turn_server import TurnServer


async def ended_by_cancelling(call: Awaitable[object], steps: int) -> bool:
    """Cancels a call after some steps of the loop. Returns whether it was not yet done."""
    task = asyncio.ensure_future(call)
    for _ in range(steps):
        await asyncio.sleep(0)
    task.cancel()
    await asyncio.wait({task})
    return task.cancelled()


class Closing(unittest.IsolatedAsyncioTestCase):
    async def test_a_close_that_is_cancelled(self) -> None:
        """While a TURN server frees an allocation, and while the socket of mDNS is opened: neither ever happens here."""
        for what in ("allocation", "mdns"):
            with self.subTest(what=what):
                server = TurnServer()
                await server.start()
                a = agent(True, servers=[server.urls])
                await a.gather_candidates()
                if what == "allocation":
                    server.lets = lambda data: False
                else:
                    a._mdns._opened = asyncio.get_running_loop().create_future()
                event = asyncio.ensure_future(a.get_event())
                await asyncio.sleep(0)
                with self.assertRaises(asyncio.TimeoutError):
                    await asyncio.wait_for(a.close(), 0.1)
                self.assertIsInstance(await within(event, 1), ConnectionClosed)
                await within(a.close(), 2)
                self.assertIsNone(await a.get_event())
                self.assertEqual(other_tasks(), set())
                server.close()

    async def test_calls_that_are_cancelled_at_each_step(self) -> None:
        open_files = len(os.listdir("/proc/self/fd"))
        cancelled = 0
        for steps in range(16):
            a, b = agent(True), agent(False)
            cancelled += await ended_by_cancelling(a.gather_candidates(), steps)
            await join(a, b)
            received = asyncio.ensure_future(b.recv())
            await asyncio.sleep(0)
            received.cancel()
            await a.send(b"x")
            self.assertEqual(await within(b.recv(), 1), b"x")
            event = asyncio.ensure_future(a.get_event())
            await asyncio.sleep(0)
            cancelled += await ended_by_cancelling(a.close(), steps)
            self.assertIsInstance(await within(event, 1), ConnectionClosed)
            await close(a, b)
        for steps in range(16):
            a, b = await introduced()
            other = asyncio.ensure_future(b.connect())
            cancelled += await ended_by_cancelling(a.connect(), steps)
            await within(asyncio.gather(a.connect(), other), 5)
            await close(a, b)
            c = agent(True)
            cancelled += await ended_by_cancelling(c.gather_candidates(), steps)
            await c.close()
        self.assertGreater(cancelled, 16)
        await asyncio.sleep(0.05)
        gc.collect()
        self.assertEqual(other_tasks(), set())
        self.assertLessEqual(len(os.listdir("/proc/self/fd")), open_files + 1)

    async def test_tasks_of_gathering_end(self) -> None:
        with socket.socket(socket.AF_INET, socket.SOCK_DGRAM) as silent:
            silent.bind(("127.0.0.1", 0))
            at = silent.getsockname()
            for server in ({"stun_server": at}, {"turn_server": at}, {"stun_server": at, "turn_server": at}):
                with self.subTest(server=server):
                    open_files = len(os.listdir("/proc/self/fd"))
                    a = agent(True, **server)
                    gathering = asyncio.ensure_future(a.gather_candidates())
                    await asyncio.sleep(0.1)
                    self.assertGreaterEqual(len(other_tasks()), 1)
                    await within(a.close(), 2)
                    await within(gathering, 1)  # it returns, since nobody cancelled it
                    self.assertEqual((other_tasks(), a.local_candidates), (set(), []))
                    await asyncio.sleep(0.05)
                    self.assertLessEqual(len(os.listdir("/proc/self/fd")), open_files)
                    await a.gather_candidates()
                    self.assertEqual(other_tasks(), set())

    async def test_a_close_in_the_first_turns_of_gathering(self) -> None:
        for turns in range(4):  # in the first ones the task of gathering has not begun to run
            with self.subTest(turns=turns):
                a = agent(True)
                gathering = asyncio.ensure_future(a.gather_candidates())
                for _ in range(turns):
                    await asyncio.sleep(0)
                closing = a.close()  # closes at once, and waits when it is awaited
                await within(gathering, 1)
                await closing
                self.assertEqual((other_tasks(), a.local_candidates), (set(), []))

    async def test_an_allocation_is_freed(self) -> None:
        for begun in (False, True):  # closed while the server makes it, and after
            server = TurnServer()
            await server.start()
            a = agent(True, servers=[server.urls])
            gathering = asyncio.ensure_future(a.gather_candidates())
            if begun:
                await gathering
            else:
                while not server.strict.allocations:
                    await asyncio.sleep(0)
            await within(a.close(), 2)
            await within(gathering, 1)
            self.assertEqual((server.strict.freed, server.strict.allocations), (1, {}))
            self.assertEqual(other_tasks(), set())
            server.close()

    async def test_an_allocation_that_nobody_frees(self) -> None:
        server = TurnServer()
        await server.start()
        a = agent(True, servers=[server.urls])
        await a.gather_candidates()
        server.close()
        start = time.monotonic()
        await a.close()
        self.assertLess(time.monotonic() - start, 2 * PATIENCE)
        await asyncio.sleep(0.05)
        self.assertEqual(other_tasks(), set())

    async def test_a_close_in_a_handler_and_while_sending(self) -> None:
        a, b = await introduced()
        closing: list[asyncio.Future[None]] = []
        a.on_event = lambda event: closing.append(asyncio.ensure_future(a.close())) if isinstance(event, NominatedSend) else None
        other = asyncio.ensure_future(b.connect())
        await asyncio.gather(a.connect(), return_exceptions=True)
        await asyncio.gather(*closing)
        await close(a, b)
        await asyncio.gather(other, return_exceptions=True)
        self.assertEqual(other_tasks(), set())
        a, b = agent(True), agent(False)
        await join(a, b)

        async def pump() -> int:
            count = 0
            try:
                while True:
                    await a.send(b"z" * 1000)
                    count += 1
                    await asyncio.sleep(0)
            except ConnectionError:
                return count

        pumps = [asyncio.ensure_future(pump()) for _ in range(3)]
        await asyncio.sleep(0.05)
        await a.close()
        self.assertGreater(min(await within(asyncio.gather(*pumps), 1)), 0)
        await b.close()
        self.assertEqual(other_tasks(), set())

    def test_a_close_before_the_loop_runs(self) -> None:
        loop = asyncio.new_event_loop()
        a = agent(True)
        loop.run_until_complete(a.gather_candidates())
        closing = a.close()
        self.assertEqual(len(a.local_candidates), 1)
        loop.run_until_complete(closing)
        self.assertEqual(a.local_candidates, [])
        loop.close()

    async def test_an_agent_that_the_program_closed(self) -> None:
        a = agent(True)
        await a.gather_candidates()
        a.agent.close()
        await a.close()
        self.assertEqual((a.ice_controlling, a.local_candidates, a.remote_candidates), (True, [], []))

    async def test_a_connection_is_neither_copied_nor_begun_again(self) -> None:
        a = agent(True)
        await a.gather_candidates()
        makes: tuple[Callable[[Any], object], ...] = (copy.copy, copy.deepcopy, pickle.dumps)
        for value in (a, a._loop):
            for make in makes:
                self.assertRaisesRegex(TypeError, "cannot be copied", make, value)
        self.assertRaises(HasAgent, a.__init__, False)  # type: ignore[misc]
        self.assertRaises(HasAgent, a._loop.__init__, a.agent, print, print)  # type: ignore[misc]
        self.assertEqual(len(a.local_candidates), 1)
        await a.close()


if __name__ == "__main__":
    unittest.main()
