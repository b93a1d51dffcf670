"""Two connections of the module or of aioice over loopback, for the tests of connections."""

from __future__ import annotations

import asyncio
import os
import unittest
from collections.abc import Awaitable, Callable
from typing import Any, TypeVar

from is_ice.connection import Connection
from is_ice.mdns import Mdns

try:
    import aioice as aioice  # for tests, too
except ImportError:
    aioice = None

T = TypeVar("T")
# How many times as long as usual the tests wait, as in an emulator.
PATIENCE = float(os.environ.get("IS_ICE_PATIENCE", "1"))
LOOPBACK = ["127.0.0.1"]
NOBODY = "candidate:1 1 udp 2130706431 127.0.0.1 9 typ host"
HIDDEN = "candidate:1 1 udp 2130706431 3f2b8c1e-5c1e-4b0a-9f5e-1f2e3d4c5b6a.local {port} typ host"


def agent(controlling: bool, **more: Any) -> Connection:
    return Connection(controlling, addresses=LOOPBACK, **more)


async def within(awaited: Awaitable[T], seconds: float) -> T:
    """Waits so long, or longer as IS_ICE_PATIENCE says; asyncio.TimeoutError if that does not suffice."""
    return await asyncio.wait_for(awaited, seconds * PATIENCE)


async def gather(a: Any, b: Any) -> None:
    await asyncio.gather(a.gather_candidates(), b.gather_candidates())
    for one, other in ((a, b), (b, a)):
        one.remote_username, one.remote_password = other.local_username, other.local_password


async def add_candidates(a: Any, b: Any, end: bool = True) -> None:
    for one, other in ((a, b), (b, a)):
        for candidate in other.local_candidates:
            await one.add_remote_candidate(candidate)
        if end:
            await one.add_remote_candidate(None)


async def introduced(controlling: tuple[bool, bool] = (True, False)) -> tuple[Connection, Connection]:
    """Two connections over loopback that know each other."""
    a, b = agent(controlling[0]), agent(controlling[1])
    await gather(a, b)
    await add_candidates(a, b)
    return a, b


async def join(a: Any, b: Any) -> None:
    """Gathers, signals and connects."""
    await gather(a, b)
    await add_candidates(a, b)
    await asyncio.gather(a.connect(), b.connect())


async def talk(a: Any, b: Any) -> None:
    """Sends a datagram each way; AssertionError if it does not arrive."""
    for one, other in ((a, b), (b, a)):
        # media, and bytes that begin as STUN or nothing
        for data in (b"\x80 data", b"hello", b"\x01", b"\x00\x01\x00\x00" + bytes(40), bytes([255]) * 9000):
            await one.send(data)
            assert await within(other.recv(), 2) == data
        await one.sendto(b"\x80 to", 1)
        assert await within(other.recvfrom(), 2) == (b"\x80 to", 1)


async def until(condition: Callable[[], bool], patience: float = 10) -> None:
    """Waits until the condition holds; asyncio.TimeoutError if it does not in time."""
    async def wait() -> None:
        while not condition():
            await asyncio.sleep(0.01)

    await within(wait(), patience)


async def close(*connections: Any) -> None:
    await asyncio.gather(*(connection.close() for connection in connections))


async def nobody(resolver: Mdns, name: str) -> None:
    """Takes as long as mDNS when nobody responds."""
    await asyncio.sleep(1)


def other_tasks() -> set[asyncio.Task[Any]]:
    """The tasks of the loop but this one."""
    return asyncio.all_tasks() - {asyncio.current_task()}


def check_soon(test: unittest.TestCase, took: list[float], limit: float = 0.04 * PATIENCE) -> None:
    """The least of some durations is below a limit, 40 ms of the pacing interval of 50. Skips the test if the machine is busy."""
    if min(took) >= limit and os.getloadavg()[0] > (os.cpu_count() or 1):
        test.skipTest("the machine is busy")
    test.assertLess(min(took), limit)
