"""A session of the agent with a browser: signaling, and waiting for what both sides report."""

from __future__ import annotations

import asyncio
import itertools
import time
from collections.abc import Callable
from dataclasses import dataclass, field
from typing import Any

import relays
from browser import Browser
from is_ice.interfaces import host_addresses
from side import Setup, Side

CONNECTED = ("connected", "completed")
_LATE = 0.3  # seconds
_GATHERING = 10.0  # seconds
_numbers = itertools.count(1)


def local_address(ipv6: bool) -> str | None:
    """Returns the first address of the machine of this IP version, or None."""
    return next(iter(host_addresses(not ipv6, ipv6)), None)


@dataclass
class Session:
    """A session. `start` is the time at which the first side had the other's description."""

    browser: Browser
    side: Side
    setup: Setup
    number: int = field(default_factory=lambda: next(_numbers))
    start: float = 0.0
    told: dict[str, Any] = field(default_factory=dict)  # what the browser reported last

    @classmethod
    async def begin(cls, browser: Browser, setup: Setup) -> Session:
        """Binds a socket, exchanges descriptions and candidates, and starts both sides."""
        session = cls(browser, Side(setup), setup)
        for ipv6 in (setup.ipv6, not setup.ipv6)[:1 + setup.both]:
            await (session.gather() if setup.relays_only else session.bind(ipv6))
        relay = relays.entry(setup.relays_only) if setup.relays_only else None
        await session.call("create", False, None, setup.option, relay)
        await session._signal()
        return session

    async def bind(self, ipv6: bool) -> str:
        """Binds a socket of the agent, and returns the candidate."""
        address = local_address(ipv6)
        assert address, "the machine has no such address"
        line = await self.side.loop.bind(address)
        assert line, "the candidate is redundant"
        return line

    async def gather(self) -> None:
        """Opens a socket of the agent, and waits for the relayed candidate."""
        address = local_address(False)
        assert address, "the machine has no such address"
        await self.side.loop.open(address)
        await asyncio.wait_for(self.side.loop.gather(), _GATHERING)
        assert [fields.kind.name for fields in self.side.agent.local_fields()] == ["RELAYED"], "no relayed candidate, or another one"

    async def call(self, function: str, *arguments: object) -> Any:
        """Runs a function of the page for this session."""
        return await self.browser.call(function, self.number, *arguments)

    async def _signal(self) -> None:
        side, whole = self.side, not self.setup.late
        if self.setup.browser_offers:
            side.read(await self.call("offer", whole), whole)
            self.start = time.time()
            side.loop.begin()
            await self.call("accept", side.description(False, whole))
        else:
            self.start = time.time()
            side.read(await self.call("answer", side.description(True, whole), whole), whole)
            side.loop.begin()
        if self.setup.late:
            await asyncio.sleep(_LATE)
            for line in side.agent.local_candidates():
                await self.call("addCandidate", line)
            for line in (await self.call("report"))["candidates"]:
                side.add(line)

    async def follow(self, seconds: float, until: Callable[[Session], bool] | None = None, interval: float = 0.02) -> bool:
        """Gets the browser's report again and again, for so many seconds or until the condition holds. Returns whether it holds."""
        end = time.time() + seconds
        while True:
            self.told = await self.call("report")
            if until and until(self):
                return True
            if time.time() >= end:
                return False
            await asyncio.sleep(interval)

    def is_connected(self) -> bool:
        """Returns whether both sides say so."""
        return self.side.agent.state.is_connected() and self.told["ice"] in CONNECTED

    def agent_path(self) -> tuple[int, int] | None:
        """Returns the ports of the path that the agent selected last: its own and the browser's."""
        if not self.side.paths:
            return None
        path = self.side.paths[-1][1]
        return path.source.port, path.destination.port

    def browser_path(self) -> tuple[int, int] | None:
        """Returns the same of the path that the browser reported last when it selected another one."""
        return next(((agent, own) for _, own, agent in reversed(self.told["moves"])), None)

    async def is_on_one_path(self) -> bool:
        """Returns whether both sides selected the same path."""
        pair = await self.call("selected")
        return bool(pair) and self.agent_path() == (pair["remote"], pair["local"])

    def browser_reached(self, names: tuple[str, ...], since: float = 0.0) -> float | None:
        """Returns when the browser first was in one of these ICE states, at this time or later."""
        return next((at for at, state in self.told["states"] if at >= since and state in names), None)

    async def end(self) -> None:
        """Ends both sides."""
        await self.call("end")
        await self.side.close()
