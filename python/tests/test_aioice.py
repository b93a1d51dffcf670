"""The connection and aioice's: each connects to the other, and both behave alike."""

from __future__ import annotations

import asyncio
import unittest
from typing import Any
from unittest import mock

from pairs import add_candidates, agent, aioice, close, gather, join, talk, within
from turn_server import PASSWORD, USER, TurnServer


def theirs(controlling: bool, **more: Any) -> Any:
    return aioice.Connection(ice_controlling=controlling, **more)


@unittest.skipIf(aioice is None, "aioice is not installed (Debian's python3-aioice)")
class WithAioice(unittest.IsolatedAsyncioTestCase):
    def setUp(self) -> None:
        patch = mock.patch("aioice.ice.get_host_addresses", lambda use_ipv4, use_ipv6: ["127.0.0.1"])
        patch.start()
        self.addCleanup(patch.stop)

    async def test_each_combination_of_roles(self) -> None:
        for roles in ((True, False), (False, True), (True, True), (False, False)):
            with self.subTest(roles=roles):
                a, b = agent(roles[0]), theirs(roles[1])
                await join(a, b)
                self.assertNotEqual(a.ice_controlling, b.ice_controlling)
                await talk(a, b)
                await close(a, b)

    async def test_one_side_connects_earlier(self) -> None:
        for first in (0, 1):
            sides = agent(True), theirs(False)
            await gather(*sides)
            await add_candidates(*sides)
            early = asyncio.ensure_future(sides[first].connect())
            await asyncio.sleep(0.2)
            await within(asyncio.gather(early, sides[1 - first].connect()), 5)
            await talk(*sides)
            await close(*sides)

    async def test_relayed_candidates(self) -> None:
        server = TurnServer()
        more = {"turn_server": await server.start(), "turn_username": USER, "turn_password": PASSWORD,
                "transport_policy": aioice.TransportPolicy.RELAY}
        a, b = agent(True, **more), theirs(False, **more)
        await within(join(a, b), 5)
        await talk(a, b)
        await close(a, b)
        server.close()

    def test_the_surface_is_that_of_aioice(self) -> None:
        names = [name for name in vars(aioice.Connection) if not name.startswith("_")]
        # what aioice has for its own use
        own = {"build_request", "check_complete", "check_incoming", "check_periodic", "check_start", "check_state", "data_received",
               "get_component_candidates", "query_consent", "request_received", "respond_error", "sort_check_list", "switch_role"}
        ours, other = agent(True), theirs(True)
        self.assertEqual([name for name in names if name not in own and not hasattr(ours, name)], [])
        for name in vars(other):
            if not name.startswith("_"):
                self.assertTrue(hasattr(ours, name), name)


if __name__ == "__main__":
    unittest.main()
