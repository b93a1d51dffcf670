"""Names of multicast DNS: resolved, offered, and how long one that nobody resolves delays a session."""

from __future__ import annotations

import asyncio
import subprocess
import sys
import time
import unittest
import uuid
from typing import Any
from unittest import mock

from is_ice import line_name
from is_ice.connection import Connection, TransportPolicy
from is_ice.mdns import Mdns

from pairs import HIDDEN, LOOPBACK, PATIENCE, add_candidates, agent, aioice, close, gather, join, nobody, other_tasks, talk, within
from turn_server import TurnServer
from test_stun import SEEN, StunServer

# Two connections over loopback in a new process. Prints the seconds from the first candidate until both connect, and the modules that were
# imported meanwhile. Its argument is the name of a further candidate of each side, or "".
SESSION = """
import asyncio, sys, time
from is_ice.connection import Connection

async def play():
    sides = Connection(True, addresses=["127.0.0.1"]), Connection(False, addresses=["127.0.0.1"])
    await asyncio.gather(*(side.gather_candidates() for side in sides))
    start, modules = time.monotonic(), set(sys.modules)
    for one, other in (sides, sides[::-1]):
        one.remote_username, one.remote_password = other.local_username, other.local_password
        if sys.argv[1]:
            await one.add_remote_candidate(f"candidate:9 1 udp 2130706431 {sys.argv[1]} 9 typ host")
        await one.add_remote_candidate(other.local_candidates[0])
        await one.add_remote_candidate(None)
    await asyncio.gather(*(side.connect() for side in sides))
    took = time.monotonic() - start
    await asyncio.gather(*(side.close() for side in sides))
    return took, *set(sys.modules) - modules

print(*asyncio.run(play()))
"""


def session_took(name: str) -> tuple[float, list[str]]:
    """How long two connections take in a new process, in seconds, and the modules that they import."""
    ran = subprocess.run([sys.executable, "-c", SESSION, name], stdout=subprocess.PIPE, text=True, timeout=60, check=True)
    took, *modules = ran.stdout.split()
    return float(took), modules


class Client:
    """In place of aioice's client: notes what it is asked. It resolves a name at the query of this number, from 1."""

    def __init__(self, responds_at: int) -> None:
        self.waits: list[float] = []
        self.published: list[tuple[str, str]] = []
        self.closed = 0
        self._responds_at = responds_at

    async def resolve(self, name: str, wait: float) -> str | None:
        self.waits.append(wait)
        return "192.0.2.7" if len(self.waits) == self._responds_at else None

    async def publish(self, name: str, ip: str) -> None:
        self.published.append((name, ip))

    async def close(self) -> None:
        self.closed += 1


def with_client(client: Client | None) -> Any:
    """Has `Mdns` use this client, or find no socket."""
    module = mock.Mock()
    module.create_mdns_protocol = mock.AsyncMock(return_value=client, side_effect=None if client else OSError("no socket"))
    return mock.patch("is_ice.mdns.needed_part", return_value=module)


class Names(unittest.IsolatedAsyncioTestCase):
    async def test_a_query_is_repeated_once(self) -> None:
        """After 1 s, and the next interval is twice as long (RFC 6762, section 5.2)."""
        for responds_at, found, waits in ((1, "192.0.2.7", [1]), (2, "192.0.2.7", [1, 2]), (3, None, [1, 2])):
            client, mdns = Client(responds_at), Mdns()
            with with_client(client):
                self.assertEqual((await mdns.resolve("x.local"), client.waits), (found, waits))
            await mdns.close()
            await mdns.close()
            self.assertEqual(client.closed, 1)

    async def test_without_aioice(self) -> None:
        with mock.patch("is_ice._aioice.aioice_part", return_value=None):
            mdns = Mdns()
            self.assertIsNone(await mdns.resolve("x.local"))
            with self.assertRaisesRegex(ImportError, r"pip install 'is_ice\[mdns\]'"):
                await mdns.offer("192.0.2.1")
            with self.assertRaises(ImportError):
                Connection(True, hide_addresses=True)
            await mdns.close()

    async def test_without_a_socket(self) -> None:
        with with_client(None):
            mdns = Mdns()
            self.assertIsNone(await mdns.resolve("x.local"))
            with self.assertLogs("is_ice.mdns", "WARNING") as logged:
                name = await mdns.offer("192.0.2.1")
            self.assertIn(f"nobody resolves {name}: no socket", logged.output[0])
            await mdns.close()

    async def test_whoever_is_cancelled_leaves_the_socket_to_others(self) -> None:
        opening = asyncio.get_running_loop().create_future()
        client, mdns = Client(1), Mdns()
        with mock.patch("is_ice.mdns._open", lambda: opening):
            first, second = (asyncio.ensure_future(mdns.resolve("x.local")) for _ in range(2))
            await asyncio.sleep(0)
            first.cancel()
            await asyncio.sleep(0)
            opening.set_result(client)
            self.assertEqual(await second, "192.0.2.7")
        await mdns.close()
        self.assertEqual(client.closed, 1)

    @unittest.skipIf(aioice is None, "aioice is not installed (Debian's python3-aioice)")
    async def test_an_offered_name_is_resolved_until_it_is_closed(self) -> None:
        ours, theirs = Mdns(), Mdns()
        names = {ip: await ours.offer(ip) for ip in ("192.0.2.1", "2001:db8::1")}
        if await theirs.resolve(names["192.0.2.1"]) is None:
            self.skipTest("no multicast here")
        for ip, name in names.items():
            self.assertEqual(await theirs.resolve(name), ip)
            self.assertEqual(str(uuid.UUID(name.removesuffix(".local")).version), "4")  # nothing of the host is in it
        await ours.close()
        with mock.patch("is_ice.mdns._WAITS", (0.1,)):
            self.assertIsNone(await theirs.resolve(names["192.0.2.1"]))
        await theirs.close()


async def signaled_by_name(a: Connection, b: Connection) -> asyncio.Future[str]:
    """Gathers, and signals b's candidate to a by a name, and the end of candidates. Returns what resolves the name."""
    await gather(a, b)
    resolved: asyncio.Future[str] = asyncio.get_running_loop().create_future()
    with mock.patch.object(Mdns, "resolve", lambda _, name: resolved):
        await a.add_remote_candidate(HIDDEN.format(port=b.local_candidates[0].port))
        await asyncio.sleep(0)
    await a.add_remote_candidate(None)
    return resolved


class Sessions(unittest.IsolatedAsyncioTestCase):
    """Connections whose peer signals names."""

    async def test_names_that_are_being_resolved_keep_the_session_open(self) -> None:
        a, b = agent(True), agent(False)
        resolved = await signaled_by_name(a, b)
        both = asyncio.gather(a.connect(), b.connect())
        await asyncio.sleep(0.01)
        resolved.set_result("127.0.0.1")
        await within(both, 2)
        await talk(a, b)
        await close(a, b)

    async def test_names_that_nobody_resolves_delay_nothing(self) -> None:
        """Ten names of a second each before the candidate with an address, on both sides: at most 0.3 s in all."""
        with mock.patch.object(Mdns, "resolve", nobody):
            took = [9.0]
            while min(took) > 0.3 * PATIENCE and len(took) < 10:  # the machine may be busy
                a, b = agent(True), agent(False)
                await gather(a, b)
                start = time.monotonic()
                for one in (a, b):
                    for port in range(9000, 9010):
                        await one.add_remote_candidate(HIDDEN.format(port=port))
                await add_candidates(a, b)
                await asyncio.gather(a.connect(), b.connect())
                took.append(time.monotonic() - start)
                await talk(a, b)
                await close(a, b)
                self.assertEqual(other_tasks(), set())
            self.assertLess(min(took), 0.3 * PATIENCE)

    async def test_the_end_of_candidates_waits_for_names(self) -> None:
        for found, outcome in (("not an address", False), ("127.0.0.1", True)):
            a, b = agent(True), agent(False)
            resolved = await signaled_by_name(a, b)
            connecting = asyncio.ensure_future(a.connect())
            await asyncio.sleep(0.2)
            self.assertFalse(connecting.done())
            resolved.set_result(found)
            other = asyncio.ensure_future(b.connect())
            await asyncio.wait({connecting}, timeout=2)
            self.assertEqual(connecting.done() and connecting.exception() is None, outcome)
            await close(a, b)
            await asyncio.wait({other})
            other.exception()

    async def test_names_of_mdns(self) -> None:
        for found in ("127.0.0.1", None):  # without an address the checks of b bring it
            with self.subTest(found=found), mock.patch.object(Mdns, "resolve", mock.AsyncMock(return_value=found)):
                a, b = agent(True), agent(False)
                await gather(a, b)
                await a.add_remote_candidate(HIDDEN.format(port=b.local_candidates[0].port))
                await b.add_remote_candidate(a.local_candidates[0])
                for one in (a, b):
                    await one.add_remote_candidate(None)
                await asyncio.wait(a._remote.names)
                self.assertEqual(len(a.remote_candidates), 1 if found else 0)
                await within(asyncio.gather(a.connect(), b.connect()), 2)
                await talk(a, b)
                await close(a, b)


class Hidden(unittest.IsolatedAsyncioTestCase):
    """Connections that hide their addresses."""

    async def test_names_stand_for_addresses(self) -> None:
        server, client = StunServer(), Client(0)
        at = await server.start()
        with with_client(client):
            for policy, kinds in ((TransportPolicy.ALL, ["host", "srflx"]), (TransportPolicy.RELAY, ["srflx"])):
                a = agent(True, stun_server=at[:2], transport_policy=policy, hide_addresses=True)
                await a.gather_candidates()
                self.assertEqual([candidate.type for candidate in a.local_candidates], kinds)
                self.assertEqual([candidate.foundation for candidate in a.local_candidates], ["1", "2"][: len(kinds)])
                for candidate in a.local_candidates:
                    self.assertNotIn(LOOPBACK[0], str(candidate))
                    if candidate.type == "host":
                        self.assertEqual(line_name(str(candidate)), candidate.host)
                    else:  # the server's view of the host is no secret
                        self.assertEqual((candidate.host, candidate.related_address, candidate.related_port), (SEEN.ip, "0.0.0.0", 0))
                await a.close()
        self.assertEqual([ip for _, ip in client.published], LOOPBACK)  # nothing for the policy that has no host candidates
        server.close()

    @unittest.skipIf(aioice is None, "aioice is not installed (Debian's python3-aioice)")
    async def test_a_relayed_candidate(self) -> None:
        server = TurnServer()
        await server.start()
        with with_client(Client(0)):
            a = agent(True, servers=[server.urls], hide_addresses=True)
            await a.gather_candidates()
        relayed = a.local_candidates[-1]
        self.assertEqual((relayed.type, relayed.related_address, relayed.related_port), ("relay", "0.0.0.0", 0))
        await a.close()
        server.close()

    @unittest.skipIf(aioice is None, "aioice is not installed (Debian's python3-aioice)")
    async def test_two_connections(self) -> None:
        """By multicast, or else by the checks of the side that is not hidden."""
        for hidden in ((True, True), (True, False), (False, True)):
            with self.subTest(hidden=hidden):
                a, b = (agent(controlling, hide_addresses=hides) for controlling, hides in zip((True, False), hidden))
                await gather(a, b)
                await add_candidates(a, b)
                if all(hidden) and await is_without_multicast(a, b):
                    self.skipTest("no multicast here")
                await within(asyncio.gather(a.connect(), b.connect()), 5)
                await talk(a, b)
                await close(a, b)

    async def test_foundations_do_not_tell_addresses(self) -> None:
        """Connections at different addresses signal the same ones, and each knows its candidate by it."""
        for ip in ("127.0.0.1", "127.0.0.2"):
            with with_client(Client(0)):
                a, b = Connection(True, addresses=[ip], hide_addresses=True), agent(False)
                await gather(a, b)
                await add_candidates(a, b)
                self.assertEqual([candidate.foundation for candidate in a.local_candidates * 2], ["1", "1"])
                theirs = b.local_candidates[0].foundation
                self.assertRaises(ValueError, a.set_selected_pair, 1, a.agent.local_fields()[0].foundation, theirs)
                a.set_selected_pair(1, "1", theirs)
                await a.send(b"hello")
                await close(a, b)

    async def test_names_without_a_socket_are_signaled(self) -> None:
        with with_client(None), self.assertLogs("is_ice.mdns", "WARNING"):
            a, b = agent(True, hide_addresses=True), agent(False)
            await within(join(a, b), 5)  # the checks of a bring its address
        await talk(a, b)
        await close(a, b)

    async def test_a_close_while_names_are_offered(self) -> None:
        with mock.patch("is_ice.mdns._open", asyncio.get_running_loop().create_future):
            with mock.patch("is_ice.connection.mdns_client"):
                a = agent(True, hide_addresses=True)
            gathering = asyncio.ensure_future(a.gather_candidates())
            await asyncio.sleep(0.05)
            self.assertFalse(gathering.done())
            await within(a.close(), 3)
            await within(gathering, 1)
        self.assertEqual(other_tasks(), set())


async def is_without_multicast(*sides: Connection) -> bool:
    """Waits until the peer's names are resolved, and returns whether none is."""
    await asyncio.gather(*(name for side in sides for name in side._remote.names))
    return not any(side.remote_candidates for side in sides)


class Delays(unittest.TestCase):
    @unittest.skipIf(aioice is None, "aioice is not installed (Debian's python3-aioice)")
    def test_a_name_that_nobody_resolves(self) -> None:
        """It delays a session at most 0.3 s, its socket included, and brings no import of aioice, which a busy machine makes long."""
        delay = 1.0
        for _ in range(5):  # the machine may be busy
            took, modules = session_took(f"{uuid.uuid4()}.local")
            self.assertEqual([module for module in modules if module.partition(".")[0] in ("aioice", "dns")], [])
            delay = min(delay, took - session_took("")[0])
            if delay <= 0.3 * PATIENCE:
                break
        self.assertLessEqual(delay, 0.3 * PATIENCE)


if __name__ == "__main__":
    unittest.main()
