"""Gathering of candidates for a connection: from STUN and TURN servers, and at interfaces."""

from __future__ import annotations

import asyncio
import random
import time
import unittest
from typing import Any
from unittest import mock

import is_ice._local
from is_ice import BadUrl, GatheringComplete, IceAgent, IceServer, ServerEnded, SocketAddress
from is_ice.connection import TransportPolicy
from is_ice.gather import ServerUnreachable
from is_ice.interfaces import host_addresses
from is_ice.loop import IceLoop

from pairs import NOBODY, PATIENCE, agent, close, gather, join, other_tasks, talk, until, within
from simulated import run
from test_stun import SEEN, StunServer
from turn_server import PASSWORD, USER, TcpTurnServer, TurnServer

RELAY = TransportPolicy.RELAY


async def started(**more: Any) -> TurnServer:
    server = TurnServer(**more)
    await server.start()
    return server


class FromStunServers(unittest.IsolatedAsyncioTestCase):
    async def test_a_stun_server(self) -> None:
        server = StunServer()
        at = await server.start()
        ways: list[dict[str, Any]] = [
            {"stun_server": at[:2]}, {"servers": [{"urls": f"stun:{at}"}]}, {"servers": [IceServer(f"stun:localhost:{at.port}")]}]
        for policy, kinds in ((TransportPolicy.ALL, ["host", "srflx"]), (RELAY, ["srflx"])):
            for more in ways:
                a = agent(True, transport_policy=policy, **more)
                await a.gather_candidates()
                self.assertEqual([c.type for c in a.local_candidates], kinds)
                self.assertEqual((a.local_candidates[-1].host, a.local_candidates[-1].port), SEEN[:2])
                await a.close()
        server.close()

    async def test_a_stun_server_that_does_not_respond(self) -> None:
        with mock.patch.object(is_ice._local, "_PATIENCE", 0.1):
            for server in (("127.0.0.1", 9), ("no.such.host.invalid", 3478), ("a..b", 3478)):
                a = agent(True, stun_server=server)
                await a.gather_candidates()
                self.assertEqual([c.type for c in a.local_candidates], ["host"])
                await a.close()

    async def test_a_server_that_responds_late(self) -> None:
        server = await started()
        server.lets = lambda data: False
        a, late = agent(True, servers=[server.urls]), list[Any]()
        a.on_candidate = late.append
        with mock.patch.object(is_ice._local, "_PATIENCE", 0.1):
            await a.gather_candidates()
        self.assertEqual(([c.type for c in a.local_candidates], late), (["host"], []))
        server.lets = lambda data: True
        await until(lambda: bool(late))
        self.assertEqual(([c.type for c in late], a.local_candidates[1:]), (["relay"], late))
        await a.close()
        server.close()

    async def test_a_name_that_is_not_resolved(self) -> None:
        told: list[Any] = []
        servers = [{"urls": ["turn:no.such.host.invalid", "turn:localhost:9"], "username": "u" * 509}]
        loop = IceLoop(IceAgent(), print, print, servers=servers, on_gathering=told.append)
        await loop.bind("127.0.0.1")
        await within(loop.gather(), 12)
        self.assertEqual([type(event) for event in told], [ServerUnreachable, ServerUnreachable, GatheringComplete])
        self.assertRegex(loop.tried(), "server turn:no.such.host.invalid:3478: the name is not resolved")
        self.assertRegex(loop.tried(), "server turn:localhost:9: ICE credentials too long")
        loop.close()
        await loop.wait_closed()

    def test_what_no_server_is(self) -> None:
        for bad in ("http://example.org", "turn:", "turns:example.org?transport=udp"):
            self.assertRaises(BadUrl, agent, True, servers=[{"urls": bad}])
        self.assertRaises(ValueError, agent, True, turn_server=("127.0.0.1", 9), turn_transport="sctp")
        self.assertRaises(ValueError, agent, True, transport_policy=RELAY)


class FromTurnServers(unittest.IsolatedAsyncioTestCase):
    async def test_relayed_candidates(self) -> None:
        for controlling in (True, False):
            server = TurnServer()
            more = {"turn_server": await server.start(), "turn_username": USER, "turn_password": PASSWORD, "transport_policy": RELAY}
            a, b = agent(controlling, **more), agent(not controlling, **more)
            await within(join(a, b), 5)
            self.assertEqual([c.type for c in a.local_candidates], ["relay"])
            await talk(a, b)
            for length in (65505, 70000):  # with what is around it at the server, more than UDP carries, and more than a message
                await a.send(bytes([128]) * length)
            self.assertEqual([failed.times for failed in a.agent.failed_sends()], [2])
            await close(a, b)
            self.assertEqual((server.strict.freed, server.strict.allocations), (2, {}))
            server.close()

    async def test_an_allocation_that_is_lost(self) -> None:
        server = await started()
        a = agent(True, servers=[server.urls], transport_policy=RELAY)
        await a.gather_candidates()
        self.assertEqual(len(a.local_candidates), 1)
        server.strict.forget()
        a._loop.probe()
        await until(lambda: not a.local_candidates)
        self.assertRegex(a._loop.tried(), "servers: server .* lost, 437")
        await within(a._loop.gather(), 5)
        self.assertEqual(len(a.local_candidates), 1)
        await a.close()
        server.close()

    async def test_a_peer_behind_a_symmetric_nat_reaches_a_relayed_candidate(self) -> None:
        server = await started()
        a, b = agent(True, servers=[server.urls], transport_policy=RELAY), agent(False)
        await gather(a, b)
        port = b.local_candidates[0].port
        await a.add_remote_candidate(f"candidate:1 1 udp 2130706175 127.0.0.1 {port ^ 1} typ host")  # not the port that b sends from
        await b.add_remote_candidate(a.local_candidates[0])
        for one in (a, b):
            await one.add_remote_candidate(None)
        await within(asyncio.gather(a.connect(), b.connect()), 5)
        await talk(a, b)
        await close(a, b)
        server.close()

    async def test_loss(self) -> None:
        server, chance = await started(), random.Random(1)
        server.lets = lambda data: chance.random() > 0.2
        more = {"servers": [server.urls], "transport_policy": RELAY}
        a, b = agent(True, **more), agent(False, **more)
        await within(join(a, b), 15)
        for count in range(100):
            await a.send(b"%d" % count)
            await asyncio.sleep(0.002)
        await until(lambda: len(b._inbox._waiting) > 60)
        await close(a, b)
        server.close()

    async def test_a_wrong_password_is_named_within_2_s(self) -> None:
        server = await started()
        a = agent(True, servers=[{**server.urls, "credential": "wrong"}], transport_policy=RELAY)
        start = time.monotonic()
        await a.gather_candidates()
        a.remote_username, a.remote_password = "abcd", "p" * 22
        await a.add_remote_candidate(NOBODY)
        with self.assertRaisesRegex(ConnectionError, "no local candidates.* unverified 401"):
            await a.connect()
        self.assertLess(time.monotonic() - start, 2 * PATIENCE)
        await a.close()
        server.close()

    async def test_a_refused_peer(self) -> None:
        """The error says so, and nothing waits for the server."""
        server = await started()
        server.strict.refused.add("127.0.0.1")
        a = agent(True, servers=[server.urls], transport_policy=RELAY)
        a.agent.set_max_stun_retransmits(1)
        await a.gather_candidates()
        a.remote_username, a.remote_password = "abcd", "p" * 22
        await a.add_remote_candidate(NOBODY)
        await a.add_remote_candidate(None)
        tasks = len(other_tasks())
        connecting = asyncio.ensure_future(a.connect())
        await until(lambda: "403" in a._loop.tried())
        relayed = SocketAddress(a.local_candidates[0].host, a.local_candidates[0].port)
        for _ in range(1500):
            a._loop.send(relayed, SocketAddress("127.0.0.1", 9), b"\x80" * 100)
        self.assertLessEqual(len(other_tasks()), tasks + 2)
        with self.assertRaisesRegex(ConnectionError, "servers: server .*403"):
            await within(connecting, 10)
        await a.close()
        server.close()

    async def test_what_is_no_frame_ends_a_connection(self) -> None:
        for answer in (b"\xff\xff\0\0", b""):
            async def serve(reader: asyncio.StreamReader, writer: asyncio.StreamWriter) -> None:
                await reader.read(100)
                writer.write(answer)
                if not answer:
                    writer.close()

            listening = await asyncio.start_server(serve, "127.0.0.1", 0)
            port = listening.sockets[0].getsockname()[1]
            told: list[Any] = []
            loop = IceLoop(IceAgent(), print, print, servers=[{"urls": f"turn:127.0.0.1:{port}?transport=tcp", "username": "u"}],
                           on_gathering=told.append)
            await loop.bind("127.0.0.1")
            await within(loop.gather(), 5)
            self.assertEqual([type(event) for event in told[:1]], [ServerEnded])
            loop.close()
            await loop.wait_closed()
            listening.close()

    async def test_a_redirection_over_tcp(self) -> None:
        """A 300 names another server: the client goes on there, over another connection (RFC 8489, section 10)."""
        other = TcpTurnServer()
        first = TcpTurnServer(alternate=await other.start())
        host, port = await first.start()
        server = {"urls": f"turn:{host}:{port}?transport=tcp", "username": USER, "credential": PASSWORD}
        a, b = agent(True, servers=[server], transport_policy=RELAY), agent(False)
        await join(a, b)
        await talk(a, b)
        self.assertEqual((first.frames, len(other.strict.allocations), len(first.strict.allocations)), (1, 1, 0))
        await close(a, b)
        self.assertEqual(other.strict.freed, 1)
        first.close()
        other.close()

    async def test_a_redirection_over_tcp_to_nobody(self) -> None:
        """The client fails as soon as there is no connection."""
        first = TcpTurnServer(alternate=("127.0.0.1", 9))
        host, port = await first.start()
        told: list[Any] = []
        loop = IceLoop(IceAgent(), print, print, servers=[{"urls": f"turn:{host}:{port}?transport=tcp", "username": "u"}],
                       on_gathering=told.append)
        await loop.bind("127.0.0.1")
        await within(loop.gather(), 2)
        self.assertEqual([type(event) for event in told], [ServerUnreachable, ServerEnded, GatheringComplete])
        loop.close()
        await loop.wait_closed()
        first.close()


class ForLong(unittest.TestCase):
    """In simulated time, at a server whose permissions last 300 s."""

    def test_data_comes_in_after_301_s(self) -> None:
        """One side is behind a relay, and only the other one sends."""
        async def play() -> tuple[int, int]:
            server = await started()
            a, b = agent(True, servers=[server.urls], transport_policy=RELAY), agent(False)
            await join(a, b)
            heard, dropped = 0, len(server.strict.dropped)  # of checks before there was a permission
            for _ in range(700):
                await b.send(b"\x80data")
                await asyncio.sleep(0.5)
                heard += len(a._inbox._waiting)
                a._inbox._waiting.clear()
            await close(a, b)
            server.close()
            return heard, len(server.strict.dropped) - dropped

        (heard, dropped), _ = run(play())
        self.assertEqual((heard, dropped), (700, 0))

    def test_two_relays_for_15_minutes(self) -> None:
        async def play() -> int:
            server = await started()
            more = {"servers": [server.urls], "transport_policy": RELAY}
            a, b = agent(True, **more), agent(False, **more)
            await join(a, b)
            for _ in range(450):
                for one, other in ((a, b), (b, a)):
                    await one.send(b"\x80data")
                    assert await asyncio.wait_for(other.recv(), 1) == b"\x80data"
                await asyncio.sleep(2)
            await close(a, b)
            server.close()
            return server.strict.stale_nonces

        stale, _ = run(play())
        self.assertGreater(stale, 5)


class AtInterfaces(unittest.TestCase):
    def test_addresses_of_interfaces(self) -> None:
        for address in host_addresses():
            self.assertNotIn(address, ("127.0.0.1", "::1"))
            self.assertFalse(address.startswith("fe80"))
        self.assertFalse([a for a in host_addresses(use_ipv4=False) if SocketAddress(a, 1).version == 4])
        self.assertFalse([a for a in host_addresses(use_ipv6=False) if SocketAddress(a, 1).version == 6])


if __name__ == "__main__":
    unittest.main()
