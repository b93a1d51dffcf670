"""The awaitable connection: two of them over loopback, what each call raises, consent, limits."""

from __future__ import annotations

import asyncio
import socket
import time
import unittest
from collections.abc import Awaitable, Callable
from unittest import mock

import is_ice.connection
from is_ice import BadCandidate, IceAgent, IceConnectionState, SocketAddress
from is_ice._inbox import Inbox
from is_ice.attribute import CandidateAttribute
from is_ice.connection import Connection, ConnectionClosed, TransportPolicy
from is_ice.mdns import Mdns

from pairs import HIDDEN, NOBODY, PATIENCE, add_candidates, agent, check_soon, close, gather, introduced, join, nobody, talk, within
from test_stun import StunServer
from turn_server import TurnServer


class Sessions(unittest.IsolatedAsyncioTestCase):
    async def test_each_combination_of_roles(self) -> None:
        for roles in ((True, False), (False, True), (True, True), (False, False)):
            with self.subTest(roles=roles):
                a, b = agent(roles[0]), agent(roles[1])
                await join(a, b)
                self.assertNotEqual(a.ice_controlling, b.ice_controlling)
                await talk(a, b)
                await close(a, b)

    async def test_it_connects_within_a_pacing_interval(self) -> None:
        took = [1.0]
        while min(took) > 0.04 and len(took) < 10:  # the machine may be busy
            a, b = agent(True), agent(False)
            start = time.monotonic()
            await join(a, b)
            took.append(time.monotonic() - start)
            await close(a, b)
        check_soon(self, took)

    async def test_checks_before_the_remote_credentials_are_served_at_once(self) -> None:
        """The agent itself would serve one that it stored in each pacing interval."""
        took = [1.0]
        while min(took) > 0.04 and len(took) < 10:  # the machine may be busy
            a, b = await introduced()
            early = asyncio.ensure_future(a.connect())
            await asyncio.sleep(0.35)
            self.assertEqual((b.agent.stats.bind_request_recv, b.agent.state), (0, IceConnectionState.NEW))
            start = time.monotonic()
            await within(asyncio.gather(early, b.connect()), 2)
            took.append(time.monotonic() - start)
            self.assertGreater(b.agent.stats.bind_request_recv, 1)
            await close(a, b)
        check_soon(self, took)

    async def test_one_side_connects_earlier(self) -> None:
        for first in (0, 1):
            sides = agent(True), agent(False)
            await gather(*sides)
            await add_candidates(*sides)
            early = asyncio.ensure_future(sides[first].connect())
            await asyncio.sleep(0.2)
            await within(asyncio.gather(early, sides[1 - first].connect()), 2)
            await talk(*sides)
            await close(*sides)

    async def test_candidates_come_late(self) -> None:
        a, b = agent(True), agent(False)
        await gather(a, b)
        both = asyncio.gather(a.connect(), b.connect())
        await asyncio.sleep(0.2)
        await add_candidates(a, b)
        await within(both, 2)
        await talk(a, b)
        await close(a, b)

    async def test_one_side_has_no_candidates_of_the_other(self) -> None:
        a, b = agent(True), agent(False)
        await gather(a, b)
        for candidate in a.local_candidates:
            await b.add_remote_candidate(str(candidate))
        await within(asyncio.gather(a.connect(), b.connect()), 2)
        await talk(a, b)
        await close(a, b)

    async def test_chosen_credentials(self) -> None:
        a, b = agent(True), agent(False)
        a.local_username, a.local_password = "mine", "m" * 22
        await join(a, b)
        self.assertEqual((b.remote_username, b.remote_password), ("mine", "m" * 22))
        await close(a, b)

    async def test_a_lite_peer(self) -> None:
        a, b = agent(False), agent(False)
        b.agent.set_ice_lite(True)
        a.remote_is_lite = True
        await join(a, b)
        self.assertEqual((a.ice_controlling, b.ice_controlling), (True, False))
        await talk(a, b)
        await close(a, b)

    async def test_two_lite_agents(self) -> None:
        a, b = agent(True), agent(False)
        a.agent.set_ice_lite(True)
        a.remote_is_lite = True
        await gather(a, b)
        await add_candidates(a, b)
        with self.assertRaisesRegex(ConnectionError, "both agents are lite"):
            await a.connect()
        await close(a, b)

    async def test_a_lite_agent_that_made_the_offer(self) -> None:
        """The full agent is controlling (RFC 8445, section 6.1.1)."""
        a, b = agent(True), agent(False)
        a.agent.set_ice_lite(True)
        b.remote_is_lite = True
        await join(a, b)
        self.assertEqual((a.ice_controlling, b.ice_controlling), (False, True))
        await close(a, b)

    async def test_a_pair_without_checks(self) -> None:
        a, b = await introduced()
        self.assertRaises(ValueError, a.set_selected_pair, 1, "other", "other")
        for one in (a, b):
            one.set_selected_pair(1, one.local_candidates[0].foundation, one.remote_candidates[0].foundation)
        await talk(a, b)
        await close(a, b)


class Failures(unittest.IsolatedAsyncioTestCase):
    async def test_calls_in_the_wrong_order(self) -> None:
        self.assertRaises(ValueError, Connection, True, components=2)
        self.assertRaises(ValueError, Connection, True, transport_policy=TransportPolicy.RELAY)
        a = agent(True)
        calls: tuple[Callable[[], Awaitable[object]], ...] = (a.connect, a.recv, lambda: a.send(b""))
        for call in calls:
            with self.assertRaises(ConnectionError):
                await call()
        await a.gather_candidates()
        await a.gather_candidates()
        self.assertEqual(len(a.local_candidates), 1)
        with self.assertRaises(ConnectionError):
            await a.connect()  # without credentials
        await a.add_remote_candidate(None)
        with self.assertRaises(ValueError):
            await a.add_remote_candidate(NOBODY)
        a.remote_username, a.remote_password = "abcd", "p" * 22
        with self.assertRaises(ConnectionError):
            await within(a.connect(), 1)  # without candidates
        await a.close()
        await a.close()
        self.assertEqual((await a.get_event(), a.local_candidates, a.ice_controlling), (None, [], True))
        with self.assertRaises(ConnectionError):
            await a.connect()

    async def test_nobody_responds(self) -> None:
        a = agent(True)
        a.agent.set_max_stun_retransmits(1)
        a.agent.set_max_stun_rto(10_000_000)
        await a.gather_candidates()
        a.remote_username, a.remote_password = "abcd", "p" * 22
        await a.add_remote_candidate(NOBODY)
        await a.add_remote_candidate(None)
        with self.assertRaises(ConnectionError):
            await within(a.connect(), 5)  # all checks failed
        await a.close()

    async def test_the_end_of_candidates_comes_late(self) -> None:
        for line in (None, NOBODY):  # without a candidate, and after all checks of one failed
            a = agent(True)
            a.agent.set_max_stun_retransmits(1)
            a.agent.set_max_stun_rto(10_000_000)
            await a.gather_candidates()
            a.remote_username, a.remote_password = "abcd", "p" * 22
            if line:
                await a.add_remote_candidate(line)
            connecting = asyncio.ensure_future(a.connect())
            await asyncio.sleep(1)
            self.assertFalse(connecting.done())
            await a.add_remote_candidate(None)
            with self.assertRaises(ConnectionError):
                await within(connecting, 5)
            await a.close()

    async def test_connect_ends(self) -> None:
        for patience, after in ((0.2, 10.0), (30.0, 0.2)):  # by its time limit, and by `close`
            a = agent(False)
            await a.gather_candidates()
            a.remote_username, a.remote_password = "abcd", "p" * 22
            await a.add_remote_candidate(NOBODY)
            with mock.patch.object(is_ice.connection, "_PATIENCE", patience):
                connecting = asyncio.ensure_future(a.connect())
                await asyncio.wait({connecting}, timeout=after)
                await a.close()
                with self.assertRaises(ConnectionError):
                    await within(connecting, 1)

    async def test_malformed_candidates_are_left_out(self) -> None:
        a = agent(True)
        for line in ("1 2 udp 1 127.0.0.1 1 typ host", "1 1 udp 1 not.an.address 1 typ host", "1 1 udp 1 127.0.0.1 1 typ odd", "1 1 udp",
                     "1 x udp 1 127.0.0.1 1 typ host", "candidate:2 1 UDP 7 127.0.0.1 7 typ host generation 0 network-cost 999"):
            await a.add_remote_candidate(line)
        self.assertEqual([c.to_sdp() for c in a.remote_candidates], ["2 1 udp 7 127.0.0.1 7 typ host"])
        await a.close()

    async def test_consent_is_lost(self) -> None:
        a, b = agent(True), agent(False)
        await join(a, b)
        await b.close()
        a.agent.set_max_stun_retransmits(1)
        event, data = asyncio.ensure_future(a.get_event()), asyncio.ensure_future(a.recv())
        await asyncio.sleep(0)
        a._loop._start -= 20_000_000_000  # 20 s pass for the agent
        self.assertIsInstance(await within(event, 10), ConnectionClosed)
        with self.assertRaises(ConnectionError):
            await data
        with self.assertRaises(ConnectionError):
            await a.send(b"x")

    async def test_media_goes_where_the_agent_says(self) -> None:
        a, b = agent(True), agent(False)
        await join(a, b)
        here, there = (SocketAddress(side.local_candidates[0].host, side.local_candidates[0].port) for side in (a, b))
        for path in (None, (here, there), None):
            with mock.patch.object(IceAgent, "media_addresses", return_value=path):
                await a.send(b"%d" % bool(path))
        await a.send(b"1")
        for _ in range(2):
            self.assertEqual(await within(b.recv(), 1), b"1")
        await close(a, b)

    async def test_nothing_is_sent_without_consent(self) -> None:
        """The pair is removed, and a candidate that comes later keeps the agent from giving up."""
        a, b = agent(True), agent(False)
        await join(a, b)
        await b.close()
        a._loop._start -= 40_000_000_000  # 40 s pass for the agent
        a.agent.add_remote_candidate(NOBODY)
        a._loop.begin()
        self.assertEqual((a.agent.state, a.agent.media_addresses(a._loop.now())), (IceConnectionState.CHECKING, None))
        with mock.patch.object(a._loop, "send") as sent:
            await a.send(b"lost")
        sent.assert_not_called()
        await a.close()

    async def test_close_ends_what_other_tasks_wait_for(self) -> None:
        a, b = agent(True), agent(False)
        await join(a, b)
        event, *data = (asyncio.ensure_future(call) for call in (a.get_event(), a.recv(), a.recv()))
        await asyncio.sleep(0.01)
        await a.close()
        self.assertIsInstance(await within(event, 1), ConnectionClosed)
        for result in await asyncio.gather(*data, return_exceptions=True):
            self.assertIsInstance(result, ConnectionError)
        await b.close()


class Limits(unittest.IsolatedAsyncioTestCase):
    async def test_what_nobody_reads_is_at_most_a_mebibyte(self) -> None:
        """Before the connection, from anybody, as when a peer sends early media."""
        a, b = agent(True), agent(False)
        await gather(a, b)
        at = a.local_candidates[0].host, a.local_candidates[0].port
        with socket.socket(socket.AF_INET, socket.SOCK_DGRAM) as other:
            for count in range(60):
                other.sendto(bytes([128 + count]) * 60000, at)
                await asyncio.sleep(0.001)
        await asyncio.sleep(0.1)
        self.assertLessEqual(a._inbox._bytes, 1 << 20)
        arrived = len(a._inbox._waiting) + a.dropped_datagrams
        self.assertEqual(len(a._inbox._waiting), min(arrived, (1 << 20) // 60000))
        await add_candidates(a, b)
        await asyncio.gather(a.connect(), b.connect())
        first = await a.recv()  # the oldest of those that were kept
        self.assertEqual(first, first[:1] * 60000)
        self.assertGreaterEqual(first[0] - 128, a.dropped_datagrams)
        await close(a, b)
        self.assertEqual(a._inbox._bytes, 0)

    async def test_an_inbox(self) -> None:
        inbox = Inbox(100, 4)
        for size in (50, 40, 30):
            inbox.put(bytes(size))
        self.assertEqual((inbox.dropped, len(await inbox.get() or b"")), (1, 40))
        for count in range(9):
            inbox.put(bytes([count]))
        self.assertEqual((inbox.dropped, [await inbox.get() for _ in range(4)]), (7, [b"\5", b"\6", b"\7", b"\10"]))
        inbox.put(b"")
        self.assertEqual(await inbox.get(), b"")
        readers = [asyncio.ensure_future(inbox.get()) for _ in range(4)]
        await asyncio.sleep(0)
        readers[0].cancel()
        for data in (b"a", b"b"):
            inbox.put(data)
        await asyncio.sleep(0.01)
        self.assertEqual([reader.result() for reader in readers[1:3]], [b"a", b"b"])
        self.assertFalse(readers[3].done())
        inbox.put(b"lost")
        inbox.end()
        inbox.put(b"late")
        self.assertIsNone(await inbox.get())
        self.assertIn(await readers[3], (None, b"lost"))

    async def test_candidates_of_the_peer(self) -> None:
        for names in (False, True):
            with self.subTest(names=names), mock.patch.object(Mdns, "resolve", nobody):
                a = agent(True)
                await a.gather_candidates()
                text = HIDDEN if names else NOBODY.replace(" 9 ", " {port} ")
                start = time.process_time()
                for port in range(1, 8001):
                    await a.add_remote_candidate(text.format(port=port))
                self.assertLess(time.process_time() - start, 2 * PATIENCE)
                self.assertEqual((len(a._remote.names), len(a.remote_candidates)), (100, 0) if names else (0, 100))
                await a.close()

    async def test_the_text_of_a_candidate(self) -> None:
        a = agent(True)
        await a.gather_candidates()
        for length in (4096, 4097):
            await a.add_remote_candidate(NOBODY.replace(" 9 ", f" {length} ") + " " + "x" * (length - len(NOBODY) - 4))
        self.assertEqual([candidate.port for candidate in a.remote_candidates], [4096])
        await a.close()

    async def test_the_limit_is_a_setting(self) -> None:
        a = agent(True)
        a.max_candidates = 2
        await a.gather_candidates()
        for port in (1, 1, 1, 2, 3):  # a known one does not count
            await a.add_remote_candidate(NOBODY.replace(" 9 ", f" {port} "))
        self.assertEqual([candidate.port for candidate in a.remote_candidates], [1, 2])
        await a.close()

    async def test_local_candidates(self) -> None:
        server = StunServer()
        at = await server.start()
        addresses = [f"127.0.0.{number}" for number in range(1, 8)]
        a = Connection(True, addresses=addresses, stun_server=at[:2])
        a.max_candidates = 5
        await a.gather_candidates()
        self.assertEqual([candidate.host for candidate in a.local_candidates], addresses[:5])
        await a.close()
        server.close()

    async def test_a_relayed_candidate_has_room(self) -> None:
        server = TurnServer()
        await server.start()
        a = Connection(True, addresses=["127.0.0.1", "127.0.0.2", "127.0.0.3"], servers=[server.urls])
        a.max_candidates = 2
        await a.gather_candidates()
        self.assertEqual([candidate.type for candidate in a.local_candidates], ["host", "relay"])
        await a.close()
        server.close()


class Attributes(unittest.TestCase):
    def test_a_candidate_is_read_and_written(self) -> None:
        text = "1 1 udp 659136 1.2.3.4 31102 typ srflx raddr 10.0.0.1 rport 5"
        self.assertEqual(CandidateAttribute.from_sdp(text).to_sdp(), text)
        self.assertEqual(str(CandidateAttribute.from_sdp("candidate:" + text)), "candidate:" + text)
        self.assertEqual(CandidateAttribute.from_sdp(text + " generation 0 ufrag x network-cost 5").to_sdp(), text)
        self.assertEqual(CandidateAttribute("1", 1, "udp", 5, "1.2.3.4", 9, "host", generation=0).to_sdp(),
                         "1 1 udp 5 1.2.3.4 9 typ host generation 0")
        for malformed in ("", "1 1 udp 1 1.2.3.4 1 typ", "1 x udp 1 1.2.3.4 1 typ host"):
            self.assertRaises(ValueError, CandidateAttribute.from_sdp, malformed)
            self.assertRaises(BadCandidate, CandidateAttribute.from_sdp, malformed)


if __name__ == "__main__":
    unittest.main()
