"""The loop over UDP sockets: handlers that raise or close, early checks, STUN of servers, sockets of the caller."""

from __future__ import annotations

import asyncio
import itertools
import os
import socket
import time
import tracemalloc
import unittest
from pathlib import Path
from unittest import mock

from is_ice import Candidate, IceAgent, IceCreds, NominatedSend, OutOfMemory, Settings, SocketAddress
from is_ice.demux import PacketKind, is_stun, packet_kind
from is_ice.loop import IceLoop
from is_ice.stun import StunClass, StunMethod, write_message

from pairs import check_soon, until, within

COOKIE = bytes.fromhex("2112a442")
BINDING_RESPONSE = b"\x01\x01\0\0" + COOKIE + bytes(12)  # without MESSAGE-INTEGRITY
ALLOCATE_ERROR = b"\x01\x13\0\0" + COOKIE + bytes(12)
BINDING_REQUEST = b"\x00\x01\0\0" + COOKIE + bytes(12)


def nothing(*_: object) -> None:
    """A handler."""


class Side:
    """An agent with its loop, and what it reported."""

    def __init__(self, controlling: bool) -> None:
        self.path: asyncio.Future[NominatedSend] = asyncio.get_running_loop().create_future()
        self.media: list[bytes] = []
        self.stun: list[tuple[SocketAddress, SocketAddress, bytes]] = []
        self.agent = IceAgent()
        self.agent.set_controlling(controlling)
        self.loop = IceLoop(self.agent, self.note, lambda *told: self.media.append(told[2]),
                            lambda source, local, data: self.stun.append((source, local, data)))

    def note(self, event: object) -> None:
        if isinstance(event, NominatedSend) and not self.path.done():
            self.path.set_result(event)


def signal(a: Side, b: Side) -> None:
    for one, other in ((a, b), (b, a)):
        one.agent.set_remote_credentials(other.agent.local_credentials)
        for line in other.agent.local_candidates():
            one.agent.add_remote_candidate(line)


async def two_sides(known: bool = True) -> tuple[Side, Side]:
    sides = Side(True), Side(False)
    for side in sides:
        await side.loop.bind("127.0.0.1")
    if known:
        signal(*sides)
    return sides


def local_of(side: Side) -> SocketAddress:
    words = side.agent.local_candidates()[0].split()
    return SocketAddress(words[4], int(words[5]))


class Handlers(unittest.IsolatedAsyncioTestCase):
    async def test_a_handler_that_raises_does_not_stop_the_session(self) -> None:
        errors: list[BaseException] = []
        asyncio.get_running_loop().set_exception_handler(lambda _, context: errors.append(context["exception"]))

        def fail(_: object) -> None:
            raise RuntimeError("in a handler")

        agent = IceAgent()
        loop = IceLoop(agent, fail, nothing)
        await loop.bind("127.0.0.1")
        agent.add_remote_candidate("candidate:1 1 udp 5 127.0.0.1 9 typ host")
        agent.set_remote_credentials(IceCreds("abcd", "p" * 22))
        loop.begin()
        await asyncio.sleep(0.5)
        self.assertGreaterEqual(agent.stats.bind_request_sent, 2)
        self.assertGreaterEqual(len(errors), 2)  # the event after the one that failed came too
        loop.close()

    async def test_a_handler_may_close_the_loop_and_the_agent(self) -> None:
        for begun in (True, False):  # by the first event, and by a datagram
            with self.subTest(begun=begun):
                agent = IceAgent()
                calls: list[object] = []

                def end(*event: object) -> None:
                    calls.append(event)
                    agent.close()

                loop = IceLoop(agent, end if begun else nothing, nothing, end)
                await loop.bind("127.0.0.1")
                loop.begin()
                if not begun:
                    loop.receive(SocketAddress("127.0.0.1", 9), SocketAddress("127.0.0.1", 10), BINDING_RESPONSE)
                    loop.receive(SocketAddress("127.0.0.1", 9), SocketAddress("127.0.0.1", 10), BINDING_RESPONSE)
                await asyncio.sleep(0.1)
                self.assertEqual(len(calls), 1)
                loop.close()

    async def test_a_closed_loop_begins_nothing(self) -> None:
        side = Side(True)
        await side.loop.bind("127.0.0.1")
        side.loop.close()
        side.loop.begin()
        side.loop.receive(SocketAddress("127.0.0.1", 9), SocketAddress("127.0.0.1", 10), b"media")
        self.assertEqual((str(side.agent.state), side.media), ("State.New", []))

    async def test_a_timeout_that_fails_is_repeated_later(self) -> None:
        for begun in (False, True):
            with self.subTest(begun=begun):
                a, b = await two_sides()
                if begun:
                    a.loop.begin()
                with mock.patch.object(a.agent, "handle_timeout", side_effect=OutOfMemory) as failed:
                    if not begun:
                        a.loop.begin()
                    await asyncio.sleep(0.32)
                self.assertIn(failed.call_count, range(2, 9))
                b.loop.begin()
                await within(asyncio.gather(a.path, b.path), 2)
                a.loop.close()
                b.loop.close()


class Datagrams(unittest.IsolatedAsyncioTestCase):
    async def test_checks_of_a_known_peer_get_responses_before_the_session(self) -> None:
        a, b = await two_sides()
        a.loop.begin()
        await within(a.path, 1)
        self.assertGreater(b.agent.stats.bind_request_recv, 0)
        b.loop.begin()
        await within(b.path, 0.5)
        a.loop.close()
        b.loop.close()

    async def test_a_check_from_port_0_does_not_end_the_loop(self) -> None:
        """A datagram may have the source port 0 (RFC 768). A response cannot be sent there."""
        a, b = await two_sides()
        for side in (a, b):
            side.agent.handle_timeout(side.loop.now())
        request = a.agent.poll_transmit()
        assert request is not None
        b.loop.begin()
        b.loop.receive(SocketAddress("127.0.0.1", 0), local_of(b), request.contents)
        a.loop.begin()
        await within(asyncio.gather(a.path, b.path), 2)
        a.loop.close()
        b.loop.close()

    async def test_the_agent_stores_checks_until_it_knows_the_peer(self) -> None:
        for settings, begins_first in itertools.product((Settings.modern(), Settings.original()), (False, True)):
            a, b = await two_sides(known=False)
            b.agent.set_settings(settings)
            a.agent.set_remote_credentials(b.agent.local_credentials)
            a.agent.add_remote_candidate(b.agent.local_candidates()[0])
            a.agent.handle_timeout(a.loop.now())
            request = a.agent.poll_transmit()
            assert request is not None
            for port in range(1000, 1020):
                b.loop.receive(SocketAddress("127.0.0.1", port), local_of(b), request.contents)
            if begins_first:
                b.loop.begin()
            self.assertEqual((b.agent.early_requests, b.agent.stats.bind_request_recv), (20, 0))
            b.agent.set_remote_credentials(a.agent.local_credentials)
            b.loop.wake()
            if not begins_first:
                b.loop.begin()
            await until(lambda: not b.agent.early_requests, 2)
            with self.subTest(settings=settings, begins_first=begins_first):
                self.assertEqual((b.agent.early_requests, b.agent.stats.bind_request_recv), (0, 20))
            a.loop.close()
            b.loop.close()

    async def test_checks_are_not_sent_more_often_than_every_5_ms(self) -> None:
        """Whatever arrives: here each response, and a call after each check."""
        a, b = await two_sides()
        for port in range(30000, 30040):
            a.agent.add_remote_candidate(f"candidate:1 1 udp 5 127.0.0.1 {port} typ host")
        times: list[int] = []
        timed_out = a.agent.handle_timeout

        def note(now: int) -> None:
            times.append(now)
            timed_out(now)
            a.loop.wake()

        with mock.patch.object(a.agent, "handle_timeout", note):
            a.loop.begin()
            b.loop.begin()
            await asyncio.sleep(0.2)
        self.assertGreater(len(times), 2)
        least = min(later - earlier for earlier, later in zip(times, times[1:]))
        self.assertGreaterEqual(least, 4_999_000)  # the clock of asyncio is a float
        a.loop.close()
        b.loop.close()

    async def test_early_requests_of_strangers_are_not_kept(self) -> None:
        a, b = await two_sides()
        a.agent.handle_timeout(a.loop.now())
        request = a.agent.poll_transmit()
        assert request is not None
        source, local = SocketAddress("127.0.0.1", 9), local_of(b)
        forged = request.contents[:-10] + bytes(10)
        for message in (BINDING_REQUEST, forged, bytearray(request.contents), request.contents):
            b.loop.receive(source, local, message)
        self.assertEqual(b.stun, [(source, local, BINDING_REQUEST), (source, local, forged)])
        b.loop.begin()
        self.assertEqual((len(b.stun), b.agent.stats.bind_request_recv), (2, 2))
        a.loop.close()
        b.loop.close()

    async def test_responses_of_servers_are_reported_before_and_after_the_start(self) -> None:
        side = Side(False)
        await side.loop.bind("127.0.0.1")
        with socket.socket(socket.AF_INET, socket.SOCK_DGRAM) as server:
            server.bind(("127.0.0.1", 0))
            for begun in (False, True):
                if begun:
                    side.loop.begin()
                for message in (BINDING_RESPONSE, ALLOCATE_ERROR, b"\x80 media"):
                    server.sendto(message, local_of(side)[:2])
                await asyncio.sleep(0.05)
            source = SocketAddress(*server.getsockname())
        self.assertEqual(side.stun, [(source, local_of(side), BINDING_RESPONSE), (source, local_of(side), ALLOCATE_ERROR)] * 2)
        self.assertEqual(side.media, [b"\x80 media"] * 2)
        side.loop.close()

    async def test_sockets_of_the_caller(self) -> None:
        sides = {SocketAddress("10.0.0.1", 1): Side(True), SocketAddress("10.0.0.2", 2): Side(False)}
        closed: list[SocketAddress] = []
        for local, side in sides.items():
            def send(destination: SocketAddress, data: bytes, local: SocketAddress = local) -> None:
                asyncio.get_running_loop().call_soon(sides[destination].loop.receive, local, destination, data)

            side.loop.add_socket(local, send, lambda local=local: closed.append(local))  # type: ignore[misc]
            side.agent.add_local_candidate(Candidate.host(local))
        a, b = sides.values()
        signal(a, b)
        a.loop.begin()
        b.loop.begin()
        self.assertEqual((await within(a.path, 1)).destination, (await within(b.path, 1)).source)
        a.loop.close()
        b.loop.close()
        self.assertEqual(closed, list(sides))

    async def test_both_sides_have_a_path_within_a_pacing_interval(self) -> None:
        took = [1.0]
        while min(took) > 0.04 and len(took) < 10:  # the machine may be busy
            a, b = await two_sides()
            start = time.monotonic()
            a.loop.begin()
            b.loop.begin()
            await within(asyncio.gather(a.path, b.path), 2)
            took.append(time.monotonic() - start)
            a.loop.close()
            b.loop.close()
        check_soon(self, took)

    async def test_a_burst_has_room(self) -> None:
        most = Path("/proc/sys/net/core/rmem_max")
        if not most.exists() or int(most.read_text()) < 212992:
            self.skipTest("the system limits receive buffers")
        side = Side(True)
        await side.loop.bind("127.0.0.1")
        with socket.socket(socket.AF_INET, socket.SOCK_DGRAM) as other:
            for _ in range(150):
                other.sendto(b"\x80" * 1200, local_of(side)[:2])
        await asyncio.sleep(0.3)
        self.assertEqual(len(side.media), 150)
        side.loop.close()


def receive_from(side: Side, local: SocketAddress, first: int, forged: bytes) -> float:
    """Passes on datagrams of 1,000 addresses. Returns the seconds of the processor that they took."""
    start = time.process_time()
    for number in range(first, first + 1000):
        source = SocketAddress(f"20.0.{number >> 8}.{number & 255}", 1024 + number)
        side.loop.receive(source, local, forged if number % 2 else BINDING_REQUEST)
    return time.process_time() - start


class Many(unittest.IsolatedAsyncioTestCase):
    async def test_requests_of_strangers_cost_no_memory_and_no_more_time(self) -> None:
        """From 39,000 addresses: every second one has no MESSAGE-INTEGRITY, the others one under a wrong password."""
        side = Side(False)
        side.loop = IceLoop(side.agent, side.note, nothing, nothing)
        local = await side.loop.open("127.0.0.1")
        side.agent.add_local_candidate(Candidate.host(local))
        side.agent.set_remote_credentials(IceCreds("abcd", "p" * 22))
        forged = write_message(StunMethod.BINDING, StunClass.REQUEST, bytes(12), username=f"{side.agent.local_credentials.ufrag}:abcd",
                               priority=1, ice_controlling=1, key=b"a wrong password")
        side.loop.begin()
        tracemalloc.start()
        self.addCleanup(tracemalloc.stop)
        took = [receive_from(side, local, first, forged) for first in range(0, 34000, 1000)]
        most = tracemalloc.get_traced_memory()[1]  # the module keeps at most 16,384 addresses of each of the two
        took += [receive_from(side, local, first, forged) for first in range(34000, 39000, 1000)]
        self.assertLess(tracemalloc.get_traced_memory()[1] - most, 1 << 18)
        self.assertLess(min(took[-5:]), 3 * min(took[:5]))
        self.assertEqual((side.agent.remote_candidates(), side.agent.pairs, side.agent.stats.bind_request_recv), ([], [], 0))
        side.loop.close()

    async def test_many_sessions_in_one_loop(self) -> None:
        open_files = len(os.listdir("/proc/self/fd"))
        pairs = [await two_sides() for _ in range(50)]
        sides = [side for pair in pairs for side in pair]
        for side in sides:
            side.loop.begin()
        paths = await within(asyncio.gather(*(side.path for side in sides)), 10)
        for a, b in zip(paths[::2], paths[1::2]):
            self.assertEqual((a.source, a.destination), (b.destination, b.source))
        for side in sides:
            side.loop.close()
            side.agent.close()
        await asyncio.sleep(0.05)  # asyncio closes the sockets
        self.assertEqual(asyncio.all_tasks() - {asyncio.current_task()}, set())
        self.assertLessEqual(len(os.listdir("/proc/self/fd")), open_files)


class Demultiplexing(unittest.TestCase):
    def test_each_range_of_rfc_7983(self) -> None:
        ends = {PacketKind.STUN: (0, 3), PacketKind.ZRTP: (16, 19), PacketKind.DTLS: (20, 63), PacketKind.TURN_CHANNEL: (64, 79),
                PacketKind.RTP: (128, 191)}
        for kind, (first, last) in ends.items():
            self.assertEqual([packet_kind(bytes([byte])) for byte in (first, last)], [kind, kind])
        for byte in (4, 15, 80, 127, 192, 255):
            self.assertEqual(packet_kind(bytes([byte])), PacketKind.OTHER)
        self.assertEqual(packet_kind(b""), PacketKind.OTHER)

    def test_what_begins_as_a_stun_message(self) -> None:
        self.assertTrue(is_stun(BINDING_REQUEST))
        for other in (b"", b"\x01", BINDING_REQUEST[:19], b"\x00\x01\x00\x00" + bytes(40), b"\x80" + BINDING_REQUEST[1:]):
            self.assertFalse(is_stun(other), other)


if __name__ == "__main__":
    unittest.main()
