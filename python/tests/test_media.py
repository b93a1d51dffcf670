"""Where media goes and from where it is taken, also across an ICE restart; silence; datagrams that the system does not send."""

from __future__ import annotations

import asyncio
import errno
import unittest
from unittest import mock

from is_ice import FailedSend, Heard, IceAgent, IceCreds, MediaPath, Protocol, Silent, SocketAddress

from pairs import agent, close, join, within
from test_agent import BEGINNING, HERE, SECOND, THERE, play, turn, two_agents
from test_loop import Side, local_of, signal

PATH = MediaPath(HERE, THERE, Protocol.UDP)
NEVER = SocketAddress("10.0.0.9", 9)


def introduce(agents: tuple[IceAgent, IceAgent]) -> None:
    """Both learn the other one's credentials and candidates again."""
    for one, other in (agents, agents[::-1]):
        one.set_remote_credentials(other.local_credentials)
        for line in other.local_candidates():
            one.add_remote_candidate(line)


def events_of(one: IceAgent) -> list[object]:
    """Polls all events."""
    polled: list[object] = []
    while event := one.poll_event():
        polled.append(event)
    return polled


class Paths(unittest.TestCase):
    def test_a_path_is_that_of_a_valid_pair_and_then_the_selected_one(self) -> None:
        a, b = two_agents()
        self.assertEqual((b.media_path(BEGINNING), b.media_addresses(BEGINNING), b.takes_media_from(BEGINNING, HERE)), (None, None, False))
        b.handle_timeout(BEGINNING)
        for one, other in ((b, a), (a, b)):
            packet = one.poll_transmit()
            assert packet is not None
            other.handle_packet(BEGINNING, packet.source, packet.destination, packet.contents)
        self.assertIsNone(b.nominated_pair)
        self.assertEqual(b.media_path(BEGINNING), MediaPath(THERE, HERE, Protocol.UDP))
        self.assertTrue(b.takes_media_from(BEGINNING, HERE))
        play((a, b))
        now = BEGINNING + SECOND
        self.assertEqual((a.media_path(now), a.media_addresses(now)), (PATH, (HERE, THERE)))
        self.assertEqual((a.takes_media_from(now, THERE), a.takes_media_from(now, NEVER)), (True, False))

    def test_a_restart_keeps_the_path_until_another_one_is_selected(self) -> None:
        a, b = two_agents()
        play((a, b))
        now = BEGINNING + SECOND
        a.ice_restart(IceCreds("CCCC", "R" * 22), True)
        self.assertIsNone(a.nominated_pair)
        self.assertEqual((a.media_path(now), a.media_addresses(now), a.takes_media_from(now, THERE)), (PATH, (HERE, THERE), True))
        a.ice_restart(IceCreds("DDDD", "S" * 22), False)  # before the peer knows of the first one
        self.assertEqual(a.media_path(now), PATH)
        self.assertTrue(b.takes_media_from(now, HERE))

    def test_media_goes_on_all_through_a_restart(self) -> None:
        agents = a, b = two_agents()
        play(agents)
        for one, creds in zip(agents, (IceCreds("CCCC", "R" * 22), IceCreds("DDDD", "S" * 22))):
            one.ice_restart(creds, True)
        introduce(agents)
        for count in range(20):
            now = BEGINNING + SECOND + count * SECOND // 20
            self.assertEqual((a.media_path(now), a.takes_media_from(now, THERE), b.takes_media_from(now, HERE)), (PATH, True, True))
            turn(agents, now)
        self.assertIsNotNone(a.nominated_pair)

    def test_after_a_restart_the_path_ends_with_consent(self) -> None:
        a, b = two_agents()
        play((a, b))
        a.ice_restart(IceCreds("CCCC", "R" * 22), True)
        ends = next(s for s in range(600) if a.media_path(BEGINNING + s * SECOND // 10) is None) / 10
        kept = (a.settings.max_rto + a.ice_timeout) / SECOND
        self.assertTrue(kept - 0.6 < ends <= kept + 0.5, ends)
        self.assertFalse(a.takes_media_from(BEGINNING + (round(kept) + 10) * SECOND, THERE))


class Silence(unittest.TestCase):
    def silent(self, nanoseconds: int | None, seconds: float, tenths: int = 40) -> list[object]:
        """Plays so long without a packet, and returns what an agent reports of that, and then of the packets that come again."""
        agents = a, _ = two_agents()
        play(agents)
        if nanoseconds != 5 * SECOND:
            a.set_silence(nanoseconds)
        begun = BEGINNING + SECOND
        for tenth in range(round(10 * seconds)):
            for one in agents:
                one.handle_timeout(begun + tenth * SECOND // 10)
                while one.poll_transmit():
                    pass
        found = events_of(a)
        for tenth in range(tenths):
            turn(agents, begun + round(seconds * SECOND) + tenth * SECOND // 10)
        return [event for event in found + events_of(a) if isinstance(event, (Silent, Heard))]

    def test_a_silent_path_is_reported_and_that_it_is_heard_again(self) -> None:
        path = Protocol.UDP, HERE, THERE
        self.assertEqual(self.silent(5 * SECOND, 6), [Silent(*path), Heard(*path)])
        self.assertEqual(self.silent(5 * SECOND, 4), [])
        self.assertEqual(self.silent(SECOND, 2, 5), [Silent(*path), Heard(*path)])
        self.assertEqual(self.silent(None, 20), [])

    def test_since_when_it_is_silent(self) -> None:
        agents = a, _ = two_agents()
        self.assertIsNone(a.silent_since)
        play(agents)
        a.handle_timeout(BEGINNING + 8 * SECOND)
        since = a.silent_since
        assert since is not None
        self.assertTrue(BEGINNING <= since <= BEGINNING + SECOND, since)


class FailedSends(unittest.IsolatedAsyncioTestCase):
    def test_they_are_listed(self) -> None:
        a = IceAgent()
        self.assertEqual(a.failed_sends(), [])
        for number in (errno.ENETUNREACH, errno.ENETUNREACH, errno.EPERM):
            a.send_failed(HERE, THERE, number)
        self.assertEqual(a.failed_sends(), [FailedSend(PATH, errno.ENETUNREACH, 2), FailedSend(PATH, errno.EPERM, 1)])
        self.assertEqual(str(a.failed_sends()[0]), "10.0.0.1:1000 -> 10.0.0.2:2000: Network is unreachable, 2 times")

    async def test_a_loop_reports_each_one_and_goes_on(self) -> None:
        a, b = Side(True), Side(False)
        failed: list[tuple[SocketAddress, SocketAddress, OSError]] = []
        a.loop._on_failed_send = lambda source, destination, error: failed.append((source, destination, error))
        for side in (a, b):
            await side.loop.bind("127.0.0.1")
        signal(a, b)
        a.agent.add_remote_candidate("candidate:1 1 udp 5 255.255.255.254 9 typ host")
        with self.assertLogs("is_ice.loop", "INFO") as logged:
            a.loop.begin()
            b.loop.begin()
            await within(asyncio.gather(a.path, b.path), 2)
            for _ in range(3):
                a.loop.send(local_of(a), local_of(b), bytes(70000))  # longer than a datagram can be
        self.assertEqual([(told[:2], told[2].errno) for told in failed[-3:]], [((local_of(a), local_of(b)), errno.EMSGSIZE)] * 3)
        listed = [it for it in a.agent.failed_sends() if it.reason == errno.EMSGSIZE]
        self.assertEqual(listed, [FailedSend(MediaPath(local_of(a), local_of(b), Protocol.UDP), errno.EMSGSIZE, 3)])
        lines = [record.getMessage() for record in logged.records if "Message too long" in record.getMessage()]
        self.assertEqual(lines, [f"{a.agent.local_credentials.ufrag}: not sent {local_of(a)} -> {local_of(b)}: Message too long, 1 times"])
        for side in (a, b):
            side.loop.close()

    async def test_a_socket_of_the_caller_may_fail(self) -> None:
        side = Side(True)
        side.loop.add_socket(HERE, mock.Mock(side_effect=OSError(errno.EPERM, "no")))
        side.loop.send(HERE, THERE, b"x")
        self.assertEqual(side.agent.failed_sends(), [FailedSend(PATH, errno.EPERM, 1)])
        side.agent.close()
        side.loop.send(HERE, THERE, b"x")
        side.loop.close()

    async def test_media_goes_on_while_a_connection_restarts(self) -> None:
        a, b = agent(True), agent(False)
        await join(a, b)
        for one in (a, b):
            one.agent.ice_restart(IceCreds("CCCC" if one is a else "DDDD", "R" * 22), True)
        await a.send(b"on the old path")
        self.assertEqual(await within(b.recv(), 1), b"on the old path")
        introduce((a.agent, b.agent))
        for one in (a, b):
            one._loop.wake()
        for count in range(50):
            await a.send(b"%d" % count)
            self.assertEqual(await within(b.recv(), 1), b"%d" % count)
            await asyncio.sleep(0.002)
        self.assertIsNotNone(a.agent.nominated_pair)
        await close(a, b)


if __name__ == "__main__":
    unittest.main()
