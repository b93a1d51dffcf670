"""What a program sees of usual mistakes within 5 s, in simulated time: the lines of the log, events, and what `connect` says.

docs/GUIDE.md has the table, and c/tests has the same cases in C.
"""

from __future__ import annotations

import asyncio
import errno
import unittest
from collections.abc import Callable, Coroutine
from typing import Any
from unittest import mock

from is_ice import Candidate, Heard, IceAgent, NominatedSend, Rejection, Silent, SocketAddress, Transmit, Unserved
from is_ice.connection import Connection
from is_ice.stun import StunClass, StunMessage, StunMethod, write_message

from pairs import add_candidates, agent, close, gather, introduced
from simulated import run

SECOND = 1_000_000_000  # in nanoseconds
AT_ONCE = 0.1  # seconds
SOON = 5.0


async def begun(a: Connection, b: Connection, meanwhile: Callable[[], Coroutine[Any, Any, Any]] | None = None) -> list[Any]:
    """Connects both, and waits 5 s. Returns what `connect` returned or raised, or None if it still waits."""
    tasks = [asyncio.ensure_future(side.connect()) for side in (a, b)]
    if meanwhile:
        await meanwhile()
    await asyncio.sleep(SOON)
    results = [task.exception() or "connected" if task.done() else None for task in tasks]
    for task in tasks:
        task.cancel()
    await asyncio.gather(*tasks, return_exceptions=True)
    return results


class Signaling(unittest.TestCase):
    def test_a_wrong_password_at_the_peer_is_named_at_once(self) -> None:
        async def play() -> tuple[str, str]:
            a, b = await introduced()
            a.remote_password = "q" * 22
            await begun(a, b)
            told = b._failure("")
            await close(a, b)
            return b._creds.ufrag, told

        (ufrag, told), lines = run(play())
        when, _ = lines.first(ufrag, "discarded Binding request (request signed with another password than the agent's)")
        self.assertLess(when, AT_ONCE)
        self.assertRegex(told, "; discarded: [0-9]+ x Binding request .request signed with another password than the agent's.")

    def test_mixed_up_username_fragments_are_named_at_once(self) -> None:
        for local in (True, False):
            async def play(local: bool = local) -> str:
                a, b = await introduced()
                if local:
                    a.remote_username = "mixed"
                else:
                    b.remote_username = "mixed"
                await begun(a, b)
                await close(a, b)
                return b._creds.ufrag

            ufrag, lines = run(play())
            words = "to another username fragment than the agent's" if local else "from another username fragment than the peer's"
            self.assertLess(lines.first(ufrag, f"discarded Binding request (request {words})")[0], AT_ONCE)

    def test_credentials_after_candidates_connect(self) -> None:
        async def play() -> list[Any]:
            a, b = agent(True), agent(False)
            await asyncio.gather(a.gather_candidates(), b.gather_candidates())
            await add_candidates(a, b)
            for one, other in ((a, b), (b, a)):
                one.remote_username, one.remote_password = other.local_username, other.local_password
            results = await begun(a, b)
            await close(a, b)
            return results

        self.assertEqual(run(play())[0], ["connected"] * 2)

    def test_candidates_without_a_username_fragment_connect(self) -> None:
        async def play() -> list[Any]:
            a, b = agent(True), agent(False)
            await gather(a, b)
            for one, other in ((a, b), (b, a)):
                for candidate in other.local_candidates:
                    await one.add_remote_candidate(candidate.to_sdp().partition(" ufrag ")[0])
            results = await begun(a, b)
            await close(a, b)
            return results

        self.assertEqual(run(play())[0], ["connected"] * 2)

    def test_two_that_are_controlling_connect(self) -> None:
        for both in (True, False):
            async def play(both: bool = both) -> tuple[list[Any], set[bool]]:
                a, b = await introduced((both, both))
                results = await begun(a, b)
                roles = {a.ice_controlling, b.ice_controlling}
                await close(a, b)
                return results, roles

            self.assertEqual(run(play())[0], (["connected"] * 2, {True, False}))


class Network(unittest.TestCase):
    def test_sends_that_fail_are_named_at_once(self) -> None:
        async def play() -> tuple[str, str]:
            a, b = await introduced()
            for local in a._loop._sends:
                a._loop._sends[local] = mock.Mock(side_effect=OSError(errno.ENETUNREACH, "Network is unreachable"))
            await begun(a, b)
            told = a._failure("")
            await close(a, b)
            return a._creds.ufrag, told

        (ufrag, told), lines = run(play())
        when, line = lines.first(ufrag, "not sent ")
        self.assertLess(when, AT_ONCE)
        self.assertRegex(line, "^not sent 127.0.0.1:[0-9]+ -> 127.0.0.1:[0-9]+: Network is unreachable, 1 times$")
        self.assertRegex(told, "; failed sends: 127.0.0.1:[0-9]+ -> 127.0.0.1:[0-9]+: Network is unreachable, [0-9]+ times; ")

    def test_a_selected_path_that_is_silent_is_reported_after_5_s_and_that_it_is_heard_again(self) -> None:
        async def play() -> tuple[str, float, list[tuple[float, object]]]:
            a, b = await introduced()
            clock, told = asyncio.get_running_loop(), list[tuple[float, object]]()
            a.on_event = lambda event: told.append((clock.time(), event)) if isinstance(event, (Silent, Heard)) else None
            await begun(a, b)
            cut, sends = clock.time(), dict(b._loop._sends)
            for local in sends:
                b._loop._sends[local] = lambda destination, data: None
            await asyncio.sleep(9)
            b._loop._sends.update(sends)
            await asyncio.sleep(4)
            await close(a, b)
            return a._creds.ufrag, cut, told

        (ufrag, cut, told), lines = run(play())
        self.assertEqual([type(event) for _, event in told], [Silent, Heard])
        self.assertTrue(2 < told[0][0] - cut < 5.1, told)  # the last packet before may be as old as the longest RTO
        self.assertEqual(lines.first(ufrag, "silent ")[0], told[0][0])
        self.assertEqual(lines.first(ufrag, "heard again ")[0], told[1][0])

    def test_error_responses_of_the_peer_are_named_when_the_pair_is_removed(self) -> None:
        async def play() -> str:
            a = agent(True)
            await a.gather_candidates()
            a.remote_username, a.remote_password = "abcd", "p" * 22
            await a.add_remote_candidate("candidate:1 1 udp 2130706431 127.0.0.1 9 typ host")

            def refuse(destination: SocketAddress, data: bytes) -> None:
                error = write_message(StunMethod.BINDING, StunClass.FAILURE, StunMessage(data).transaction,
                                      error=(400, "Bad Request"), key=b"p" * 22)
                asyncio.get_running_loop().call_soon(a._loop.receive, destination, local, error)

            (local,) = a._loop._sends
            a._loop._sends[local] = refuse
            task = asyncio.ensure_future(a.connect())
            await asyncio.sleep((a.agent.settings.max_rto + a.agent.ice_timeout) / SECOND + 10)
            await a.close()
            await asyncio.gather(task, return_exceptions=True)
            return a._creds.ufrag

        ufrag, lines = run(play())
        self.assertIn(", error response 400: no response", lines.first(ufrag, "removed ")[1])


class Program:
    """A program with a loop of its own, over packets that are handed to the other one. What it does with them may be wrong."""

    unit = 1  # nanoseconds that its clock counts as one
    swaps = False  # it takes the source of a packet for its destination
    bound: SocketAddress | None = None  # what it takes for the destination: the address to which its socket is bound
    polls = True  # it asks when to call next, after each packet; else it goes by what it was told after the last timeout
    sends = True

    def __init__(self, ip: str, controlling: bool) -> None:
        self.agent, self.address = IceAgent(), SocketAddress(ip, 5000)
        self.agent.set_controlling(controlling)
        self.agent.add_local_candidate(Candidate.host(self.address))
        self.due: int | None = 0
        self.arriving: list[tuple[int, Transmit]] = []
        self.seen: list[tuple[float, object]] = []

    def note(self, now: int, what: object) -> None:
        self.seen.append((now / SECOND, what))

    def when(self, wanted: object) -> float:
        """When an event of this type, or a datagram for this reason, came first."""
        return next(when for when, what in self.seen if what == wanted or type(what) is wanted)

    def turn(self, now: int, other: Program) -> None:
        """What happens in a millisecond. A packet takes ten."""
        own = now // self.unit
        while self.arriving and self.arriving[0][0] <= now:
            self.take(now, own, self.arriving.pop(0)[1])
        if self.due is not None and own >= self.due:
            self.agent.handle_timeout(own)
            self.due = self.agent.poll_timeout()
        while packet := self.agent.poll_transmit():
            if self.sends:
                other.arriving.append((now + SECOND // 100, packet))
        while event := self.agent.poll_event():
            self.note(now, event)
        if self.polls:
            self.due = self.agent.poll_timeout()

    def take(self, now: int, own: int, packet: Transmit) -> None:
        source, destination = (packet.destination, packet.source) if self.swaps else (packet.source, self.bound or packet.destination)
        if why := self.agent.rejection(source, destination, packet.contents) or self.agent.unserved(source, destination, packet.contents):
            self.note(now, why)
        self.agent.handle_packet(own, source, destination, packet.contents)


def played(seconds: int = 5, **mistakes: Any) -> tuple[Program, Program]:
    """Two programs, of which the first one makes mistakes."""
    a, b = Program("10.0.0.1", True), Program("10.0.0.2", False)
    for name, value in mistakes.items():
        setattr(a, name, value)
    for one, other in ((a, b), (b, a)):
        one.agent.set_remote_credentials(other.agent.local_credentials)
        for line in other.agent.local_candidates():
            one.agent.add_remote_candidate(line)
    for now in range(0, seconds * SECOND, SECOND // 1000):
        a.turn(now, b)
        b.turn(now, a)
    return a, b


class Loops(unittest.TestCase):
    def test_without_a_mistake_both_have_a_path_at_once(self) -> None:
        a, b = played()
        self.assertLess(max(a.when(NominatedSend), b.when(NominatedSend)), AT_ONCE)

    def test_a_wrong_destination_is_named_at_once(self) -> None:
        a, _ = played(bound=SocketAddress("0.0.0.0", 5000))
        self.assertLess(a.when(Unserved.DESTINATION), AT_ONCE)  # a check of the peer
        self.assertLess(a.when(Rejection.PATH), AT_ONCE)  # a response of the peer

    def test_swapped_addresses_are_named_at_once(self) -> None:
        a, _ = played(swaps=True)
        self.assertLess(a.when(Unserved.DESTINATION), AT_ONCE)
        self.assertLess(a.when(Rejection.PATH), AT_ONCE)

    def test_a_clock_in_another_unit_sends_few_checks(self) -> None:
        """Nothing is reported: if no packet is lost, both have a path. The counters say it: what is lost is not sent again."""
        usual = played()[0].agent.stats.bind_request_sent
        for unit in (1000, 1_000_000, SECOND):
            a, _ = played(unit=unit)
            self.assertLess(a.when(NominatedSend), AT_ONCE)
            self.assertLess(a.agent.stats.bind_request_sent, usual)

    def test_no_poll_after_packets_is_slower(self) -> None:
        a, b = played(polls=False)
        self.assertLess(max(a.when(NominatedSend), b.when(NominatedSend)), 1)

    def test_packets_that_are_dropped_when_a_send_fails(self) -> None:
        """Without `send_failed` the counters say it: the peer's checks arrive, and no own one has a response."""
        a, b = played(sends=False)
        stats = a.agent.stats
        self.assertTrue(stats.bind_request_sent > 0 and stats.bind_success_recv == 0 and stats.bind_request_recv > 0, stats)
        self.assertEqual((b.agent.stats.bind_request_recv, b.agent.stats.bind_success_recv), (0, 0))


if __name__ == "__main__":
    unittest.main()
