"""What sessions log, and what `connect` says when it fails."""

from __future__ import annotations

import asyncio
import errno
import logging
import unittest
from types import SimpleNamespace
from typing import Any
from unittest import mock

import is_ice.connection
from is_ice import (
    CandidateKind,
    CheckState,
    DiscoveredRecv,
    FailedSend,
    Heard,
    IceAgent,
    IceAgentEvent,
    IceConnectionState,
    IceConnectionStateChange,
    IceCreds,
    IceRestart,
    MediaPath,
    NominatedSend,
    Protocol,
    Removal,
    RemovedPair,
    Silent,
    SocketAddress,
)
from is_ice._report import tried
from is_ice._session_log import SessionLog
from is_ice.mdns import Mdns
from is_ice.stun import StunClass, StunMethod, write_message

from pairs import LOOPBACK, NOBODY, agent, close, introduced, join, until, within
from test_loop import BINDING_REQUEST, BINDING_RESPONSE

THERE, HERE = SocketAddress("192.0.2.2", 2000), SocketAddress("192.0.2.1", 1000)


def removed_to(port: int, path: bool = True) -> RemovedPair:
    """A pair with this port of the peer, to which nobody responded."""
    to = MediaPath(HERE, SocketAddress(THERE.ip, port), Protocol.UDP) if path else None
    return RemovedPair(to, 7, CheckState.IN_PROGRESS, 3, 0, None, Removal.NO_RESPONSE)


def unauthorized(code: int = 401) -> bytes:
    """An error response without MESSAGE-INTEGRITY, as other agents send for a wrong password."""
    return write_message(StunMethod.BINDING, StunClass.FAILURE, bytes(12), error=(code, "no"))


class Lines(unittest.IsolatedAsyncioTestCase):
    async def test_a_session(self) -> None:
        a, b = agent(True), agent(False)
        with self.assertLogs("is_ice", "INFO") as logged:
            await join(a, b)
            await until(lambda: all(side.agent.state is IceConnectionState.COMPLETED for side in (a, b)), 5)
        for one, other in ((a, b), (b, a)):
            ports = [side.local_candidates[0].port for side in (one, other)]
            lines = [record.getMessage() for record in logged.records]
            lines = [line.removeprefix(f"{one.local_username}: ") for line in lines if line.startswith(one.local_username)]
            self.assertEqual(lines[:4], [
                f"local candidate 127.0.0.1:{ports[0]} HOST", f"remote candidate 127.0.0.1:{ports[1]} HOST: ADDED",
                "session begins", "state Checking"])
            self.assertEqual(lines.count(f"selected 127.0.0.1:{ports[0]} -> 127.0.0.1:{ports[1]}"), 1)
            self.assertEqual(lines[-1], "state Completed")
        await close(a, b)

    async def test_candidates_that_are_left_out(self) -> None:
        a = agent(True)
        await a.gather_candidates()  # without pairs no candidate is known
        with self.assertLogs("is_ice.connection", "INFO") as logged, mock.patch.object(Mdns, "resolve", mock.AsyncMock(return_value=None)):
            for line in ("1 1 udp", NOBODY, NOBODY, NOBODY.replace(" 1 udp", " 2 udp"), "x" * 5000, "1 1 udp 1 h.local 9 typ host"):
                await a.add_remote_candidate(line)
            await asyncio.gather(*a._remote.names)
        told = [record.getMessage().split(": ", 1)[1] for record in logged.records]
        self.assertRegex(told[0], "^left out a candidate: 'bad candidate: ")
        self.assertEqual(told[1:4], [f"remote candidate 127.0.0.1:9 HOST: {result}" for result in ("ADDED", "KNOWN", "OTHER_COMPONENT")])
        self.assertEqual(told[4:], ["left out a candidate of 5010 characters", "nobody resolves 'h.local'"])
        await a.close()

    async def test_the_first_message_of_each_kind_that_nobody_takes(self) -> None:
        a = agent(True)
        with self.assertLogs("is_ice.loop", "INFO") as logged:
            a._loop.begin()
            for message in (BINDING_RESPONSE, unauthorized(), BINDING_REQUEST, unauthorized(), unauthorized(420), BINDING_REQUEST):
                a._loop.receive(THERE, HERE, message)
        told = [record.getMessage().split(": ", 1)[1] for record in logged.records if "discarded" in record.getMessage()]
        stray = "(response to no pending check)"
        kinds = {"Binding success response": 1, f"Binding error response 401 {stray}": 2, "Binding request": 2,
                 f"Binding error response 420 {stray}": 1}
        self.assertEqual(told, [f"discarded {kind} from {THERE} at {HERE}" for kind in kinds])
        self.assertEqual(a._loop.log.discarded, kinds)
        await a.close()

    def test_each_removed_pair_has_a_line(self) -> None:
        listed: list[RemovedPair] = []
        lister: Any = SimpleNamespace(local_credentials=SimpleNamespace(ufrag="abcd"), removed_pairs=lambda first=0: listed[first:],
                                      removed_line=lambda index: f"abcd: removed {listed[index]}")
        log = SessionLog(logging.getLogger("is_ice.test"), lister)
        cases: list[tuple[list[int], list[int]]] = [
            ([], []), ([1, 2], [1, 2]), ([1, 2], []), ([1, 2, 2], [2]),  # one more that is equal
            ([2, 2, 3], [3]), ([2, 3, 4, 5], [4, 5]),  # the oldest one was dropped, or another one was forgotten
            ([6, 7], [6, 7]), ([], []), ([6], [6]),  # all are new; after a restart there are none
        ]
        for now, new in cases:
            listed[:] = map(removed_to, now)
            with self.subTest(now=now), self.assertLogs("is_ice.test", "INFO") as logged:
                log.info("the lines:")
                log.removals()
                self.assertEqual([record.getMessage() for record in logged.records[1:]],
                                 [f"abcd: removed 192.0.2.1:1000 -> 192.0.2.2:{port} in progress, 3 checks sent, 0 answered: no response"
                                  for port in new])

    def test_a_removed_pair_is_read_only_if_it_is_logged(self) -> None:
        log = SessionLog(logging.getLogger("is_ice.test"), IceAgent())
        with mock.patch.object(IceAgent, "removed_pairs") as asked:
            logging.getLogger("is_ice.test").setLevel(logging.WARNING)
            log.removals()
        self.assertFalse(asked.called)
        logging.getLogger("is_ice.test").setLevel(logging.NOTSET)

    def test_kinds_are_limited(self) -> None:
        log = SessionLog(logging.getLogger("is_ice.test"), IceAgent())
        for code in range(300, 400):
            log.message_discarded(THERE, HERE, unauthorized(code))
        self.assertEqual((len(log.discarded), log.discarded["other STUN message"]), (33, 68))

    def test_kinds_of_messages(self) -> None:
        agent = IceAgent()
        for method, class_, kind in ((StunMethod.ALLOCATE, StunClass.SUCCESS, "Allocate success response (not a Binding message)"),
                                     (StunMethod.CREATE_PERMISSION, StunClass.REQUEST, "Create permission request (not a Binding message)"),
                                     (StunMethod.DATA, StunClass.INDICATION, "Data indication (not a Binding message)"),
                                     (StunMethod.BINDING, StunClass.INDICATION, "Binding indication (neither a request nor a response)")):
            self.assertEqual(agent.packet_kind(THERE, HERE, write_message(method, class_, bytes(12))), kind)
        for other in (b"", b"\0" * 30, unauthorized()[:-3]):
            self.assertEqual(agent.packet_kind(THERE, HERE, other), "malformed STUN message")

    def test_lines(self) -> None:
        agent = IceAgent(IceCreds("evtj", "h" * 22))
        cases: list[tuple[IceAgentEvent, str]] = [
            (IceRestart(agent.local_credentials), "session begins"),
            (IceConnectionStateChange(IceConnectionState.CONNECTED), "state Connected"),
            (DiscoveredRecv(Protocol.UDP, THERE), f"discovered {THERE}"),
            (NominatedSend(Protocol.UDP, HERE, THERE), f"selected {HERE} -> {THERE}"),
            (Silent(Protocol.UDP, HERE, THERE), f"silent {HERE} -> {THERE}"),
            (Heard(Protocol.UDP, HERE, THERE), f"heard again {HERE} -> {THERE}"),
        ]
        for event, line in cases:
            self.assertEqual(agent.event_line(event), f"evtj: {line}")
        self.assertIsNone(agent.removed_line(0))
        self.assertEqual(agent.packet_line(THERE, HERE, unauthorized()),
                         f"evtj: discarded Binding error response 401 (response to no pending check) from {THERE} at {HERE}")


class Failures(unittest.IsolatedAsyncioTestCase):
    async def failed(self, a: Any, seconds: float = 5) -> str:
        """What `connect` raises."""
        with self.assertLogs("is_ice.connection", "INFO") as logged, self.assertRaises(ConnectionError) as caught:
            await within(a.connect(), seconds)
        told = str(caught.exception)
        self.assertEqual(logged.records[-1].getMessage(), f"{a.local_username}: {told}")
        return told

    async def alone(self, *lines: str, end: bool = True) -> Any:
        """A connection with these candidates of a peer that does not exist."""
        a = agent(True)
        a.agent.set_max_stun_retransmits(1)
        a.agent.set_max_stun_rto(10_000_000)
        await a.gather_candidates()
        a.remote_username, a.remote_password = "abcd", "p" * 22
        for line in lines:
            await a.add_remote_candidate(line)
        if end:
            await a.add_remote_candidate(None)
        return a

    async def test_nobody_responds(self) -> None:
        a = await self.alone(NOBODY)
        with self.assertLogs("is_ice.loop", "INFO") as logged:
            told = await self.failed(a)
        self.assertRegex(told, "^ICE negotiation failed: all checks failed; state Disconnected; ")
        lines = [record.getMessage().removeprefix(f"{a.local_username}: ") for record in logged.records]
        self.assertRegex(lines[-2], "^removed 127.0.0.1:[0-9]+ -> 127.0.0.1:9 in progress, [1-9] checks sent, 0 answered: no response$")
        self.assertEqual(lines[-1], "state Disconnected")
        self.assertIn(f"; pairs: none; removed pairs: {lines[-2].removeprefix('removed ')}; ", told)
        self.assertIn(f"; local candidates: 127.0.0.1:{a.local_candidates[0].port} (host); remote candidates: 127.0.0.1:9 (host); ", told)
        self.assertRegex(told, "; [1-9][0-9]* checks sent, 0 answered, 0 received in all; failed sends: none; discarded: none$")
        await a.close()

    async def test_there_is_no_time_left(self) -> None:
        a = agent(True)
        await a.gather_candidates()
        a.remote_username, a.remote_password = "abcd", "p" * 22
        await a.add_remote_candidate(NOBODY)
        a._loop.receive(THERE, HERE, unauthorized())
        with mock.patch.object(is_ice.connection, "_PATIENCE", 0.2):
            told = await self.failed(a)
        port = a.local_candidates[0].port
        self.assertRegex(told, "^ICE negotiation failed: there is no path after 0.2 s; state Checking; ")
        self.assertRegex(told, f"; pairs: 127.0.0.1:{port} -> 127.0.0.1:9 in progress, [1-9] checks sent, 0 answered, 0 received; ")
        self.assertIn("; discarded: 1 x Binding error response 401 (response to no pending check); ", told)
        self.assertRegex(told, "; the peer did not signal the end of its candidates$")
        await a.close()

    async def test_the_peer_has_another_password(self) -> None:
        """If it has the right one of the peer itself, its own checks are answered, so it connects."""
        for own in (True, False):
            with self.subTest(own=own):
                a, b = await introduced()
                a.remote_password = "q" * 22
                if not own:
                    b.remote_password = "q" * 22
                with mock.patch.object(is_ice.connection, "_PATIENCE", 0.3):
                    results = await asyncio.gather(a.connect(), b.connect(), return_exceptions=True)
                self.assertIsInstance(results[0], ConnectionError)
                self.assertEqual(results[1] is None, own)
                self.assertRegex(b._loop.tried() if own else str(results[1]), "; discarded: [1-9][0-9]* x Binding request "
                                 r"\(request signed with another password than the agent's\)")
                await close(a, b)

    async def test_names_that_nobody_resolves(self) -> None:
        with mock.patch.object(Mdns, "resolve", mock.AsyncMock(return_value=None)):
            a = await self.alone("1 1 udp 1 h.local 9 typ host")
            with mock.patch.object(is_ice.connection, "_PATIENCE", 0.1):
                told = await self.failed(a)
        self.assertRegex(
            told, "; remote candidates: none; pairs: none; removed pairs: none; .*; mDNS names of the peer without an address: 1$")
        await a.close()

    async def test_it_is_closed(self) -> None:
        a = await self.alone(NOBODY, end=False)
        a.agent.set_max_stun_retransmits(1000)  # it is closed before all checks fail
        connecting = asyncio.ensure_future(a.connect())
        await asyncio.sleep(0.05)
        await a.close()
        with self.assertRaisesRegex(ConnectionError, "^ICE negotiation failed: the connection was closed; state Checking; "):
            await connecting
        with self.assertRaisesRegex(ConnectionError, "^ICE negotiation failed: the connection was closed$"):
            await a.connect()

    async def test_there_are_no_candidates(self) -> None:
        a = await self.alone()
        with self.assertRaisesRegex(ConnectionError, "^ICE negotiation failed: the peer has no candidates; state New; "):
            await a.connect()
        await a.close()

    def test_long_lists_are_cut(self) -> None:
        def fields(port: int) -> Any:
            return SimpleNamespace(address=SocketAddress(LOOPBACK[0], port), kind=CandidateKind.SERVER_REFLEXIVE)

        pair = SimpleNamespace(local=0, remote=99, state=CheckState.SUCCEEDED, checks_sent=3, responses=2, requests_received=1)
        of_ten: Any = SimpleNamespace(
            local_fields=lambda: [fields(1)], remote_fields=lambda: [fields(port) for port in range(1, 101)], pairs=[pair] * 9,
            removed_pairs=lambda: [removed_to(2000, path=False)] * 9,
            failed_sends=lambda: [FailedSend(MediaPath(HERE, THERE, Protocol.UDP), errno.EPERM, 3)] * 9,
            stats=SimpleNamespace(bind_request_sent=27, bind_success_recv=18, bind_request_recv=9), state=IceConnectionState.CONNECTED)
        told = tried(of_ten, {}).split("; ")
        self.assertEqual(told[1], "local candidates: 127.0.0.1:1 (server-reflexive)")
        self.assertRegex(told[2], r"^remote candidates: (127.0.0.1:[1-8] \(server-reflexive\)(, )?){8} and 92 more$")
        self.assertRegex(told[3], "^pairs: .*127.0.0.1:1 -> 127.0.0.1:100 succeeded, 3 checks sent, 2 answered, 1 received and 1 more$")
        self.assertRegex(told[4], "^removed pairs: (unknown path in progress, 3 checks sent, 0 answered: no response(, )?){8} and 1 more$")
        self.assertEqual(told[5], "27 checks sent, 18 answered, 9 received in all")
        self.assertRegex(told[6], f"^failed sends: ({HERE} -> {THERE}: Operation not permitted, 3 times(, )?){{8}} and 1 more$")
        self.assertEqual(told[7:], ["discarded: none"])


if __name__ == "__main__":
    unittest.main()
