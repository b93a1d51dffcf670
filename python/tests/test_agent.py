"""Tests the module with the library: two agents connect, calls fail with their errors, texts and addresses round-trip."""

from __future__ import annotations

import copy
import ctypes
import dataclasses
import inspect
import os
import pickle
import re
import tempfile
import threading
import unittest
from collections import Counter
from collections.abc import Callable
from concurrent.futures import ThreadPoolExecutor
from pathlib import Path
from random import Random
from typing import Any
from unittest import mock

import is_ice
from is_ice import _abi, _library
from is_ice._loop_calls import PACKET
from is_ice.address import PATHS, POINTERS, address_of
from is_ice.stun import StunClass, StunMessage, StunMethod, write_message
from is_ice import (
    AddResult,
    BadAddress,
    BadCandidate,
    BadLimit,
    Candidate,
    CheckState,
    Consent,
    CredentialsTooLong,
    DiscoveredRecv,
    HasAgent,
    IceAgent,
    IceConnectionState,
    IceCreds,
    IceRestart,
    IceServer,
    KindPreferences,
    LiteStaysControlled,
    MediaPath,
    MtuTooSmall,
    NoAgent,
    NominatedSend,
    Profile,
    Protocol,
    Rejection,
    Removal,
    RemovedPair,
    Settings,
    SocketAddress,
    TooFewRandomBytes,
    TooManyCandidates,
    Unparsed,
    Unserved,
    has_mdns_name,
    line_refusal,
    new_creds,
)

HERE = SocketAddress("10.0.0.1", 1000)
THERE = SocketAddress("10.0.0.2", 2000)
SECOND = 1_000_000_000
BEGINNING = 60 * SECOND
LINE_OF_THERE = "candidate:1 1 udp 2130706175 10.0.0.2 2000 typ host"
NOMINATION = re.compile(rb"\xc0\x01\x00\x04(.{4})", re.DOTALL)


def two_agents() -> tuple[IceAgent, IceAgent]:
    """Returns two agents with each other's credentials and candidates."""
    a = IceAgent(IceCreds("AAAA", "P" * 22), tie_breaker=10)
    b = IceAgent(IceCreds("BBBB", "Q" * 22), tie_breaker=5)
    a.set_controlling(True)
    for agent, other, address in ((a, b, HERE), (b, a, THERE)):
        agent.set_remote_credentials(other.local_credentials)
        agent.add_local_candidate(Candidate.host(address))
    for agent, other in ((a, b), (b, a)):
        for line in other.local_candidates():
            agent.add_remote_candidate(line)
    return a, b


def turn(agents: tuple[IceAgent, IceAgent], now: int, random: Callable[[IceAgent], bytes] = lambda _: os.urandom(12)) -> None:
    """Calls `handle_timeout` of both, and delivers what they send at once."""
    for agent in agents:
        agent.handle_timeout(now, random(agent))
    moved = True
    while moved:
        moved = False
        for agent, other in (agents, agents[::-1]):
            while packet := agent.poll_transmit():
                other.handle_packet(now, packet.source, packet.destination, packet.contents)
                moved = True


def play(agents: tuple[IceAgent, IceAgent], rounds: int = 10) -> tuple[list[object], list[object]]:
    """Plays rounds 50 ms apart, and returns the events of both."""
    events: tuple[list[object], list[object]] = ([], [])
    for count in range(rounds):
        turn(agents, BEGINNING + count * SECOND // 20, lambda agent: bytes([count, agents.index(agent)]) * 6)
    for agent, polled in zip(agents, events):
        while event := agent.poll_event():
            polled.append(event)
    return events


def last_paths(
    renomination: bool, profile: Profile = Profile.MODERN, sent: list[bytes] | None = None,
) -> tuple[SocketAddress | None, SocketAddress | None]:
    """Plays two agents that rank two paths differently. Returns the address of the first one on the path that each selected last.

    The path that the first agent prefers begins to work after half a second. Packets of the first agent are put into `sent`.
    """
    other_here = SocketAddress("10.0.0.3", 1000)
    a, b = IceAgent(IceCreds("AAAA", "P" * 22), tie_breaker=10), IceAgent(IceCreds("BBBB", "Q" * 22), tie_breaker=5)
    a.set_controlling(True)
    for agent, other, addresses in ((a, b, (HERE, other_here)), (b, a, (THERE,))):
        agent.set_renomination(renomination)
        agent.set_settings(dataclasses.replace(agent.settings, profile=profile))
        agent.set_remote_credentials(other.local_credentials)
        for preference, address in zip((2000, 1000), addresses):
            agent.set_local_preference(preference)
            agent.add_local_candidate(Candidate.host(address))
    a.add_remote_candidate(LINE_OF_THERE)
    b.add_remote_candidate("candidate:1 1 udp 1000 10.0.0.1 1000 typ host")
    b.add_remote_candidate("candidate:2 1 udp 2000 10.0.0.3 1000 typ host")
    selected: dict[IceAgent, SocketAddress] = {}
    for ms in range(0, 5000, 50):
        now = BEGINNING + ms * SECOND // 1000
        for agent in (a, b):
            agent.handle_timeout(now)
        for _ in range(4):
            for agent, other in ((a, b), (b, a)):
                while packet := agent.poll_transmit():
                    if sent is not None and agent is a:
                        sent.append(packet.contents)
                    if ms >= 500 or HERE not in (packet.source, packet.destination):
                        other.handle_packet(now, packet.source, packet.destination, packet.contents)
                while event := agent.poll_event():
                    if isinstance(event, NominatedSend):
                        selected[agent] = event.source if agent is a else event.destination
    return selected.get(a), selected.get(b)


def set_profile(agent: IceAgent, profile: Profile) -> None:
    """Gives the agent this behavior, and leaves its other settings."""
    agent.set_settings(dataclasses.replace(agent.settings, profile=profile))


def first_checks(profile: Profile | None, kind: str) -> list[str]:
    """Returns where the first four checks go, of an agent whose peer has three private host candidates and a public one of this kind.

    None: the agent keeps the profile that it begins with.
    """
    agent = IceAgent()
    if profile is not None:
        set_profile(agent, profile)
    agent.set_remote_credentials(IceCreds("BBBB", "Q" * 22))
    agent.add_local_candidate(Candidate.host(HERE))
    for number in (2, 3, 4):
        agent.add_remote_candidate(f"candidate:{number} 1 udp {2130706175 - number} 10.0.0.{number} 2000 typ host")
    agent.add_remote_candidate(f"candidate:9 1 udp 1694498815 203.0.113.9 2000 typ {kind}")
    checked: list[str] = []
    for count in range(4):
        agent.handle_timeout(BEGINNING + count * SECOND // 20)
        while packet := agent.poll_transmit():
            checked.append(packet.destination.ip)
    return checked


def paced(profile: Profile, advance: int = SECOND // 20) -> tuple[int, int]:
    """Returns how soon after a timeout the next one comes, before the agent has a path, and once that is nominated. Other pairs wait."""
    a, b = agents = two_agents()
    set_profile(a, profile)
    a.set_timing_advance(advance)
    for number in (7, 8, 9):
        a.add_remote_candidate(f"candidate:{number} 1 udp {number} 10.0.0.{number} 2000 typ host")
    a.handle_timeout(BEGINNING)
    before = a.poll_timeout()
    for agent, other in (agents, agents[::-1]):
        while packet := agent.poll_transmit():
            other.handle_packet(BEGINNING, packet.source, packet.destination, packet.contents)
    assert before is not None and a.state.is_connected()
    a.handle_timeout(before)
    after = a.poll_timeout()
    assert after is not None
    return before - BEGINNING, after - before


def repeated(profile: Profile) -> list[int]:
    """Returns the times in milliseconds of the checks on a path without responses, of the first 2 seconds."""
    agent = IceAgent()
    set_profile(agent, profile)
    agent.set_initial_stun_rto(SECOND // 4)
    agent.set_remote_credentials(IceCreds("BBBB", "Q" * 22))
    agent.add_local_candidate(Candidate.host(HERE))
    agent.add_remote_candidate(LINE_OF_THERE)
    checks: list[int] = []
    now: int | None = BEGINNING
    while now is not None and now <= BEGINNING + 2 * SECOND:
        agent.handle_timeout(now)
        sent = (now - BEGINNING) * 1000 // SECOND
        now = agent.poll_timeout()
        while agent.poll_transmit():
            checks.append(sent)
    return checks


def has_selected(agent: IceAgent) -> bool:
    """Polls the events: whether a path was selected."""
    found = False
    while event := agent.poll_event():
        found = found or isinstance(event, NominatedSend)
    return found


def selections(profile: Profile) -> list[str]:
    """Returns in which calls the controlled one of two agents selects a path, while packets arrive at once."""
    a, b = two_agents()
    set_profile(b, profile)
    calls: list[str] = []

    def deliver(now: int) -> None:
        moved = True
        while moved:
            moved = False
            for agent, other in ((a, b), (b, a)):
                while packet := agent.poll_transmit():
                    other.handle_packet(now, packet.source, packet.destination, packet.contents)
                    calls.extend(["handle_packet"] * (other is b and has_selected(b)))
                    moved = True

    for count in range(4):
        now = BEGINNING + count * SECOND // 20
        for agent in (b, a):
            agent.handle_timeout(now)
            calls.extend(["handle_timeout"] * (agent is b and has_selected(b)))
            deliver(now)
    return calls


def seconds_of_a_cut(agents: tuple[IceAgent, IceAgent]) -> float:
    """Delivers nothing after a check of the first agent was answered. Returns how long that agent then is connected."""
    agent, now, answered = agents[0], BEGINNING, 0
    while now < BEGINNING + 30 * SECOND or agent.stats.bind_success_recv == answered:
        answered, now = agent.stats.bind_success_recv, now + SECOND // 20
        turn(agents, now)
    begun = now
    while agent.state.is_connected():
        now = agent.poll_timeout() or now
        agent.handle_timeout(now)
        while agent.poll_transmit():
            pass
    return (now - begun) / SECOND


def seconds_without_responses(consent: Consent) -> float:
    """Loses all responses to the first agent, and none of the other's checks. Returns how long the first one then is connected, at most a
    minute and a second."""
    a, b = agents = two_agents()
    a.set_settings(dataclasses.replace(a.settings, consent=consent))
    now, answered = BEGINNING, 0
    while now < BEGINNING + 30 * SECOND or a.stats.bind_success_recv == answered:
        answered, now = a.stats.bind_success_recv, now + SECOND // 20
        turn(agents, now)
    begun = now
    while a.state.is_connected() and now < begun + 61 * SECOND:
        now += SECOND // 20
        turn_without_responses(a, b, now)
    return (now - begun) / SECOND


def turn_without_responses(a: IceAgent, b: IceAgent, now: int) -> None:
    """Calls `handle_timeout` of both, and delivers what they send, except for responses to the first one."""
    for agent in (a, b):
        agent.handle_timeout(now)
    for agent, other in ((a, b), (b, a)):
        while packet := agent.poll_transmit():
            if other is b or is_request(packet.contents):
                other.handle_packet(now, packet.source, packet.destination, packet.contents)


def checks_from(beginning: int) -> list[tuple[int, SocketAddress, int]]:
    """The checks of the controlling one of two agents whose clock starts then, each with its turn of 50 ms; by the original."""
    a, b = two_agents()
    for port in range(1, 5):
        a.add_remote_candidate(f"candidate:1 1 udp 1 10.0.0.9 {port} typ host")
    sent = []
    for agent in (a, b):
        set_profile(agent, Profile.ORIGINAL)
    for turn in range(40):
        now = beginning + turn * SECOND // 20
        for agent, other in ((a, b), (b, a)):
            agent.handle_timeout(now)
            while packet := agent.poll_transmit():
                if agent is a and is_request(packet.contents):
                    sent.append((turn, packet.destination, len(packet.contents)))
                if packet.destination in (HERE, THERE):
                    other.handle_packet(now, packet.source, packet.destination, packet.contents)
    return sent


def is_request(contents: bytes) -> bool:
    """Whether a STUN message is a Binding request: its type (RFC 8489, section 5)."""
    return contents[:2] == b"\x00\x01"


def has_timeout_after_an_early_request(profile: Profile) -> bool:
    """Whether `poll_timeout` returns a time after the first `handle_timeout`, which serves an early request."""
    a, b = two_agents()
    late = IceAgent(a.local_credentials)
    set_profile(late, profile)
    late.add_local_candidate(Candidate.host(HERE))
    b.handle_timeout(BEGINNING)
    packet = b.poll_transmit()
    assert packet is not None
    late.handle_packet(BEGINNING, packet.source, packet.destination, packet.contents)
    late.set_remote_credentials(b.local_credentials)
    late.handle_timeout(BEGINNING + SECOND // 20)
    return late.poll_timeout() is not None


class Sessions(unittest.TestCase):
    def test_two_agents_connect(self) -> None:
        a, b = two_agents()
        of_a, of_b = play((a, b))
        paths_a = [e for e in of_a if isinstance(e, NominatedSend)]
        paths_b = [e for e in of_b if isinstance(e, NominatedSend)]
        self.assertEqual((paths_a[-1].source, paths_a[-1].destination), (HERE, THERE))
        self.assertEqual((paths_b[-1].source, paths_b[-1].destination), (THERE, HERE))
        self.assertIn(IceRestart(a.local_credentials), of_a)
        self.assertIn(DiscoveredRecv(paths_a[-1].protocol, THERE), of_a)
        self.assertTrue(a.state.is_connected() and b.state.is_connected())
        self.assertGreater(a.stats.bind_success_recv, 0)
        pair = a.nominated_pair
        assert pair is not None
        self.assertEqual(pair.rtt, 0)
        self.assertEqual((pair.source, pair.destination, pair.protocol), (HERE, THERE, Protocol.UDP))
        self.assertTrue(a.has_viable_remote_candidate(THERE))

    def test_requests_bring_few_candidates(self) -> None:
        for limit, expected in ((32, 32), (3, 3), (None, 40)):
            a, b = two_agents()
            b.set_max_discovered(limit)
            a.handle_timeout(BEGINNING, bytes(12))
            request = a.poll_transmit()
            assert request is not None
            replies = 0
            for port in range(3000, 3040):
                source = SocketAddress("10.0.0.9", port)
                self.assertTrue(b.handle_packet(BEGINNING, source, request.destination, request.contents))
                replies += b.poll_transmit() is not None
            self.assertEqual(replies, expected)

    def test_the_selected_pair_has_its_addresses_before_its_event_is_polled(self) -> None:
        a, b = two_agents()
        for count in range(3):
            now = BEGINNING + count * SECOND // 20
            for agent, other in ((a, b), (b, a), (a, b)):
                agent.handle_timeout(now)
                while packet := agent.poll_transmit():
                    other.handle_packet(now, packet.source, packet.destination, packet.contents)
        pair = a.nominated_pair
        assert pair is not None
        self.assertEqual((pair.source, pair.destination), (HERE, THERE))
        self.assertEqual((a.media_addresses(BEGINNING), a.media_addresses()), ((HERE, THERE), (HERE, THERE)))
        events = []
        while event := a.poll_event():
            events.append(event)
        self.assertEqual(events[0], IceRestart(a.local_credentials))
        self.assertIn(THERE, [event.destination for event in events if isinstance(event, NominatedSend)])
        self.assertEqual(a.nominated_pair, pair)

    def test_a_clock_may_start_at_0(self) -> None:
        """The nominating check goes first, as by a later clock. With USE-CANDIDATE it is 4 bytes longer (RFC 8445, section 16.1)."""
        checks = checks_from(0)
        self.assertEqual([length - checks[0][2] for _, destination, length in checks if destination == THERE][:2], [0, 4])
        self.assertEqual(checks, checks_from(3600 * SECOND))

    def test_times_are_those_of_the_program(self) -> None:
        a, b = two_agents()
        b.handle_timeout(0)
        self.assertGreater(b.poll_timeout() or 0, 0)
        packet = b.poll_transmit()
        assert packet is not None
        a.handle_packet(SECOND, packet.source, packet.destination, packet.contents)
        self.assertEqual(a.pairs[0].last_request, SECOND)

    def test_a_path_is_valid_before_it_is_selected(self) -> None:
        a, b = two_agents()
        self.assertIsNone(b.valid_path)
        self.assertEqual((b.media_addresses(BEGINNING), b.media_addresses()), (None, None))
        b.handle_timeout(BEGINNING)
        for agent, other in ((b, a), (a, b)):
            packet = agent.poll_transmit()
            assert packet is not None
            self.assertTrue(other.handle_packet(BEGINNING, packet.source, packet.destination, packet.contents))
        self.assertIsNone(b.nominated_pair)
        self.assertEqual(b.valid_path, MediaPath(THERE, HERE, Protocol.UDP))
        self.assertEqual(b.media_addresses(BEGINNING), (THERE, HERE))

    def test_a_query_of_the_selected_pair_polls_no_events(self) -> None:
        """Once as many events wait as `set_max_discovered` allows, no further source is reported."""
        for query in (False, True):
            a, b = two_agents()
            a.handle_timeout(BEGINNING)
            b.handle_timeout(BEGINNING)
            request = a.poll_transmit()
            assert request is not None
            for port in range(2000):
                source = SocketAddress(f"10.9.{port // 250}.{1 + port % 250}", 4000)
                b.handle_packet(BEGINNING, source, request.destination, request.contents)
                if query:
                    self.assertIsNone(b.nominated_pair)
            waiting = 0
            while b.poll_event():
                waiting += 1
            self.assertEqual(waiting, Settings.modern().max_discovered)

    def test_packets_of_a_relayed_candidate_come_from_the_relayed_address(self) -> None:
        relayed = SocketAddress("203.0.113.1", 5000)
        agent = IceAgent()
        agent.set_remote_credentials(IceCreds("BBBB", "Q" * 22))
        agent.add_local_candidate(Candidate.relayed(relayed, HERE))
        agent.add_remote_candidate(LINE_OF_THERE)
        agent.handle_timeout(BEGINNING)
        packet = agent.poll_transmit()
        assert packet is not None
        self.assertEqual((packet.source, packet.destination), (relayed, THERE))

    def test_a_path_that_is_cut_is_kept_for_almost_30_s(self) -> None:
        """For the longest RTO and a whole series of checks: less than the 30 s of RFC 7675, section 5.1."""
        for settings in (Settings.modern(), Settings.original()):
            agents = two_agents()
            for agent in agents:
                agent.set_settings(settings)
            kept = (settings.max_rto + agents[0].ice_timeout) / SECOND
            self.assertLess(kept, 30)
            self.assertAlmostEqual(seconds_of_a_cut(agents), kept, delta=0.1)

    def test_a_path_that_is_cut_one_way_ends_by_consent(self) -> None:
        """The peer's checks arrive and its responses are lost. By RFC 7675, section 5.1, only responses keep consent."""
        self.assertAlmostEqual(seconds_without_responses(Consent(29_600_000_000, strict=True)), 29.6, delta=0.1)
        self.assertGreater(seconds_without_responses(Consent(29_600_000_000)), 60)

    def test_a_timeout_after_an_early_request(self) -> None:
        """The first `handle_timeout` serves a request that came before the peer's credentials."""
        self.assertTrue(has_timeout_after_an_early_request(Profile.MODERN))
        self.assertFalse(has_timeout_after_an_early_request(Profile.ORIGINAL))

    def test_a_restart(self) -> None:
        a, b = two_agents()
        play((a, b))
        a.ice_restart(IceCreds("CCCC", "R" * 22), True)
        self.assertEqual(a.state, IceConnectionState.CHECKING)
        self.assertIsNone(a.remote_credentials)
        self.assertEqual(len(a.local_candidates()), 1)
        self.assertIn("ufrag CCCC", a.local_candidates()[0])

    def test_the_next_timeout_is_known_after_the_first(self) -> None:
        a, _ = two_agents()
        self.assertIsNone(a.poll_timeout())
        a.handle_timeout(BEGINNING)
        self.assertEqual(a.poll_timeout(), BEGINNING + SECOND // 10)


class Errors(unittest.TestCase):
    def setUp(self) -> None:
        self.agent = IceAgent()

    def test_lines_say_why(self) -> None:
        with self.assertRaises(BadCandidate) as error:
            self.agent.add_remote_candidate("candidate:1 1 udp")
        self.assertEqual(str(error.exception), f"bad candidate: {line_refusal('candidate:1 1 udp')}")
        self.assertIsNone(line_refusal(LINE_OF_THERE))

    def test_a_candidate_with_an_mdns_name(self) -> None:
        hidden = LINE_OF_THERE.replace("10.0.0.2", "3f2b8c1e-5c1e-4b0a-9f5e-1f2e3d4c5b6a.local")
        self.assertTrue(has_mdns_name(hidden))
        self.assertFalse(has_mdns_name(LINE_OF_THERE))
        self.assertFalse(has_mdns_name("candidate:1 1 udp"))
        self.assertRaises(BadCandidate, self.agent.add_remote_candidate, hidden)

    def test_an_agent_on_another_thread(self) -> None:
        with ThreadPoolExecutor(1) as other:
            other.submit(self.agent.handle_timeout, BEGINNING).result()
            self.assertEqual(other.submit(lambda: self.agent.state).result(), IceConnectionState.CHECKING)
            other.submit(self.agent.close).result()
        self.assertRaises(NoAgent, self.agent.poll_event)

    def test_an_agent_of_several_threads(self) -> None:
        def use(number: int) -> None:
            for turn in range(100):
                self.agent.handle_timeout(BEGINNING + (4 * turn + number) * SECOND // 20)
                self.agent.poll_event()
                self.agent.poll_transmit()

        with ThreadPoolExecutor(4) as pool:
            list(pool.map(use, range(4)))
        self.assertEqual(self.agent.state, IceConnectionState.CHECKING)

    def test_candidates_say_why(self) -> None:
        with self.assertRaises(BadCandidate):
            self.agent.add_local_candidate(Candidate.host(SocketAddress("0.0.0.0", 1)))

    def test_settings_begin_as_documented(self) -> None:
        """Their numbers are in docs/API.md: see test_defaults.py."""
        agent, settings = is_ice.IceAgent(), Settings.modern()
        self.assertEqual((agent.mtu, agent.mtu_warn, agent.max_candidates), (1150, 1280, settings.max_candidates))
        self.assertEqual((agent.controlling, agent.ice_lite, agent.settings), (False, False, settings))

    def test_settings(self) -> None:
        self.assertRaises(MtuTooSmall, self.agent.set_mtu, 587, 1280)
        self.assertRaises(BadLimit, self.agent.set_max_stun_retransmits, 0)
        lite = IceAgent()
        lite.set_ice_lite(True)
        self.assertRaises(LiteStaysControlled, lite.set_controlling, True)
        self.assertFalse(lite.controlling)
        self.assertRaises(CredentialsTooLong, self.agent.set_remote_credentials, IceCreds("x" * 600, "p"))
        self.assertRaises(TooFewRandomBytes, self.agent.handle_timeout, BEGINNING, b"short")
        self.assertRaises(ValueError, self.agent.set_initial_stun_rto, -1)
        self.assertRaises(ValueError, self.agent.set_max_candidate_pairs, 1 << 64)

    def test_renomination(self) -> None:
        self.assertEqual(last_paths(False), (HERE, SocketAddress("10.0.0.3", 1000)))
        self.assertEqual(last_paths(True), (HERE, HERE))
        self.assertEqual(last_paths(True, Profile.ORIGINAL), (HERE, HERE))

    def test_nominations_have_numbers(self) -> None:
        """NOMINATION of draft-thatcher-ice-renomination: type 0xC001, four bytes. The agent selects two paths."""
        for renomination, profile, expected in (
                (True, Profile.MODERN, {1, 2}), (True, Profile.ORIGINAL, set()), (False, Profile.MODERN, set())):
            sent: list[bytes] = []
            last_paths(renomination, profile, sent)
            self.assertEqual({int.from_bytes(number, "big") for packet in sent for number in NOMINATION.findall(packet)}, expected)

    def test_settings_are_kept(self) -> None:
        most = (1 << 64) - 1
        changes: tuple[dict[str, Any], ...] = (
            {"profile": Profile.ORIGINAL}, {"profile": Profile.MODERN}, {"timing_advance": most}, {"initial_rto": most}, {"max_rto": most},
            {"max_retransmits": most}, {"lite_timeout": most}, {"consent": Consent(most, strict=True)}, {"consent": Consent(1)},
            {"consent": Consent(None, strict=True)}, {"max_pairs": most}, {"max_discovered": None}, {"max_discovered": 0},
            {"max_candidates": 0}, {"max_candidates": None}, {"renomination": True},
        )
        for change in changes:
            for settings in (Settings.modern(), Settings.original()):
                changed = dataclasses.replace(settings, **change)
                self.agent.set_settings(changed)
                self.assertEqual(self.agent.settings, changed)

    def test_a_setter_sets_its_field(self) -> None:
        """And no other one."""
        setters: dict[str, tuple[Callable[[IceAgent, Any], None], Any]] = {
            "timing_advance": (IceAgent.set_timing_advance, 1), "initial_rto": (IceAgent.set_initial_stun_rto, 2),
            "max_rto": (IceAgent.set_max_stun_rto, 3), "max_retransmits": (IceAgent.set_max_stun_retransmits, 4),
            "lite_timeout": (IceAgent.set_lite_timeout, 5), "max_pairs": (IceAgent.set_max_candidate_pairs, 6),
            "max_discovered": (IceAgent.set_max_discovered, 7), "max_candidates": (IceAgent.set_max_candidates, 8),
            "renomination": (IceAgent.set_renomination, True),
        }
        for name, (setter, value) in setters.items():
            agent = IceAgent()
            setter(agent, value)
            self.assertEqual(agent.settings, dataclasses.replace(Settings.modern(), **{name: value}))

    def test_settings_that_are_refused(self) -> None:
        refused: tuple[dict[str, Any], ...] = (
            {"timing_advance": -1}, {"initial_rto": 1 << 64}, {"max_rto": -1}, {"max_retransmits": 1 << 64}, {"lite_timeout": -1},
            {"consent": Consent(-1)}, {"consent": Consent(1 << 64)}, {"max_pairs": -1}, {"max_discovered": -1}, {"max_candidates": 1 << 64},
        )
        for change in refused:
            self.assertRaises(ValueError, self.agent.set_settings, dataclasses.replace(Settings.modern(), **change))
        self.assertRaises(BadLimit, self.agent.set_settings, dataclasses.replace(Settings.original(), max_retransmits=0))
        self.assertEqual(self.agent.settings, Settings.modern())
        self.agent.close()
        self.assertRaises(NoAgent, self.agent.set_settings, Settings.modern())
        self.assertRaises(NoAgent, lambda: self.agent.settings)

    def test_first_checks_are_repeated_early(self) -> None:
        """Without a response: at first an interval apart, then doubled up to the cap; or after the RTO, which doubles."""
        self.assertEqual(repeated(Profile.MODERN), [0, 100, 200, 400, 750, 1100, 1450, 1800])
        self.assertEqual(repeated(Profile.ORIGINAL), [0, 250, 750, 1750])

    def test_checks_are_closer_until_the_path_is_nominated(self) -> None:
        """10 ms apart, unless Ta is shorter."""
        ms = SECOND // 1000
        self.assertEqual(paced(Profile.MODERN), (10 * ms, 50 * ms))
        self.assertEqual(paced(Profile.MODERN, 7 * ms), (7 * ms, 7 * ms))
        self.assertEqual(paced(Profile.ORIGINAL), (50 * ms, 50 * ms))

    def test_a_controlled_agent_selects_when_the_nomination_arrives(self) -> None:
        """The request that nominates comes on a valid pair. By the original the agent selects it in the next `handle_timeout`."""
        self.assertEqual(selections(Profile.MODERN), ["handle_packet"])
        self.assertEqual(selections(Profile.ORIGINAL), ["handle_timeout"])

    def test_kinds_take_turns(self) -> None:
        """The second check goes to the first kind, server-reflexive candidates, and the fourth one to the next kind, host candidates.

        A host candidate with a public address counts as server-reflexive.
        """
        in_turn, in_order = ["10.0.0.2", "203.0.113.9", "10.0.0.3", "10.0.0.4"], ["10.0.0.2", "10.0.0.3", "10.0.0.4", "203.0.113.9"]
        for kind in ("srflx raddr 0.0.0.0 rport 0", "host"):
            self.assertEqual(first_checks(None, kind), in_turn)
            self.assertEqual(first_checks(Profile.MODERN, kind), in_turn)
            self.assertEqual(first_checks(Profile.ORIGINAL, kind), in_order)

    def test_a_public_base_comes_before_private_ones(self) -> None:
        """Checks go out by priority, except for the second one, which goes to the first kind: only the public base reaches the outside."""
        self.agent.set_remote_credentials(IceCreds("BBBB", "Q" * 22))
        self.agent.add_remote_candidate(LINE_OF_THERE)
        for ip in ("10.0.0.1", "10.0.1.1", "203.0.113.1"):
            self.agent.add_local_candidate(Candidate.host(SocketAddress(ip, 1000)))
        sources: list[str] = []
        for count in range(3):
            self.agent.handle_timeout(BEGINNING + count * SECOND // 20)
            while packet := self.agent.poll_transmit():
                sources.append(packet.source.ip)
        self.assertEqual(sources, ["10.0.0.1", "203.0.113.1", "10.0.1.1"])

    def test_bytes_that_are_no_message(self) -> None:
        self.assertRaises(Unparsed, self.agent.handle_packet, BEGINNING, THERE, HERE, b"media")
        self.assertRaises(Unparsed, self.agent.handle_packet, BEGINNING, THERE, HERE, b"")

    def test_contents_are_bytes(self) -> None:
        self.assertRaises(TypeError, self.agent.handle_packet, BEGINNING, THERE, HERE, "a text")
        self.assertRaises(TypeError, self.agent.handle_timeout, BEGINNING, "twelve wide letters")
        self.assertRaises(Unparsed, self.agent.handle_packet, BEGINNING, THERE, HERE, bytearray(b"media"))

    def test_times_have_64_bits(self) -> None:
        for now in (-1, 1 << 64):
            self.assertRaises(ValueError, self.agent.handle_packet, now, THERE, HERE, b"")
            self.assertRaises(ValueError, self.agent.handle_timeout, now)
        self.assertEqual(self.agent.state, IceConnectionState.NEW)

    def test_protocols_have_numbers(self) -> None:
        self.assertRaises(BadAddress, self.agent.handle_packet, BEGINNING, THERE, HERE, b"", 9)

    def test_an_agent_is_neither_copied_nor_pickled(self) -> None:
        makes: tuple[Callable[[IceAgent], object], ...] = (copy.copy, copy.deepcopy, pickle.dumps)
        for make in makes:
            with self.assertRaisesRegex(TypeError, "IceAgent cannot be copied or pickled"):
                make(self.agent)
        self.assertEqual(self.agent.state, IceConnectionState.NEW)

    def test_an_object_has_one_agent_at_a_time(self) -> None:
        creds = self.agent.local_credentials
        self.assertRaises(HasAgent, self.agent.__init__)  # type: ignore[misc]
        self.assertEqual(self.agent.local_credentials, creds)
        self.agent.close()
        self.agent.__init__()  # type: ignore[misc]
        self.assertNotEqual(self.agent.local_credentials, creds)

    def test_local_credentials_are_of_the_grammar_of_rfc_8839(self) -> None:
        """Section 5.4: ice-ufrag is 4*256ice-char, ice-pwd is 22*256ice-char; ice-char is a letter, a digit, '+' or '/'."""
        good = [("a" * 4, "b" * 22), ("a" * 256, "b" * 22), ("aZ+/", "0" * 256)]
        bad = [("a" * 3, "b" * 22), ("a" * 257, "b" * 22), ("abcd", "b" * 21), ("abcd", "b" * 257), ("ab d", "b" * 22), ("ab:d", "b" * 22),
               ("ab-d", "b" * 22), ("abcd\n", "b" * 22), ("abcd", "b" * 22 + "\n"), ("abcé", "b" * 22), ("abc٣", "b" * 22)]
        for ufrag, pass_ in good:
            creds = IceCreds(ufrag, pass_)
            self.assertEqual(IceAgent(creds).local_credentials, creds)
            self.agent.set_local_credentials(creds)
            self.agent.ice_restart(creds, True)
        for ufrag, pass_ in bad:
            creds = IceCreds(ufrag, pass_)
            self.assertRaisesRegex(ValueError, "RFC 8839", IceAgent, creds)
            self.assertRaisesRegex(ValueError, "RFC 8839", self.agent.set_local_credentials, creds)
            self.assertRaisesRegex(ValueError, "RFC 8839", self.agent.ice_restart, creds, True)
        self.assertEqual(self.agent.local_credentials, IceCreds(*good[-1]))

    def test_a_closed_agent(self) -> None:
        self.agent.close()
        self.agent.close()
        self.assertRaises(NoAgent, self.agent.handle_timeout, BEGINNING)
        self.assertRaises(NoAgent, lambda: self.agent.local_credentials)


class Values(unittest.TestCase):
    def test_credentials(self) -> None:
        creds = new_creds(bytes(38))
        self.assertEqual((len(creds.ufrag), len(creds.pass_)), (16, 22))
        self.assertEqual(creds, new_creds(bytes(38)))
        self.assertNotEqual(new_creds(), new_creds())
        with IceAgent(creds) as agent:
            self.assertEqual(agent.local_credentials, creds)

    def test_nothing_that_has_a_password_prints_it(self) -> None:
        creds = IceCreds("abcd", "secret")
        agent = IceAgent(IceCreds("abcd", "secret" * 4))
        agent.handle_timeout(BEGINNING)
        server = IceServer("turn:192.0.2.1", "user", "secret")
        for value in (creds, IceRestart(creds), [IceRestart(creds)], agent, agent.poll_event(), server):
            for text in (repr(value), str(value), f"{value}", "%r" % (value,)):
                self.assertNotIn("secret", text)
        self.assertIn("abcd", repr(IceRestart(creds)))
        self.assertNotEqual(creds, IceCreds("abcd", "other"))

    def test_a_wrong_password_is_named_after_the_first_packet(self) -> None:
        a, b = two_agents()
        a.set_remote_credentials(IceCreds("BBBB", "W" * 22))
        a.handle_timeout(BEGINNING)
        packet = a.poll_transmit()
        assert packet is not None
        way = (packet.source, packet.destination)
        self.assertIs(b.rejection(*way, packet.contents), Rejection.LOCAL_PASSWORD)
        self.assertEqual(f"{b.rejection(*way, packet.contents)}", "request signed with another password than the agent's")
        self.assertFalse(b.handle_packet(BEGINNING, *way, packet.contents))
        b.set_local_credentials(IceCreds("BBBB", "W" * 22))
        self.assertIsNone(b.rejection(*way, packet.contents))
        self.assertTrue(b.handle_packet(BEGINNING, *way, packet.contents))

    def test_a_rejected_datagram_has_a_reason(self) -> None:
        a, b = two_agents()
        a.handle_timeout(BEGINNING)
        check = a.poll_transmit()
        assert check is not None
        b.handle_packet(BEGINNING, check.source, check.destination, check.contents)
        response = b.poll_transmit()
        assert response is not None
        back, elsewhere = (THERE, HERE), (SocketAddress("10.0.0.3", 2000), HERE)
        self.assertIsNone(a.rejection(*back, response.contents))
        self.assertIs(a.rejection(*elsewhere, response.contents), Rejection.PATH)
        self.assertIs(b.rejection(*back, response.contents), Rejection.NO_CHECK)
        self.assertIs(a.rejection(*back, b"media"), Rejection.UNPARSED)
        a.set_remote_credentials(IceCreds("BBBB", "W" * 22))
        self.assertIs(a.rejection(*back, response.contents), Rejection.REMOTE_PASSWORD)
        self.assertIs(a.rejection(*back, check.contents), Rejection.LOCAL_UFRAG)
        b.set_remote_credentials(IceCreds("CCCC", "P" * 22))
        self.assertIs(b.rejection(HERE, THERE, check.contents), Rejection.REMOTE_UFRAG)
        for method, kind, why in ((StunMethod.ALLOCATE, StunClass.REQUEST, Rejection.METHOD),
                                  (StunMethod.BINDING, StunClass.INDICATION, Rejection.CLASS)):
            other = write_message(method, kind, bytes(12))
            self.assertIs(b.rejection(HERE, THERE, other), why)

    def test_a_request_without_a_response_has_a_reason(self) -> None:
        a, b = two_agents()
        a.handle_timeout(BEGINNING)
        check = a.poll_transmit()
        assert check is not None
        way = (check.source, check.destination)
        self.assertIsNone(b.unserved(*way, check.contents))
        self.assertIs(b.unserved(HERE, SocketAddress("0.0.0.0", 2000), check.contents), Unserved.DESTINATION)
        self.assertEqual(f"{Unserved.DESTINATION}", "request to an address that no local candidate has")
        self.assertIsNone(a.unserved(*way, check.contents))  # it is rejected
        with self.assertRaises(Unparsed):
            b.unserved(*way, b"media")
        b.invalidate_candidate(LINE_OF_THERE.replace("10.0.0.2 2000", "10.0.0.1 1000"))
        self.assertIs(b.unserved(*way, check.contents), Unserved.SENDER)
        b.set_max_discovered(0)
        self.assertIs(b.unserved(SocketAddress("10.0.0.3", 1000), THERE, check.contents), Unserved.LIMIT)
        b.invalidate_candidate(Candidate.host(THERE))
        b.set_max_discovered(None)
        self.assertIs(b.unserved(SocketAddress("10.0.0.3", 1000), THERE, check.contents), Unserved.LOCAL)
        early = IceAgent(IceCreds("BBBB", "Q" * 22))
        self.assertIs(early.unserved(*way, check.contents), Unserved.EARLY)
        self.assertTrue(early.handle_packet(BEGINNING, *way, check.contents))

    def test_candidates_of_each_kind(self) -> None:
        agent = IceAgent()
        seen, relayed = SocketAddress("203.0.113.1", 3000), SocketAddress("198.51.100.1", 4000)
        six = SocketAddress("2001:db8::1", 1000)
        lines = [agent.add_local_candidate(c) for c in (Candidate.host(HERE), Candidate.server_reflexive(seen, HERE),
                                                        Candidate.relayed(relayed, HERE), Candidate.host(six))]
        self.assertEqual([line.split(" typ ")[1].split()[0] for line in lines if line], ["host", "srflx", "relay", "host"])
        self.assertEqual(agent.local_candidates(), lines)
        self.assertIsNone(agent.add_local_candidate(Candidate.host(HERE)))
        self.assertTrue(agent.invalidate_candidate(Candidate.server_reflexive(seen, HERE)))
        self.assertFalse(agent.invalidate_candidate(Candidate.server_reflexive(seen, HERE)))
        self.assertEqual(len(agent.local_candidates()), 3)

    def test_a_remote_candidate_is_added_known_or_ignored(self) -> None:
        agent = IceAgent()
        agent.set_remote_credentials(IceCreds("BBBB", "Q" * 22))
        agent.add_local_candidate(Candidate.host(HERE))
        self.assertEqual(agent.add_remote_candidate(LINE_OF_THERE + " ufrag BBBB"), AddResult.ADDED)
        self.assertEqual(agent.add_remote_candidate(LINE_OF_THERE), AddResult.KNOWN)
        self.assertEqual(agent.add_remote_candidate(LINE_OF_THERE + " ufrag CCCC"), AddResult.OTHER_UFRAG)
        self.assertEqual(agent.add_remote_candidate(LINE_OF_THERE.replace("1 1 udp", "1 2 udp")), AddResult.OTHER_COMPONENT)
        self.assertEqual(agent.add_remote_candidate(LINE_OF_THERE.replace("2000", "2002")), AddResult.ADDED)
        self.assertEqual([result.name for result in AddResult if result.is_ignored], ["OTHER_COMPONENT", "OTHER_UFRAG"])

    def test_at_the_limit_no_candidate_is_added(self) -> None:
        agent = IceAgent()
        agent.set_max_candidates(1)
        agent.add_local_candidate(Candidate.host(HERE))
        agent.add_remote_candidate(LINE_OF_THERE)
        self.assertRaises(TooManyCandidates, agent.add_local_candidate, Candidate.host(THERE))
        self.assertRaises(TooManyCandidates, agent.add_remote_candidate, LINE_OF_THERE.replace("2000", "2002"))
        self.assertEqual((len(agent.local_candidates()), len(agent.remote_candidates())), (1, 1))
        agent.set_max_candidates(None)
        self.assertIsNone(agent.max_candidates)
        self.assertEqual(agent.add_remote_candidate(LINE_OF_THERE.replace("2000", "2002")), AddResult.ADDED)

    def test_addresses_print_as_in_scripts(self) -> None:
        self.assertEqual(str(SocketAddress("2001:db8::1", 80)), "[2001:db8::1]:80")
        self.assertEqual(SocketAddress("2001:db8::1", 80).version, 6)
        self.assertEqual(str(HERE), "10.0.0.1:1000")

    def test_a_preference(self) -> None:
        agent = IceAgent()
        agent.set_local_preference(0)
        low = agent.add_local_candidate(Candidate.host(HERE))
        agent.set_local_preference(None)
        high = agent.add_local_candidate(Candidate.host(SocketAddress("10.0.0.3", 1000)))
        assert low is not None and high is not None
        self.assertLess(int(low.split()[3]), int(high.split()[3]))

    def test_each_listed_candidate_can_be_invalidated(self) -> None:
        """Also after equal ones. With one local preference for all, a candidate that is added again may be listed twice."""
        hosts = [Candidate.host(SocketAddress("10.0.0.1", 1000 + number)) for number in range(4)]
        for seed in range(30):
            random, agent = Random(seed), IceAgent()
            agent.set_local_preference(65535)

            def listed(agent: IceAgent = agent) -> Counter[int]:
                return Counter(fields.address.port - 1000 for fields in agent.local_fields())

            for adds in random.sample([True] * 20 + [False] * 25, 45):
                number, before = random.randrange(4), listed()
                if adds:
                    agent.add_local_candidate(hosts[number])
                    self.assertGreater(listed()[number], 0)
                    self.assertFalse(before - listed())
                else:
                    self.assertEqual(agent.invalidate_candidate(hosts[number]), before[number] > 0)
                    self.assertEqual(listed(), before - Counter([number]))
            for number, left in listed().items():
                self.assertEqual([agent.invalidate_candidate(hosts[number]) for _ in range(left + 1)], [True] * left + [False])
            self.assertEqual(agent.local_candidates(), [])

    def test_pairs(self) -> None:
        a, b = two_agents()
        self.assertEqual([(pair.state, pair.due, pair.rtt) for pair in a.pairs], [(CheckState.WAITING, None, None)])
        play((a, b))
        (pair,) = a.pairs
        self.assertTrue(pair.nominated and pair.selected)
        self.assertEqual((pair.local, pair.remote, pair.state, pair.rtt), (0, 0, CheckState.SUCCEEDED, 0))
        self.assertEqual(pair.responses, a.stats.bind_success_recv)
        assert pair.due is not None and pair.last_request is not None
        self.assertGreater(pair.due, pair.last_request)
        self.assertEqual(a.pairs, a.pairs)

    def test_a_removed_pair_has_its_path_its_figures_and_the_reason(self) -> None:
        a, _ = two_agents()
        (pair,) = a.pairs
        self.assertEqual(a.removed_pairs(), [])
        self.assertTrue(a.invalidate_candidate(LINE_OF_THERE))
        removed = RemovedPair(
            MediaPath(HERE, THERE, Protocol.UDP), pair.priority, CheckState.WAITING, 0, 0, None, Removal.INVALIDATED)
        self.assertEqual((a.pairs, a.removed_pairs(), a.removed_pairs(1)), ([], [removed], []))
        self.assertEqual(str(removed), "10.0.0.1:1000 -> 10.0.0.2:2000 waiting, 0 checks sent, 0 answered: invalidated")
        a.ice_restart(new_creds(), True)
        self.assertEqual(a.removed_pairs(), [])

    def test_a_removed_pair_has_the_code_of_an_error_response(self) -> None:
        a, b = two_agents()
        set_profile(a, Profile.ORIGINAL)
        a.set_initial_stun_rto(SECOND // 4)
        a.set_max_stun_retransmits(2)
        a.handle_timeout(BEGINNING)
        check = a.poll_transmit()
        assert check is not None
        refusal = write_message(StunMethod.BINDING, StunClass.FAILURE, StunMessage(check.contents).transaction,
                                key=b.local_credentials.pass_.encode(), error=(400, "Bad Request"))
        self.assertTrue(a.handle_packet(BEGINNING, THERE, HERE, refusal))
        for after in (SECOND // 4, SECOND * 3 // 4):
            a.handle_timeout(BEGINNING + after)
        self.assertEqual([str(pair) for pair in a.removed_pairs()], [
            "10.0.0.1:1000 -> 10.0.0.2:2000 in progress, 2 checks sent, 0 answered, error response 400: no response"])

    def test_the_last_32_removed_pairs_are_listed(self) -> None:
        agent = IceAgent()
        agent.add_local_candidate(Candidate.host(HERE))
        for port in range(40):
            line = LINE_OF_THERE.replace(" 2000 ", f" {2000 + port} ")
            agent.add_remote_candidate(line)
            agent.invalidate_candidate(line)
        ports = [pair.path.destination.port for pair in agent.removed_pairs() if pair.path]
        self.assertEqual(ports, list(range(2008, 2040)))

    def test_preferences_by_kind(self) -> None:
        agent = IceAgent()
        agent.set_preference_table(KindPreferences(100, 90, 80, 70), KindPreferences(200, 190, 180, 170))
        lines = [agent.add_local_candidate(Candidate.host(SocketAddress(ip, 1))) for ip in ("10.0.0.1", "10.0.0.2", "2001:db8::1")]
        # type preference 126, component 1 (RFC 8445, 5.1.2.1)
        wanted = [(126 << 24) + (preference << 8) + 255 for preference in (100, 99, 200)]
        self.assertEqual([int(line.split()[3]) for line in lines if line], wanted)

    def test_a_state_prints_its_name(self) -> None:
        self.assertEqual(str(IceConnectionState.CHECKING), "State.Checking")
        self.assertEqual(f"{IceAgent().state}", "State.New")
        self.assertEqual(IceConnectionState.CHECKING, 1)

    def test_the_library_next_to_the_module_comes_first(self) -> None:
        with tempfile.TemporaryDirectory() as folder, mock.patch.object(_library, "__file__", str(Path(folder, "is_ice", "_library.py"))):
            with mock.patch.dict(os.environ):
                os.environ.pop("IS_ICE_LIB", None)
                self.assertEqual(_library.library_path(), Path(folder).resolve() / "out" / _library.NAME)
                os.environ["IS_ICE_LIB"] = "/elsewhere/libis_c.a"
                self.assertEqual(_library.library_path(), Path(folder).resolve() / "out" / _library.NAME)
                os.environ["IS_ICE_LIB"] = "/elsewhere/lib.so"
                self.assertEqual(_library.library_path(), Path("/elsewhere/lib.so"))
                installed = Path(folder).resolve() / "is_ice" / _library.NAME
                installed.parent.mkdir()
                installed.touch()
                self.assertEqual(_library.library_path(), installed)

    def test_each_public_name_has_a_docstring(self) -> None:
        for name in is_ice.__all__:
            item = getattr(is_ice, name)
            if not inspect.isclass(item) and not inspect.isfunction(item):
                continue  # IceAgentEvent, a union
            self.assertTrue(item.__dict__.get("__doc__") if inspect.isclass(item) else item.__doc__, name)
            for method, value in vars(item).items() if inspect.isclass(item) else ():
                value = getattr(value, "__func__", value)
                if not method.startswith("_") and (inspect.isfunction(value) or isinstance(value, property)):
                    self.assertTrue(value.__doc__, f"{name}.{method}")

    def test_a_packet_is_read_by_its_offsets(self) -> None:
        packet = _abi.Packet(source=address_of(HERE), destination=address_of(THERE), length=3, protocol=2)
        path, length, protocol = PACKET.unpack_from(packet)
        self.assertEqual((PATHS[path], length, protocol), ((HERE, THERE), 3, 2))
        self.assertEqual(PACKET.size, ctypes.sizeof(_abi.Packet))

    def test_a_buffer_grows_to_a_packet(self) -> None:
        a, b = two_agents()
        a.handle_timeout(BEGINNING)
        a._loop._spare[-1].make_room(8)
        packet = a.poll_transmit()
        assert packet is not None
        self.assertTrue(b.handle_packet(BEGINNING, packet.source, packet.destination, packet.contents))

    def test_few_addresses_are_kept(self) -> None:
        for port in range(1 << 14):
            POINTERS[SocketAddress("10.0.0.3", port)]
        POINTERS[HERE]
        self.assertLessEqual(len(POINTERS), 1 << 14)

    def test_an_agent_that_is_dropped_on_another_thread(self) -> None:
        kept = [IceAgent()]
        thread = threading.Thread(target=kept.clear)
        thread.start()
        thread.join()
        self.assertEqual(kept, [])


if __name__ == "__main__":
    unittest.main()
