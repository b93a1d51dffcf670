"""Logs that a test writes: two agents by the model of `lab.model`, whose calls and deliveries a test makes one by one."""

from __future__ import annotations

from dataclasses import replace
from typing import Any

from is_ice import (Candidate, Consent, DiscoveredRecv, IceConnectionStateChange, IceCreds, NominatedSend, Profile, Protocol, Settings,
                    SocketAddress, Transmit)
from lab.clauses.execution import Execution
from lab.clauses.accepted_nominations import Network
from lab.clock import BEGINNING, MILLISECOND, SECOND
from lab.log import Beginning, Entry, Log
from lab.model import Agent, Issued
from lab.pairs import Path, Timing
from lab.replay import Replay, after_setting, followed, other, replay
from lab.requests import Request
from lab.stun import NOMINATION

A, B = SocketAddress("10.0.0.1", 1000), SocketAddress("10.0.0.2", 2000)
COOKIE = bytes.fromhex("2112a442")
USERNAME, XOR_MAPPED_ADDRESS, PRIORITY, USE_CANDIDATE, ICE_CONTROLLED, ICE_CONTROLLING = 0x0006, 0x0020, 0x0024, 0x0025, 0x8029, 0x802A
TYPES = {"request": 0x0001, "success": 0x0101, "failure": 0x0111}
LINE = "candidate:1 1 udp {} {} {} typ {}"
TO_A, TO_B = (B, A), (A, B)  # the paths of b and of a
OUTSIDE = SocketAddress("203.0.113.1", 1000)
REQUEST = Request(BEGINNING, A, B, bytes(12), 1, False, "aaaa", 1, None)
# The numbers from which the times in tests follow, whatever a new agent has, with either profile.
ORIGINAL = Settings(
    profile=Profile.ORIGINAL, timing_advance=50 * MILLISECOND, initial_rto=250 * MILLISECOND, max_rto=3 * SECOND, max_retransmits=9,
    lite_timeout=15 * SECOND, consent=Consent(), max_pairs=100, max_discovered=32, max_candidates=100, renomination=False)
MODERN = replace(ORIGINAL, profile=Profile.MODERN)
PROFILES = (ORIGINAL, MODERN)


def timing(modern: bool = False) -> Timing:
    """Returns the timing of these settings."""
    return Timing(ORIGINAL.initial_rto, ORIGINAL.max_rto, ORIGINAL.max_retransmits, ORIGINAL.lite_timeout, modern)


def at(time: float) -> int:
    """Returns the time so many milliseconds after the beginning."""
    return BEGINNING + round(time * MILLISECOND)


def message(kind: str, id: bytes, attributes: dict[int, bytes]) -> bytes:
    """Writes a STUN message."""
    body = b"".join(t.to_bytes(2, "big") + len(v).to_bytes(2, "big") + v + bytes(-len(v) % 4) for t, v in attributes.items())
    return TYPES[kind].to_bytes(2, "big") + len(body).to_bytes(2, "big") + COOKIE + id + body


def mapped(address: SocketAddress) -> bytes:
    """Writes the value of XOR-MAPPED-ADDRESS."""
    ip = bytes(int(n) ^ k for n, k in zip(address.ip.split("."), COOKIE))
    return b"\x00\x01" + (address.port ^ 0x2112).to_bytes(2, "big") + ip


class Story:
    """Two agents with one host candidate each, and the log of what a test lets happen. Times are milliseconds from the beginning."""

    def __init__(self, roles: tuple[bool, bool] = (True, False), known: bool = True, hosts: tuple[int, int] = (1, 1),
                 ties: tuple[int, int] = (10, 5), settings: Settings = ORIGINAL) -> None:
        self.log = Log()
        self.agents: dict[str, Agent] = {}
        self.moments: dict[str, list[int]] = {"a": [], "b": []}  # the indices of the `handle_timeout` calls
        self.ids = 0
        for side, role, tie in zip("ab", roles, ties):
            creds = IceCreds(side * 4, side * 22)
            self.log.sides[side] = Beginning(creds, tie, role, settings.profile is Profile.MODERN)
            self.agents[side] = Agent(creds, tie, role, timing=Timing(modern=settings.profile is Profile.MODERN))
            if self.agents[side].with_settings(settings) != self.agents[side]:
                self.set(side, "set_settings", settings)
        for side, first, count in zip("ab", (A, B), hosts):
            for n in range(count):
                self.host(side, first._replace(port=first.port + n), 126 << 24 | (65535 - n) << 8 | 255)
        if known:
            self.know("a")
            self.know("b")

    # ---- what the checkers get

    @property
    def end(self) -> int:
        """The number of entries."""
        return len(self.log.entries)

    def session(self) -> Replay:
        """Returns the log with its states. The model has to foresee each call."""
        session = replay(self.log)
        assert not session.differences, session.differences
        return session

    def network(self) -> Network:
        """Returns the log as the checkers of `World::run` get it."""
        return Network(Execution(self.session()))

    def altered(self, at: int, side: str, **fields: Any) -> Network:
        """Returns the same, with another state of the side before one entry."""
        session = self.session()
        step = session.steps[at]
        session.steps[at] = replace(step, before={**step.before, side: replace(step.before[side], **fields)})
        return Network(Execution(session))

    def with_pair(self, at: int, number: int, **fields: Any) -> Execution:
        """Returns the log, with another pair of A before one entry."""
        pairs = self.network().x.state(at, "a").pairs
        return self.altered(at, "a", pairs=tuple(replace(p, **fields) if p.number == number else p for p in pairs)).x

    def unsent(self) -> Execution:
        """Returns the log, without the packets that A sends."""
        entries = [e for e in self.log.entries if e.call != "poll_transmit" or e.side == "b"]
        return Execution(replay(replace(self.log, entries=entries)))

    def segment(self, first: int, rounds: int) -> tuple[int, int]:
        """Returns the entries from one of A's `handle_timeout` calls up to the end of so many rounds."""
        return self.moments["a"][first], self.moments["a"][first + rounds - 1] + 1

    # ---- calls

    def _becomes(self, side: str, new: Agent) -> None:
        """The side is `new` after the call that was logged last, and then what follows that call."""
        self.agents[side] = followed(self.agents[side], new, self.log.entries[-1])

    def _log(self, time: float, side: str, call: str, given: tuple[object, ...] = (), returned: object = None) -> None:
        self.log.entries.append(Entry(at(time), side, call, given, returned))

    def host(self, side: str, address: SocketAddress, priority: int, time: float = 0) -> None:
        """The side adds a host candidate."""
        self.local(side, Candidate.host(address), LINE.format(priority, address.ip, address.port, "host"), time)

    def local(self, side: str, candidate: Candidate, line: str, time: float = 0) -> None:
        """The side adds a local candidate."""
        self._joins(time, side, self.agents[side].add_local(candidate, line), "add_local_candidate", candidate, line)

    def know(self, side: str, time: float = 0) -> None:
        """The side gets the other one's credentials and candidates."""
        self.meet(side, time)
        for place in self.agents[other(side)].local:
            self.remote(side, LINE.format(place.priority, place.address.ip, place.address.port, place.kind), time)

    def meet(self, side: str, time: float = 0) -> None:
        """The side gets the other one's credentials."""
        self.set(side, "set_remote_credentials", self.agents[other(side)].creds, time)

    def invalidate(self, side: str, candidate: Candidate, time: float = 0) -> None:
        """The side removes a candidate."""
        new = self.agents[side].invalidate(candidate)
        self._joins(time, side, new, "invalidate_candidate", candidate, new is not self.agents[side])

    def set(self, side: str, name: str, value: object, time: float = 0) -> None:
        """The side changes a setting."""
        self._log(time, side, name, (value,))
        old = self.agents[side]
        self._becomes(side, after_setting(old, self.log.entries[-1]))
        if self.agents[side].state is not old.state:
            self._log(time, side, "poll_event", (), IceConnectionStateChange(self.agents[side].state))

    def limit(self, side: str, pairs: int, time: float = 0) -> None:
        """The side limits its pairs, so that a further candidate may remove one."""
        self.set(side, "set_max_candidate_pairs", pairs, time)

    def evict(self, side: str, time: float = 0) -> None:
        """The side limits its pairs to one, and adds a remote candidate whose pair may remove the present one."""
        self.limit(side, 1, time)
        self.remote(side, LINE.format(126 << 24 | 65535 << 8 | 255, "10.0.0.9", 9, "host"), time)

    def remote(self, side: str, line: str, time: float = 0) -> None:
        """The side gets a remote candidate."""
        self._joins(time, side, self.agents[side].add_remote(line), "add_remote_candidate", line, None)

    def _joins(self, time: float, side: str, joined: Agent, call: str, given: object, returned: object) -> None:
        """Logs a call that adds or removes a candidate, after which the side is `joined`, or selects another path."""
        old = self.agents[side]
        new, paths = joined.reselected(old)
        self._log(time, side, call, (given,), returned)
        self._becomes(side, old if joined is old else new)
        self._events(time, side, old, paths)

    def timeout(self, side: str, time: float) -> Transmit | None:
        """The side's `handle_timeout`, followed by its polls. Returns the check that it sends."""
        self.ids += 1
        now, id = at(time), self.ids.to_bytes(12, "big")
        new, issued, paths = self.agents[side].timeout(now, id)
        self.moments[side].append(self.end)
        self._log(time, side, "handle_timeout", (now, id))
        return self._polls(side, time, new, issued, paths)

    def passes(self, side: str, *times: float) -> None:
        """Timeouts of the side whose checks are lost."""
        for time in times:
            self.timeout(side, time)

    def deliver(self, packet: Transmit | None, side: str, time: float, via: Path | None = None) -> Transmit | None:
        """Delivers a packet to the side, perhaps with other addresses. Returns the response that the side sends."""
        assert packet is not None
        now, (source, local) = at(time), via or (packet.source, packet.destination)
        new, issued, paths = self.agents[side].packet(now, source, local, packet.contents)
        self._log(time, side, "handle_packet", (now, source, local, packet.contents), True)
        return self._polls(side, time, new, issued, paths)

    def _polls(self, side: str, time: float, new: Agent, issued: Issued | None, paths: tuple[Path, ...]) -> Transmit | None:
        old, packet = self.agents[side], None
        self._becomes(side, new)
        wake = self.agents[side].deadline
        if not new.modern:
            self.agents[side], wake = new.poll_timeout(issued is not None)
        self._log(time, side, "poll_timeout", (), wake)
        if issued is not None:
            packet = Transmit(Protocol.UDP, *issued.path, message(issued.kind, issued.id, self._attributes(old, new, issued)))
            self._log(time, side, "poll_transmit", (), packet)
        self._events(time, side, old, paths)
        return packet

    def _events(self, time: float, side: str, old: Agent, paths: tuple[Path, ...]) -> None:
        """Logs the events of a call before which the side was `old`."""
        new = self.agents[side]
        if new.state is not old.state:
            self._log(time, side, "poll_event", (), IceConnectionStateChange(new.state))
        for path in paths:
            self._log(time, side, "poll_event", (), NominatedSend(Protocol.UDP, *path))
        if (source := new.discovered_since(old)) is not None:
            self._log(time, side, "poll_event", (), DiscoveredRecv(Protocol.UDP, source))

    @staticmethod
    def _attributes(old: Agent, new: Agent, issued: Issued) -> dict[int, bytes]:
        if issued.kind == "success":
            return {XOR_MAPPED_ADDRESS: mapped(issued.path[1])}
        if issued.kind == "failure":
            return {0x0009: b"\x00\x00\x04\x57"}
        assert old.peer is not None
        pair = next(p for p in new.pairs if p.checks and p.checks[-1].id == issued.id)
        found = {USERNAME: f"{old.peer.ufrag}:{old.creds.ufrag}".encode(),
                 PRIORITY: new.local[pair.local].check_priority.to_bytes(4, "big"),
                 ICE_CONTROLLING if old.controlling else ICE_CONTROLLED: old.tie_breaker.to_bytes(8, "big")}
        if not (old.controlling and new.stays_nominated(pair)):
            return found
        number = {NOMINATION: new.nominations.to_bytes(4, "big")} if new.numbers else {}
        return {**found, USE_CANDIDATE: b"", **number}

    # ---- several at once

    def exchange(self, side: str, time: float, there: float = 5, back: float = 10) -> None:
        """A timeout of the side, whose check and response are delivered after so many milliseconds."""
        response = self.deliver(self.timeout(side, time), other(side), time + there)
        self.deliver(response, side, time + back)
