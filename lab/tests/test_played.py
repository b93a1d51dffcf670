"""Tests that the checkers of the rows of docs/HEADLINE.md on one agent find a fault in an altered record, and what they leave undecided."""

import unittest
from collections.abc import Callable
from dataclasses import replace
from typing import Any

from is_ice import (
    Candidate, DiscoveredRecv, IceAgent, IceConnectionState, NominatedSend, Profile, Protocol, Settings, SocketAddress, new_creds)
from is_ice.errors import IceError

from lab import scenario
from lab.clauses import along, bounded, new_agents, settings_set, uses
from lab.clauses.found import Found, Records
from lab.clock import Clock
from lab.log import Beginning, Entry, Log
from lab.tests.altered import Altered, Change, seen
from lab.view import Called, ShownPair
from lab.witness import Record, WitnessLog, accepted, play

SOCKET, PEER = SocketAddress("10.0.0.1", 1), SocketAddress("10.0.0.2", 2)


def with_calls(record: Record, calls: list[Called]) -> Record:
    return replace(record, witness=replace(record.witness, calls=calls))


def each(record: Record, change: Change) -> Record:
    return with_calls(record, [change(c) for c in record.witness.calls])


def at(record: Record, is_it: Callable[[Called], bool], change: Change) -> Record:
    """The record with the last such call changed."""
    calls = list(record.witness.calls)
    index = max(i for i, c in enumerate(calls) if is_it(c))
    calls[index] = change(calls[index])
    return with_calls(record, calls)


def seen_after(c: Called, **changes: Any) -> Called:
    return replace(c, after=replace(c.after, **changes))


def unanswered(record: Record, kind: str) -> Record:
    """The record as if OK had not been returned for messages of this kind."""
    return each(record, lambda c: replace(c, entry=replace(c.entry, returned=False)) if accepted(c.entry, kind) else c)


def is_timeout(c: Called) -> bool:
    return c.entry.call == "handle_timeout"


def with_pairs(c: Called, change: Callable[[ShownPair], ShownPair]) -> Called:
    return seen_after(c, pairs=tuple(change(p) for p in c.after.pairs))


class AlteredSession(Altered):
    """Records of a real session, in which something is altered."""

    @classmethod
    def setUpClass(cls) -> None:
        cls.records = play(scenario.load("two_homes"), 0, 10)
        cls.restarted = play(scenario.load("change_of_network"), 0)
        cls.renominated = play(scenario.load("two_links_renominated"), 0)

    records: Records
    restarted: Records
    renominated: Records

    def setUp(self) -> None:
        self.controlled = next(r for r in self.records.values() if not r.witness.began_controlling)
        self.controlling = next(r for r in self.records.values() if r.witness.began_controlling)
        self.follower = next(r for r in self.renominated.values() if not r.witness.began_controlling)

    def assert_decides(self, found: Found, is_true: bool) -> None:
        self.assertEqual((found.held > 0, not found.faults), (True, is_true))

    def restart(self, record: Record, before: Called) -> Record:
        """The record with a restart before this call."""
        call = Called(before.at - 1, Entry(before.entry.time, before.entry.side, "ice_restart"), before.before, before.before)
        return with_calls(record, [x for c in record.witness.calls for x in ([call, c] if c is before else [c])])


class NewAgents(AlteredSession):
    def test_what_is_seen_of_a_new_agent(self) -> None:
        born = self.controlled.witness.born
        changes: dict[str, Any] = {
            "state": IceConnectionState.CHECKING, "controlling": True, "lite": True, "mtu": 1, "mtu_warn": 1, "early": 1, "local": 1,
            "peer": new_creds(), "pairs": (1,), "remote": 1, "due": 1, "creds": new_creds(), "settings": Settings.original()}
        for name, value in changes.items():
            altered = replace(born, view=replace(born.view, **{name: value}))
            self.assert_fault(self.found(replace(self.controlled.witness, born=altered)), name)
        self.assert_fault(self.found(replace(self.controlled.witness, born=replace(born, rest=(1,)))))
        self.assert_holds(self.found(self.controlled.witness))

    def test_the_tie_breaker_of_the_first_check(self) -> None:
        other = replace(self.controlled, tie_breaker=self.controlled.tie_breaker ^ 1)
        self.assert_fault(new_agents.new_agents_are_fresh(other))
        sets = replace(other, witness=replace(other.witness, sets_role=True))
        self.assert_holds(new_agents.new_agents_are_fresh(sets))

    def found(self, witness: Any) -> Found:
        return new_agents.new_agents_are_fresh(replace(self.controlled, witness=witness))


class Set(AlteredSession):
    """An agent whose program sets every setting, some of them with values that the library does not take."""

    CALLS: tuple[tuple[str, tuple[Any, ...]], ...] = (
        ("set_timing_advance", (7,)), ("set_initial_stun_rto", (8,)), ("set_max_stun_rto", (9,)), ("set_max_stun_retransmits", (5,)),
        ("set_max_stun_retransmits", (0,)), ("set_lite_timeout", (6,)), ("set_max_candidate_pairs", (4,)), ("set_max_discovered", (3,)),
        ("set_max_candidates", (2,)), ("set_renomination", (True,)), ("set_ice_lite", (True,)), ("set_mtu", (1200, 1300)),
        ("set_mtu", (1, 1)), ("set_settings", (replace(Settings.modern(), max_pairs=11),)),
        ("set_settings", (replace(Settings.modern(), max_retransmits=0),)))

    def record(self) -> Record:
        log, creds = WitnessLog(False), new_creds()
        log.sides["a"] = Beginning(creds, 1)
        agent = log.wrapped(IceAgent(creds, 1), "a", Clock())
        for call, given in self.CALLS:
            try:
                getattr(agent, call)(*given)
            except IceError:
                pass
        return Record([], log.agents["a"].witness, 1, log)

    def test_each_setting(self) -> None:
        record = self.record()
        self.assertEqual(len(record.witness.calls), len(self.CALLS))
        self.assertEqual(sum(bool(c.error) for c in record.witness.calls), 3)
        self.assert_holds(settings_set.settings_are_those_set(record))
        for left in record.witness.calls:
            found = settings_set.settings_are_those_set(with_calls(record, [c for c in record.witness.calls if c is not left]))
            self.assertEqual(bool(found.faults), not left.error, left.entry)

    def test_a_setting_that_changes_by_itself(self) -> None:
        for name, value in (("lite", True), ("mtu", 9), ("mtu_warn", 9), ("settings", Settings.original())):
            self.assert_fault(settings_set.settings_are_those_set(at(self.controlled, is_timeout, seen(**{name: value}))), name)

    def test_the_tie_breaker_of_later_checks(self) -> None:
        self.assert_fault(settings_set.settings_are_those_set(replace(self.controlled, tie_breaker=1)))


class Uses(AlteredSession):
    def test_a_call_that_nothing_follows(self) -> None:
        for call in ("set_mtu", "set_max_candidates"):
            last = self.controlled.witness.calls[-1]
            plain = Called(last.at + 1, Entry(0, "a", call), last.after, last.after)
            for due, is_true in ((last.after.due, True), (1, False)):
                more = [*self.controlled.witness.calls, seen_after(plain, due=due)]
                self.assert_decides(uses.followed_are_uses(with_calls(self.controlled, more)), is_true)

    def test_a_call_that_does_not_return_ok(self) -> None:
        failed = at(self.controlled, lambda c: c.entry.call == "handle_packet",
                    lambda c: replace(seen_after(c, due=1), entry=replace(c.entry, returned=False)))
        self.assert_fault(uses.followed_are_uses(failed))

    def test_the_deadline_moves_up_and_is_soon(self) -> None:
        first = next(c for c in self.controlled.witness.calls if c.entry.call == "add_remote_candidate" and c.before.due)
        due = first.before.due or 0
        for now, is_true in ((due - 1, True), (due + 1, False), (None, True)):
            self.assert_decides(uses.followed_are_uses(at(self.controlled, lambda c: c is first, seen(due=now))), is_true)
        late = replace(seen_after(first, due=due + 10 ** 9), before=replace(first.before, due=None))
        self.assert_fault(uses.followed_are_uses(at(self.controlled, lambda c: c is first, lambda c: late)))

    def test_runs(self) -> None:
        log = self.controlled.log
        self.assert_holds(uses.sessions_are_runs(log))
        dropped: tuple[Callable[[Entry], bool], ...] = (
            lambda e: e.call == "poll_transmit", lambda e: e.call == "set_remote_credentials", lambda e: e.call == "handle_packet",
            lambda e: isinstance(e.returned, NominatedSend), lambda e: isinstance(e.returned, DiscoveredRecv))
        for is_dropped in dropped:
            entries = list(log.entries)
            del entries[max(i for i, e in enumerate(entries) if is_dropped(e))]
            self.assert_fault(uses.sessions_are_runs(Log(log.sides, entries, log.removed)))

    def test_runs_of_agents_that_restart(self) -> None:
        self.assert_holds(uses.sessions_are_runs(self.restarted["a"].log))


class Paths(AlteredSession):
    def test_answered(self) -> None:
        for record in (self.controlled, self.controlling):
            self.assert_holds(along.paths_are_answered(record))
            first = next(c for c in record.witness.calls if c.selected)
            unknown = each(record, lambda c: replace(c, before=replace(c.before, peer=new_creds())))
            for altered in (unanswered(record, "success"), unknown, each(record, lambda c: replace(c, packets=()))):
                self.assert_fault(along.paths_are_answered(altered))
            answers = next(c for c in record.witness.calls if accepted(c.entry, "success"))
            self.assert_fault(along.paths_are_answered(self.restart(record, answers)))
            self.assertEqual(first.selected, [p.path for p in first.after.pairs if p.is_selected])

    def test_nominated_by_the_peer(self) -> None:
        find = along.paths_are_nominated_by_peer
        self.assert_holds(find(self.controlled))
        self.assert_holds(find(self.follower))
        self.assert_fault(find(unanswered(self.controlled, "request")))
        self.assert_lacks(find(self.controlling))
        first = next(c for c in self.controlled.witness.calls if c.selected)
        was = at(self.controlled, lambda c: c.at < first.at, lambda c: seen_after(c, controlling=True))
        self.assert_lacks(find(was))
        self.assert_holds(find(self.restart(was, first)))

    def test_first_choice(self) -> None:
        find = along.paths_are_first_choice
        for record in (self.controlled, self.controlling, self.follower):
            self.assert_holds(find(record))
            self.assert_fault(find(each(record, lambda c: replace(c, events=()))))
        greater = ShownPair((PEER, PEER), 1, 1 << 63, True, True, False)
        for record in (self.controlled, self.controlling):
            self.assert_fault(find(each(record, lambda c: seen_after(c, pairs=(*c.after.pairs, greater)))))
            ineligible = replace(greater, is_valid=False)
            self.assert_holds(find(each(record, lambda c: seen_after(c, pairs=(*c.after.pairs, ineligible)))))

    def test_the_number_goes_before_the_priority(self) -> None:
        greater = ShownPair((PEER, PEER), 1, 1 << 63, True, True, False)
        first, later = [c for c in self.follower.witness.calls if c.selected][:2]
        added = each(self.follower, lambda c: seen_after(c, pairs=(*c.after.pairs, *[greater] * (c.at >= first.at))))
        self.assert_holds(along.paths_are_first_choice(added))
        self.assert_fault(along.paths_are_first_choice(at(self.follower, lambda c: c is later, lambda c: replace(c, events=()))))

    def test_connected_exactly_with_a_path(self) -> None:
        find = along.connected_have_path
        for record in (self.controlled, self.controlling, self.restarted["a"]):
            self.assert_holds(find(record))
            for state in (IceConnectionState.CHECKING, IceConnectionState.DISCONNECTED):
                self.assert_fault(find(at(record, is_timeout, seen(state=state))))
            self.assert_fault(find(at(record, is_timeout, lambda c: with_pairs(c, lambda p: replace(p, is_nominated=False)))))
            self.assert_fault(find(at(record, is_timeout, lambda c: with_pairs(c, lambda p: replace(p, is_valid=False)))))
            self.assert_fault(find(each(record, lambda c: replace(c, events=()))))
        first = self.controlled.witness.calls[0]
        early = seen_after(first, state=IceConnectionState.CONNECTED)
        self.assert_fault(find(with_calls(self.controlled, [early])))

    def test_it_leaves_modern(self) -> None:
        original = replace(Settings.modern(), profile=Profile.ORIGINAL)
        for call, value in (("set_ice_lite", True), ("set_settings", original)):
            other = replace(self.controlled, entries=[(0, Entry(0, "b", call, (value,))), *self.controlled.entries])
            for find in (along.paths_are_answered, along.paths_are_nominated_by_peer, along.connected_have_path):
                self.assert_lacks(find(other))


class Bounds(AlteredSession):
    def test_one_packet(self) -> None:
        self.assert_holds(bounded.each_queues_one(self.controlled))
        two = at(self.controlled, lambda c: len(c.packets) == 1, lambda c: replace(c, packets=c.packets * 2))
        self.assert_fault(bounded.each_queues_one(two))

    def test_each_bound(self) -> None:
        self.assert_holds(bounded.stays_bounded(self.controlled))
        gathered = sum(c.entry.call == "add_local_candidate" for c in self.controlled.witness.calls)
        signals = sum(c.entry.call == "add_remote_candidate" for c in self.controlled.witness.calls)
        for name, most in (("local", 32 + gathered), ("remote", 32 + signals), ("early", 100)):
            for count, is_true in ((most, True), (most + 1, False)):
                self.assert_decides(bounded.stays_bounded(at(self.controlled, is_timeout, seen(**{name: count}))), is_true)

    def test_what_waits(self) -> None:
        found, selected = DiscoveredRecv(Protocol.UDP, PEER), NominatedSend(Protocol.UDP, SOCKET, PEER)
        for events, is_true in (((found,) * 32 + (selected,) * 5, True), ((found,) * 33, False), ((selected,) * 6, False)):
            last = next(c for c in reversed(self.controlled.witness.calls) if is_timeout(c))
            other = replace(last, events=events)
            self.assert_decides(bounded.stays_bounded(at(self.controlled, is_timeout, lambda c: other)), is_true)
        packet = next(c.packets[0] for c in self.controlled.witness.calls if c.packets)
        adds = at(self.controlled, lambda c: c.entry.call == "add_remote_candidate", lambda c: replace(c, packets=(packet,)))
        self.assert_fault(bounded.stays_bounded(adds))

    def test_a_flood_reaches_the_bound(self) -> None:
        log, clock, creds, peer = WitnessLog(False), Clock(), new_creds(), new_creds()
        log.sides["a"] = Beginning(creds, 1)
        victim, sender = log.wrapped(IceAgent(creds, 1), "a", clock), IceAgent(peer, 2)
        for agent, other, socket in ((victim, peer, SOCKET), (sender, creds, PEER)):
            agent.set_remote_credentials(other)
            agent.add_local_candidate(Candidate.host(socket))
        sender.add_remote_candidate(victim.local_candidates()[0])
        sender.handle_timeout(clock.now)
        check = sender.poll_transmit()
        assert check is not None
        for port in range(1000, 1060):
            victim.handle_packet(clock.now, SocketAddress("10.0.0.3", port), SOCKET, check.contents)
        record = Record([], log.agents["a"].witness, 1, log)
        self.assert_holds(bounded.stays_bounded(record))
        self.assert_holds(bounded.each_queues_one(record))
        self.assertEqual(record.witness.calls[-1].after.remote, 32)

    def test_it_sets_the_limit(self) -> None:
        last = self.controlled.witness.calls[-1]
        for call in ("set_max_discovered", "set_settings"):
            more = [*self.controlled.witness.calls, replace(last, entry=replace(last.entry, call=call))]
            self.assert_lacks(bounded.stays_bounded(with_calls(self.controlled, more)))


if __name__ == "__main__":
    unittest.main()
