"""Tests that sessions meet the clauses of docs/HEADLINE.md, by what a program passes and gets, and that a checker finds a fault."""

import unittest
from collections.abc import Callable
from dataclasses import replace
from itertools import pairwise
from typing import Any

from is_ice import Candidate, IceAgent, Profile, Settings, SocketAddress
from lab import headline, scenario
from lab.clauses import frugal
from lab.clauses.found import Found, Records
from lab.clauses.seen import CLEARING
from lab.clock import MILLISECOND, SECOND, Clock
from lab.headline import CLAUSES, by_tie, decide, groups_of, is_ordinary, table
from lab.log import Entry, Log, LoggedAgent
from lab.tests.altered import Altered
from lab.view import born
from lab.witness import Record, Stray, Witness, accepted, gets, play, selected

SESSIONS = 2
COVERED = 0.95
# Those whose preconditions hold in ordinary sessions. The lesser one switches only if both begin with one role.
ORDINARY = tuple(clause for clause in CLAUSES if clause != "LesserSwitchesOnce")
LATER = 60 * SECOND


def without(record: Record, is_dropped: Callable[[Entry], bool]) -> Record:
    """The record as if these calls had not been made."""
    return replace(record, entries=[(at, e) for at, e in record.entries if not is_dropped(e)])


def without_in(records: Records, is_dropped: Callable[[Entry], bool]) -> Records:
    return {side: without(record, is_dropped) for side, record in records.items()}


class Sessions(unittest.TestCase):
    def test_ordinary_sessions(self) -> None:
        names = [name for name in scenario.names() if is_ordinary(scenario.load(name))]
        held, sessions = dict.fromkeys(ORDINARY, 0), 0
        for name in names:
            decided = headline.Play()((scenario.load(name), range(SESSIONS)))
            self.assertIsInstance(decided, list, decided)
            assert isinstance(decided, list)
            sessions += len(decided)
            for clause in ORDINARY:
                held[clause] += sum(d.held[clause] > 0 for d in decided)
        self.assertGreater(len(names), 10)
        self.assertEqual({clause: count for clause, count in held.items() if count < COVERED * sessions}, {})

    def test_other_sessions(self) -> None:
        for name in ("role_conflict", "lite_server", "symmetric_both"):
            self.assertFalse(is_ordinary(scenario.load(name)))
            decided = headline.Play()((scenario.load(name), range(SESSIONS)))
            self.assertIsInstance(decided, list, decided)

    def test_both_begin_with_one_role(self) -> None:
        decided = headline.Play()((scenario.load("role_conflict"), range(SESSIONS)))
        assert isinstance(decided, list)
        for one in decided:
            for clause in ("GreaterKeepsRole", "LesserSwitchesOnce", "RolesStayOpposite", "SelectedAreTraced"):
                self.assertTrue(one.held[clause])
        made = table(groups_of([scenario.load(headline.CONFLICT)]), decided)
        self.assertIn(f"| sessions                     | {SESSIONS} ", made)
        self.assertIn("| `LesserSwitchesOnce`         | 100.0 ", made)

    def test_forged_packets_leave_the_session_as_it_is(self) -> None:
        for name in ("same_lan", "change_of_network"):
            plain, forged = (play(scenario.load(name), 1, forges=forges) for forges in (False, True))
            for side, record in plain.items():
                self.assertEqual(record.entries, forged[side].entries)
                self.assertEqual(record.witness.roles, forged[side].witness.roles)
                self.assertGreater(len(forged[side].witness.strays), len(record.witness.strays) + 10)

    def test_a_fault_ends_the_portion(self) -> None:
        find = headline.ONE["ConnectedAreAlive"]
        headline.ONE["ConnectedAreAlive"] = lambda record: Found(1, ["a fault"])
        try:
            fault = headline.Play()((scenario.load("same_lan"), range(1)))
        finally:
            headline.ONE["ConnectedAreAlive"] = find
        self.assertNotIsInstance(fault, list)
        self.assertIn("ConnectedAreAlive: a fault", str(fault))


class AlteredSessions(Altered):
    """Records of real sessions, in which something is altered."""

    @classmethod
    def setUpClass(cls) -> None:
        cls.records = play(scenario.load("two_homes"), 0, 20)
        cls.conflict = play(scenario.load("role_conflict"), 0)

    records: Records
    conflict: Records

    def setUp(self) -> None:
        self.controlled = next(r for r in self.records.values() if not r.witness.began_controlling)
        self.controlling = next(r for r in self.records.values() if r.witness.began_controlling)


class Faults(AlteredSessions):
    def test_nothing_is_altered(self) -> None:
        found = decide(self.records)
        for clause in ORDINARY:
            self.assert_holds(found[clause])
        for clause in ("GreaterKeepsRole", "LesserSwitchesOnce", "RolesStayOpposite", "SelectedAreTraced"):
            self.assert_holds(decide(self.conflict)[clause])

    def test_selected_are_answered(self) -> None:
        def is_password(e: Entry) -> bool:
            return e.call == "set_remote_credentials"

        for is_dropped in (lambda e: accepted(e, "success") is not None, lambda e: gets(e, "request") is not None, is_password):
            self.assert_fault(headline.selected_are_answered(without(self.controlled, is_dropped)))
        creds = self.controlling.entries
        other = [(at, replace(e, given=(replace(e.given[0], pass_="x" * 22),)) if is_password(e) else e) for at, e in creds]
        self.assert_fault(headline.selected_are_answered(replace(self.controlling, entries=other)))

    def test_an_answer_before_a_clear(self) -> None:
        first = next(i for i, (_, e) in enumerate(self.controlled.entries) if selected(e))
        at, e = self.controlled.entries[first]
        for clear in CLEARING:
            entries = list(self.controlled.entries)
            entries[first:first] = [(at, Entry(e.time, e.side, clear))]
            self.assert_fault(headline.selected_are_answered(replace(self.controlled, entries=entries)))

    def test_selected_are_nominated_by_peer(self) -> None:
        self.assert_fault(headline.selected_are_nominated_by_peer(without(self.controlled, lambda e: accepted(e, "request") is not None)))

    def test_a_nomination_before_a_restart(self) -> None:
        self.assert_fault(headline.selected_are_nominated_by_peer(self._restarted(self.controlled)))

    def test_unaccepted_change_nothing(self) -> None:
        stray = self.controlled.witness.strays[0]
        for is_ok, is_changed in ((True, False), (False, True)):
            altered = Stray(stray.path, stray.contents, is_ok, is_changed)
            witness = replace(self.controlled.witness, strays=[altered])
            self.assert_fault(headline.unaccepted_change_nothing(replace(self.controlled, witness=witness)))

    def test_frugal_seconds_have_few_checks(self) -> None:
        def calls(checks: int, apart: int, is_frugal: bool = True) -> list[frugal.Timed]:
            return [frugal.Timed(apart * n, checks, is_frugal) for n in range(8)]

        for apart in (142 * MILLISECOND, SECOND // 7):  # eight calls in the first second, and in it seven
            self.assert_holds(frugal.have_few_checks(calls(6, apart)))
        self.assert_fault(frugal.have_few_checks(calls(7, 142 * MILLISECOND)))
        self.assert_holds(frugal.have_few_checks(calls(7, SECOND // 7 + 1)))
        self.assertEqual(frugal.have_few_checks(calls(7, 142 * MILLISECOND, False)).held, 1)  # the second in which no other one comes

    def test_which_calls_are_frugal(self) -> None:
        def held(record: Record) -> int:
            found = frugal.frugal_seconds_have_few_checks(record)
            self.assertEqual(found.faults, [])
            return found.held

        self.assertTrue(all(call.is_frugal for call in frugal.timed(self.controlled)[1:]))
        self.assertEqual(held(self.controlled), len(frugal.timed(self.controlled)))
        unasked = without(self.controlled, lambda e: e.call == "poll_timeout")  # then those are frugal that come 25 ms after the last one
        apart = [second.time - first.time for first, second in pairwise(frugal.timed(unasked))]
        self.assertEqual([call.is_frugal for call in frugal.timed(unasked)[1:]], [time >= 25 * MILLISECOND for time in apart])
        self.assertLess(held(unasked), held(self.controlled))

    def test_a_program_that_changes_the_pace(self) -> None:
        first = self.controlled.entries[0]
        for call, given in (("set_timing_advance", 49 * MILLISECOND), ("set_settings", Settings.original()),
                            ("set_settings", replace(Settings.modern(), timing_advance=49 * MILLISECOND))):
            entries = [(-1, Entry(0, "b", call, (given,))), first, *self.controlled.entries[1:]]
            self.assertEqual(frugal.frugal_seconds_have_few_checks(replace(self.controlled, entries=entries)).held, 0)
        late = [(at, replace(e, given=(10**12, *e.given[1:])) if at == first[0] else e) for at, e in self.controlled.entries]
        back = [(-1, Entry(0, "b", "handle_timeout", (10**15, b""))), *late]
        self.assertEqual(frugal.frugal_seconds_have_few_checks(replace(self.controlled, entries=back)).held, 0)

    def test_connected_are_alive(self) -> None:
        late = max(at for at, is_connected in self.controlled.witness.connected.items() if is_connected)
        moved = [(at, replace(e, time=e.time + LATER) if at >= late else e) for at, e in self.controlled.entries]
        self.assert_fault(headline.connected_are_alive(replace(self.controlled, entries=moved)))
        for is_dropped in (lambda e: accepted(e, "success") is not None, lambda e: selected(e) is not None):
            self.assert_fault(headline.connected_are_alive(without(self.controlled, is_dropped)))

    def test_selected_are_traced(self) -> None:
        for is_dropped in (lambda e: accepted(e, "request") is not None, lambda e: accepted(e, "success") is not None):
            self.assert_fault(headline.selected_are_traced(without_in(self.records, is_dropped)))

    def test_greater_keeps_role(self) -> None:
        greater, lesser = by_tie(self.records)
        self.assert_fault(headline.greater_keeps_role(self._switched(greater, (not greater.witness.began_controlling,))))
        self.assert_holds(headline.greater_keeps_role(self._switched(lesser, (not lesser.witness.began_controlling,))))

    def test_lesser_switches_once(self) -> None:
        greater, lesser = by_tie(self.records)
        first = lesser.witness.began_controlling
        self.assert_holds(headline.lesser_switches_once(self._switched(lesser, (not first,))))
        self.assert_fault(headline.lesser_switches_once(self._switched(lesser, (not first, first))))
        self.assert_lacks(headline.lesser_switches_once(self._switched(greater, (first, not first))))

    def test_roles_stay_opposite(self) -> None:
        _, lesser = by_tie(self.records)
        self.assert_fault(headline.roles_stay_opposite(self._switched(lesser, (not lesser.witness.began_controlling,))))

    def _restarted(self, record: Record) -> Record:
        """The record with a restart before the first selected path is polled."""
        first = next(i for i, (_, e) in enumerate(record.entries) if selected(e))
        at, e = record.entries[first]
        entries = list(record.entries)
        entries[first:first] = [(at, Entry(e.time, e.side, "ice_restart"))]
        return replace(record, entries=entries)

    def _switched(self, record: Record, roles: tuple[bool, ...]) -> Records:
        """The records, in which this side has these roles after its last calls."""
        last = record.entries[-1][0]
        witness = replace(record.witness, roles=[*record.witness.roles, *((last, role) for role in roles)])
        return {side: replace(one, witness=witness) if one is record else one for side, one in self.records.items()}


class Cleared(unittest.TestCase):
    """Two agents of which one selects a path, forms its pairs again, and only then is polled for events."""

    def record(self, profile: Profile) -> Record:
        clock, log = Clock(), Log()
        one, two = IceAgent(), IceAgent()
        witness = Witness(born(one, one.local_credentials))
        one.set_controlling(True)
        one.set_settings(replace(one.settings, profile=profile))  # no call of the record
        logged: Any = LoggedAgent(one, "a", clock, log)
        for agent, remote, address in ((logged, two, "10.0.0.1"), (two, logged, "10.0.0.2")):
            agent.set_remote_credentials(remote.local_credentials)
            remote.add_remote_candidate(agent.add_local_candidate(Candidate.host(SocketAddress(address, 5000))))
        while one.nominated_pair is None:
            for agent, remote in ((logged, two), (two, logged)):
                agent.handle_timeout(clock.now)
                while packet := agent.poll_transmit():
                    remote.handle_packet(clock.now, packet.source, packet.destination, packet.contents)
            clock.now += 50 * MILLISECOND
        logged.recreate_candidate_pairs()
        while logged.poll_event():
            pass
        return Record(list(enumerate(log.entries)), witness, 1, log)

    def test_it_is_not_reported(self) -> None:
        record = self.record(Profile.MODERN)
        self.assertTrue(any(accepted(e, "success") for _, e in record.entries))
        self.assertFalse(any(selected(e) for _, e in record.entries))

    def test_with_original_it_is(self) -> None:
        found = headline.selected_are_answered(self.record(Profile.ORIGINAL))
        self.assertEqual((found.held, len(found.faults)), (1, 1))


class Preconditions(AlteredSessions):
    """What a program does so that a clause says nothing of it."""

    def test_it_leaves_modern(self) -> None:
        original = play(replace(made := scenario.load("same_lan"), a=replace(made.a, profile="original")), 0)
        for find in (headline.selected_are_answered, headline.selected_are_nominated_by_peer, headline.connected_are_alive):
            self.assert_lacks(find(original["a"]))

    def test_it_makes_the_agent_lite(self) -> None:
        full, lite = (self._with(self.controlled, "set_ice_lite", lite) for lite in (False, True))
        for find in (headline.selected_are_answered, headline.selected_are_nominated_by_peer, headline.connected_are_alive):
            self.assert_holds(find(full))
            self.assert_lacks(find(lite))

    def test_it_sets_what_consent_goes_by(self) -> None:
        for call in ("set_initial_stun_rto", "set_max_stun_rto", "set_max_stun_retransmits"):
            self.assert_lacks(headline.connected_are_alive(self._with(self.controlled, call, 9)))

    def test_it_was_controlling(self) -> None:
        self.assert_lacks(headline.selected_are_nominated_by_peer(self.controlling))
        began = replace(self.controlled, witness=replace(self.controlled.witness, began_controlling=True))
        self.assert_lacks(headline.selected_are_nominated_by_peer(began))
        self.assert_holds(headline.selected_are_nominated_by_peer(self._with(began, "ice_restart")))

    def test_a_message_is_forged(self) -> None:
        self._assert_unfair(without_in(self.records, lambda e: gets(e, "success") is not None))

    def test_random_bytes_are_used_twice(self) -> None:
        def same(e: Entry) -> Entry:
            return replace(e, given=(e.given[0], bytes(12))) if e.call == "handle_timeout" else e

        self._assert_unfair({side: replace(r, entries=[(at, same(e)) for at, e in r.entries]) for side, r in self.records.items()})

    def test_tie_breakers_are_equal(self) -> None:
        self._assert_unfair({side: replace(record, tie_breaker=1) for side, record in self.records.items()}, is_begun=True)

    def test_it_sets_the_role(self) -> None:
        sets = {side: replace(r, witness=replace(r.witness, sets_role=True)) for side, r in self.records.items()}
        self._assert_unfair(sets, is_begun=True)

    def _assert_unfair(self, records: Records, is_begun: bool = False) -> None:
        """No clause decides them; if no message is forged, and random bytes are fresh, only `SelectedAreTraced` does."""
        for clause, find in headline.TWO.items():
            if is_begun and clause == "SelectedAreTraced":
                self.assert_holds(find(records))
            else:
                self.assert_lacks(find(records))

    def _with(self, record: Record, call: str, *given: object) -> Record:
        """The record with this call before the others."""
        at, first = record.entries[0]
        return replace(record, entries=[(at, Entry(first.time, first.side, call, given)), *record.entries])


if __name__ == "__main__":
    unittest.main()
