"""Tests that the checkers of how both agents become connected find a fault in an altered record, and do not decide a session that lacks a
precondition."""

import unittest
from collections.abc import Callable
from dataclasses import replace
from typing import Any

from is_ice import IceConnectionState, new_creds

from lab import scenario
from lab.clauses import deliveries
from lab.clauses.deliveries import Check, SamePair, Session, delivered, have_exchanged, nominates, points
from lab.clauses.found import Found, Records
from lab.headline import DELIVERED
from lab.log import Entry
from lab.tests.altered import Altered, Change, seen
from lab.view import Called, ShownPair
from lab.witness import Record, accepted, play

CHECKING = IceConnectionState.CHECKING


def seen_before(**changes: Any) -> Change:
    return lambda c: replace(c, before=replace(c.before, **changes))


def returns(value: Any) -> Change:
    return lambda c: replace(c, entry=replace(c.entry, returned=value))


def without_packets(c: Called) -> Called:
    return replace(c, packets=())


class Connecting(Altered):
    @classmethod
    def setUpClass(cls) -> None:
        cls.records = play(scenario.load("two_homes"), 0, 10)
        cls.renominated = play(scenario.load("two_links_renominated"), 0)

    records: Records
    renominated: Records

    def setUp(self) -> None:
        self.side = next(side for side, r in self.records.items() if not r.witness.began_controlling)
        self.other = "b" if self.side == "a" else "a"
        self.session = Session(self.records)

    def changed(self, side: str, is_it: Callable[[Called], object], change: Change) -> Session:
        """The session in which such calls of a side are changed."""
        record = self.records[side]
        calls = [change(c) if is_it(c) else c for c in record.witness.calls]
        return Session({**self.records, side: replace(record, witness=replace(record.witness, calls=calls))})

    def changed_on_both(self, is_it: Callable[[Called], object], change: Change) -> Session:
        changed = {side: self.changed(side, is_it, change).records[side] for side in self.records}
        return Session(changed)

    def lacking(self, change: Callable[[Check], Check]) -> set[str]:
        """What the checks lack that were delivered, if each is changed so."""
        return {part for check in self.session.checks for part in delivered(change(check))}


class Faults(Connecting):
    def test_nothing_is_altered(self) -> None:
        for records in (self.records, self.renominated):
            for find in DELIVERED.values():
                self.assert_holds(find(Session(records)))

    def test_responses_connect(self) -> None:
        def find(change: Change) -> Found:
            session = self.changed(self.other, lambda c: accepted(c.entry, "success"), change)
            return deliveries.responses_connect(session.records[self.other])

        self.assertTrue(find(seen()).held)
        self.assert_fault(find(seen(state=CHECKING)))
        self.assert_lacks(find(seen(state=CHECKING, controlling=False)))
        self.assert_lacks(deliveries.responses_connect(self.records[self.side]))

    def test_a_delivered_check_is_served(self) -> None:
        find = deliveries.delivered_are_accepted
        for is_it in (lambda c: accepted(c.entry, "request"), lambda c: accepted(c.entry, "success")):
            self.assert_fault(find(self.changed(self.side, is_it, returns(False))))
        self.assert_fault(find(self.changed(self.side, lambda c: accepted(c.entry, "request"), without_packets)))
        twice = self.changed(self.side, lambda c: accepted(c.entry, "request"), lambda c: replace(c, packets=c.packets * 2))
        self.assert_fault(find(twice))

    def test_the_response_goes_back(self) -> None:
        def turned(c: Called) -> Called:
            return replace(c, packets=tuple(p._replace(source=p.destination, destination=p.source) for p in c.packets))

        self.assert_fault(deliveries.delivered_are_accepted(self.changed(self.side, lambda c: accepted(c.entry, "request"), turned)))

    def test_a_controlled_agent_connects(self) -> None:
        for find in (deliveries.nominated_connect, deliveries.nominations_connect):
            self.assert_fault(find(self.changed(self.side, lambda c: True, seen(state=CHECKING))))

    def test_both_connect(self) -> None:
        for side in (self.side, self.other):
            self.assert_fault(deliveries.both_become_connected(self.changed(side, lambda c: True, seen(state=CHECKING))))


class Preconditions(Connecting):
    def test_what_a_delivered_check_lacks(self) -> None:
        def sent(**changes: Any) -> Callable[[Check], Check]:
            return lambda check: replace(check, sent=seen_before(**changes)(check.sent))

        def served(**changes: Any) -> Callable[[Check], Check]:
            return lambda check: replace(check, served=seen_before(**changes)(check.served))

        self.assertEqual(self.lacking(lambda check: check), set())
        self.assertEqual(self.lacking(sent(peer=None)), {"know.at_one"})
        self.assertEqual(self.lacking(served(peer=new_creds())), {"know.at_other"})
        self.assertEqual(self.lacking(lambda check: replace(check, reached=("room",))), {"reached.room"})
        self.assertEqual(self.lacking(lambda check: replace(check, served=replace(check.served, error="memory"))), {"no_error"})
        self.assertEqual(self.lacking(lambda check: replace(check, sent=without_packets(check.sent))), {"sends"})

    def test_the_roles_are_apart(self) -> None:
        def alike(check: Check) -> Check:
            role = check.sent.before.controlling
            return replace(check, served=seen(controlling=role)(seen_before(controlling=role)(check.served)))

        self.assertEqual(self.lacking(alike), {"apart"})

        def gives_way(check: Check) -> Check:
            return replace(check, served=seen_before(controlling=check.sent.before.controlling)(check.served))

        self.assertEqual(self.lacking(gives_way), set())

    def test_fragments(self) -> None:
        check = self.session.checks[0]
        one, peer = check.sent.before, check.served.before
        for ufrag, missing in (("", ["fragment"]), ("a:b", ["fragment"]), ("x" * 508, ["fit"])):
            creds = replace(one.creds, ufrag=ufrag)
            self.assertEqual(have_exchanged(replace(one, creds=creds), replace(peer, peer=creds)), missing)
            back = ["other_fragment" if part == "fragment" else part for part in missing]
            self.assertEqual(have_exchanged(replace(peer, peer=creds), replace(one, creds=creds, peer=peer.creds)), back)

    def test_the_check_arrives_at_a_candidate_that_was_added(self) -> None:
        adds = self.changed_on_both(lambda c: c.entry.call == "add_local_candidate", lambda c: replace(c, error="memory"))
        self.assertEqual(adds.checks, [])
        self.assertTrue(self.session.checks)
        for call, given in (("invalidate_candidate", ("candidate:..",)), ("ice_restart", (new_creds(), False))):
            first = self.records[self.side].witness.calls[-1]
            reach = deliveries.Reach({(1, 1)})
            reach.take(replace(first, entry=Entry(0, self.side, call, given)))
            self.assertNotEqual(reach.reached(((2, 2), (1, 1)), None), [])  # type: ignore[arg-type]

    def test_the_limit_bars_a_sender(self) -> None:
        reach = deliveries.Reach({(1, 1)}, senders=set(range(32)))
        for over, limit, missing in (((0, (1, 1)), 32, []), ((-1, (1, 1)), 32, ["room"]), ((-1, (1, 1)), None, []),
                                     ((0, (1, 2)), 32, ["there"])):
            self.assertEqual(reach.reached(over, limit), missing)  # type: ignore[arg-type]

    def test_a_response_that_comes_too_late(self) -> None:
        def few(c: Called) -> Called:
            return seen(settings=replace(c.after.settings, max_retransmits=0))(c)

        self.assertTrue(self.session.answers)
        self.assertEqual(self.changed_on_both(lambda c: True, few).answers, {})
        self.assertEqual(self.changed_on_both(lambda c: True, seen(pairs=())).answers, {})

    def test_a_pair_that_is_formed_again(self) -> None:
        pair = SamePair()
        path = self.session.checks[0].path
        view = self.session.checks[0].sent.after
        first = ShownPair(path, 3, 7, True, True, True)
        for shown, is_same in (((first,), True), ((replace(first, count=4),), True), ((replace(first, count=0),), False),
                               ((replace(first, count=1),), True), ((replace(first, count=1, priority=8),), False), ((), False),
                               ((first, first), False), ((first,), True), ((replace(first, count=2),), False)):
            self.assertEqual(pair.keep(replace(view, pairs=shown), path), is_same, shown)

    def test_a_nomination(self) -> None:
        check = next(check for check in self.session.checks if check.side == self.other and nominates(check))
        for change in (seen_before(controlling=False), seen(pairs=tuple(replace(p, is_nominated=False) for p in check.sent.after.pairs))):
            self.assertFalse(nominates(replace(check, sent=change(check.sent))))
        for change in (seen_before(controlling=True), seen(controlling=True)):
            self.assertFalse(nominates(replace(check, served=change(check.served))))
        view = check.sent.after
        pairs = tuple(replace(p, is_selected=False) for p in view.pairs)
        replaced = seen(settings=replace(view.settings, renomination=True), pairs=pairs)
        self.assertFalse(nominates(replace(check, sent=replaced(check.sent))))

    def test_the_pair_is_still_there(self) -> None:
        self.assertTrue(list(points(self.session, self.side)))
        timeouts = self.changed(self.side, lambda c: c.entry.call == "handle_timeout", seen(pairs=()))
        self.assertEqual([p for p in points(timeouts, self.side) if p.call.entry.call == "handle_timeout"], [])

    def test_an_early_request_is_served(self) -> None:
        early = self.changed(self.side, lambda c: c.entry.call == "handle_timeout", seen_before(early=1))
        self.assertEqual([p for p in points(early, self.side) if p.call.entry.call == "handle_timeout"], [])

    def test_an_agent_that_leaves_modern(self) -> None:
        for side, record in self.records.items():
            other: Record = replace(record, entries=[(0, Entry(0, side, "set_ice_lite", (True,))), *record.entries])
            self.assertEqual(Session({**self.records, side: other}).checks, [])
            self.assert_lacks(deliveries.responses_connect(other))


if __name__ == "__main__":
    unittest.main()
