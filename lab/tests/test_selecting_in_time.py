"""Tests the checkers of the theorem `executions_select_in_time` and of `selects_in_time` of `run` and of `World::run`: for each
precondition, a log that lacks exactly it; and logs in which the conclusion does not come true."""

import unittest
from dataclasses import replace
from typing import Any

from is_ice import NominatedSend
from lab.clauses import executions_select_in_time, run_selects_in_time, selects_in_time
from lab.clauses.accepted_nominations import Network
from lab.clauses.executions_select_in_time import Choice, limit, selected_at, trip
from lab.clauses.execution import MAX, Execution, Lacks
from lab.clauses.verdict import Verdict
from lab.clock import BEGINNING, MILLISECOND
from lab.pairs import Check, Timing
from lab.replay import replay
from lab.tests.stories import LINE, REQUEST, Story, at

HOST = LINE.format(126 << 24 | 65535 << 8 | 255, "10.9.9.9", 9, "host")


def selecting(call: float | None = None, is_answered: bool = True, third: float = 100, name: str = "set_ice_lite",
              value: object = False) -> Story:
    """A has four pairs, and a timeout each 50 ms. It checks the last pair at 150. The response arrives at 250, two rounds later, and
    selects the pair. After one timeout another call may follow."""
    story = Story(hosts=(4, 1))
    response = None
    for time in (0, 50, third, 150, 200, 250):
        check = story.timeout("a", time)
        if time == 150:
            response = story.deliver(check, "b", 200)
        if time == call:
            story.set("a", name, value, time)
    if is_answered:
        story.deliver(response, "a", 250)
    return story


def adding(line: str = HOST, limit: int | None = None) -> Story:
    """A has two pairs, and a timeout each 50 ms. It checks the second one at 50. After this timeout it adds a candidate, and so has a third
    pair. The response arrives at 200 and selects the second pair."""
    story = Story(hosts=(2, 1))
    response = None
    for time in (0, 50, 100, 150, 200, 250, 300):
        check = story.timeout("a", time)
        if time == 50:
            response = story.deliver(check, "b", 100)
            if limit is not None:
                story.limit("a", limit, 50)
            story.remote("a", line, 50)
        if time == 200:
            story.deliver(response, "a", 200)
    return story


class SelectsInTime(unittest.TestCase):
    of: Any = executions_select_in_time
    controlling, controlling_on, late, first_early, early, answered, enough, ends = (
        "controlling", "ExecutionRounds", "IsOpenRound.late", "first.early", "IsOpenRound.early", "IsAnsweredWithin", "SufficeForCheck",
        "EndsAmong")

    found_with_a_candidate = Verdict("", at(0), at(5 * 50 + 150), at(200), 6)

    def find(self, x: Execution) -> Verdict:
        found: Verdict = self.of.find(x)
        return found

    def choice(self, x: Execution, count: int = 4, pair: int = 3, first: int = 0) -> Choice:
        return Choice("a", pair, x.timeouts["a"][first], count, len(x))

    def lacking(self, x: Execution, count: int = 4, pair: int = 3, first: int = 0) -> Lacks:
        missing: Lacks = self.of.lacking(x, self.choice(x, count, pair, first))
        return missing

    def altered(self, story: Story, **fields: Any) -> Lacks:
        """With another state of A before the first round."""
        return self.lacking(story.altered(story.moments["a"][0], "a", **fields).x)

    def test_four_pairs(self) -> None:
        x = selecting().network().x
        self.assertEqual([self.lacking(x, count) for count in (3, 4, 5)], [[self.enough], [], []])
        self.assertEqual(self.find(x), Verdict("", at(0), at(3 * 50 + 100), at(250), 4))

    def test_pairs_that_are_due_before_the_first_round(self) -> None:
        x = selecting().network().x
        self.assertEqual([self.lacking(x, count, first=1) for count in (2, 3)], [[self.enough], []])
        self.assertEqual(limit(x, self.choice(x, 3, first=1)), at(50 + 2 * 50 + 100))

    def test_a_single_pair(self) -> None:
        story = Story()
        response = story.deliver(story.timeout("a", 0), "b", 50)
        story.passes("a", 50, 100)
        story.deliver(response, "a", 100)
        self.assertEqual(self.find(story.network().x), Verdict("", at(0), at(100), at(100), 1))

    def test_the_round_trip(self) -> None:
        x = selecting().network().x
        trips = [trip(x, self.choice(x, 4, pair)) for pair in (3, 2, 1, 0)]
        self.assertEqual(trips, [n * MILLISECOND for n in (100, 150, 200, 250)])
        unchecked = replace(self.choice(x), end=x.timeouts["a"][1])
        self.assertEqual((trip(x, unchecked), trip(x, replace(unchecked, pair=0))), (0, None))

    def test_the_delay(self) -> None:
        x = selecting(third=102).network().x
        self.assertEqual(executions_select_in_time.find(x), Verdict("", at(0), at(3 * 52 + 100), at(250), 4))
        self.assertEqual(run_selects_in_time.find(x), Verdict("", at(150), at(150 + 100), at(250), 1))

    def test_a_new_agent(self) -> None:
        self.assertEqual(self.lacking(selecting().altered(0, "a", next_number=1).x), ["IsFresh"])

    def test_the_agent_is_controlling(self) -> None:
        story = selecting()
        self.assertEqual(self.altered(story, controlling=False), [self.controlling])
        for later in (story.moments["a"][0] + 1, story.end - 1):
            self.assertEqual(self.lacking(story.altered(later, "a", controlling=False).x), [self.controlling_on])

    def test_the_pair_waits(self) -> None:
        story = selecting()
        pairs = story.session().steps[story.moments["a"][0]].before["a"].pairs
        cases: tuple[tuple[dict[str, Any], str], ...] = (
            ({"lite": True}, "checking.full"), ({"peer": None}, "checking.peer"), ({"timing": Timing(initial=1)}, "paced"),
            ({"queue": (REQUEST,)}, "queue"), ({"pairs": (*pairs[:3], replace(pairs[3], due=at(1)))}, "due"))
        for fields, missing in cases:
            self.assertEqual(self.altered(story, **fields), [f"Awaits.{missing}"])

    def test_no_pair_is_valid_and_this_one_is_not_removed(self) -> None:
        story = selecting()
        pairs = story.session().steps[story.moments["a"][0]].before["a"].pairs
        silent = replace(pairs[3], due=BEGINNING, checks=tuple(Check(bytes(12), BEGINNING, False, True) for _ in range(9)))
        cases: tuple[tuple[dict[str, Any], str], ...] = (
            ({"renominates": True, "timing": Timing(modern=True), "selected": 0, "nomination_due": True}, "calm"),
            ({"pairs": (replace(pairs[0], state="succeeded"), *pairs[1:])}, "invalid"), ({"pairs": (*pairs[:3], silent)}, "young"))
        for fields, missing in cases:
            self.assertEqual(self.altered(story, **fields), [f"IsUnanswered.{missing}"])

    def test_other_calls_in_the_rounds(self) -> None:
        inside = ["IsOpenRound.between", "SufficeForCheck"]
        cases = ((0, ["first.between", "SufficeForCheck"]), (50, inside), (150, inside), (200, ["AreInRound"]))
        for call, missing in cases:
            self.assertEqual(self.lacking(selecting(call).network().x), missing)
        self.assertEqual(self.find(selecting(50).network().x), Verdict("", at(100), at(250), at(250), 2))

    def test_a_candidate_is_added(self) -> None:
        x = adding().network().x
        self.assertEqual([self.lacking(x, count, 1) for count in (5, 6)], [[self.enough], []])
        self.assertEqual(self.find(x), self.found_with_a_candidate)

    def test_a_candidate_that_may_remove_the_pair(self) -> None:
        self.assertEqual(self.lacking(adding(limit=1).network().x, 6, 1), [self.ends])

    def test_a_setting_in_the_rounds(self) -> None:
        for call in (0, 50, 150):
            self.assertEqual(self.lacking(selecting(call, name="set_mtu", value=1200).network().x), [self.enough])
        self.assertEqual(self.lacking(selecting(200, name="set_mtu", value=1200).network().x), [])

    def test_a_longer_pacing_interval(self) -> None:
        x = selecting(200, name="set_timing_advance", value=80 * MILLISECOND).network().x
        self.assertEqual([limit(x, self.choice(x, count)) for count in (4, 5)], [at(3 * 50 + 100), at(4 * 80 + 100)])

    def test_later_rounds_begin_later(self) -> None:
        story = Story()
        story.exchange("a", 0)
        story.exchange("a", 0)
        x = story.network().x
        self.assertEqual([self.lacking(x, count, 0) for count in (1, 2)], [[], [self.late]])

    def test_before_the_end_of_the_clock(self) -> None:
        story = selecting()
        story.timeout("a", MAX // MILLISECOND)
        self.assertEqual([self.lacking(story.network().x, count) for count in (6, 7)], [[], [self.early]])
        last = Story()
        last.exchange("a", MAX // MILLISECOND)
        self.assertEqual(self.lacking(last.network().x, 1, 0), [self.first_early])

    def test_the_caller_is_punctual(self) -> None:
        story = selecting()
        poll = next(n for n, e in enumerate(story.log.entries) if e.side == "a" and e.call == "poll_timeout")
        story.log.entries[poll] = replace(story.log.entries[poll], returned=None)
        self.assertEqual(self.lacking(Execution(replay(story.log))), ["punctual"])

    def test_no_response_arrives(self) -> None:
        x = selecting(is_answered=False).network().x
        self.assertEqual(self.lacking(x), [self.answered])
        self.assertEqual(self.find(x).failed, self.answered)

    def test_no_path_is_selected(self) -> None:
        story = selecting()
        story.log.entries = [e for e in story.log.entries if not isinstance(e.returned, NominatedSend)]
        self.assertTrue(self.find(Execution(replay(story.log))).is_broken)

    def test_a_path_is_selected_too_late(self) -> None:
        story = selecting()
        event = next(e for e in story.log.entries if isinstance(e.returned, NominatedSend))
        story.log.entries.remove(event)
        story.exchange("a", 300)
        story.log.entries.append(event)
        x = Execution(replay(story.log))
        broken = self.choice(x)
        self.assertEqual((self.lacking(x), limit(x, broken), selected_at(x, broken)), ([], at(250), at(300)))
        self.assertTrue(self.find(x).is_broken)


class SelectsInTimeInALog(SelectsInTime):
    """`run`: the rounds are entries of the log."""

    of = run_selects_in_time
    controlling, controlling_on, late, first_early, early, answered, enough, ends = (
        "IsControllingIn", "IsControllingIn", "IsPassing.late", "early", "IsPassing.early", "IsAnsweredInBy", "LaterSuffice", "MayEndOver")
    found_with_a_candidate = Verdict("", at(100), at(200), at(200), 2)

    def test_other_calls_in_the_rounds(self) -> None:
        inside = ["between", "IsPassing.between", "LaterSuffice"]
        for call, missing in ((0, ["between", "LaterSuffice"]), (50, inside), (200, ["between"])):
            self.assertEqual(self.lacking(selecting(call).network().x), missing)
        self.assertEqual(self.find(selecting(50).network().x), Verdict("", at(100), at(250), at(250), 2))

    def test_the_earliest_bound(self) -> None:
        x = selecting().network().x
        found = run_selects_in_time.choices(x)
        bounds = [limit(x, c) for c in found if not self.of.lacking(x, c)]
        self.assertEqual(bounds, [at(time) for time in [250] * 4 + [300] * 3 + [350] * 2 + [400]])
        self.assertEqual(self.of.lacking(x, found[-1]), ["LaterSuffice"])

    def test_the_other_agent(self) -> None:
        self.assertEqual(self.lacking(selecting().altered(0, "b", next_number=1).x), [])


class OfTwoAgents(unittest.TestCase):
    """`World::run`."""

    def lacking(self, n: Network, count: int = 4, pair: int = 3, first: int = 0) -> Lacks:
        return selects_in_time.lacking(n, Choice("a", pair, n.x.timeouts["a"][first], count, len(n.x)))

    def altered(self, side: str, later: int, **fields: Any) -> Lacks:
        """With another state of a side so many entries after the first round begins."""
        story = selecting()
        return self.lacking(story.altered(story.moments["a"][0] + later, side, **fields))

    def test_four_pairs(self) -> None:
        n = selecting().network()
        missing = ["enough.AreEachPolled.few", "enough.SideRoundsSuffice", "enough.ServedRoundsSuffice"]
        self.assertEqual([self.lacking(n, count) for count in (3, 4, 5)], [missing, [], []])
        self.assertEqual(selects_in_time.find(n), Verdict("", at(0), at(3 * 50 + 100), at(250), 4))

    def test_new_agents(self) -> None:
        self.assertEqual(self.lacking(selecting().altered(0, "b", next_number=1)), ["IsNewlyCreated"])

    def test_the_roles(self) -> None:
        self.assertEqual(self.altered("a", 0, controlling=False), ["role"])
        self.assertEqual(self.altered("a", 1, controlling=False), ["StaysControlling"])
        self.assertEqual(self.altered("b", 1, controlling=True), [])

    def test_the_other_side_is_not_controlled(self) -> None:
        story = selecting()
        delivery = next(n for n, e in enumerate(story.log.entries) if e.side == "b" and e.call == "handle_packet")
        self.assertEqual(self.lacking(story.altered(delivery + 1, "b", controlling=True)), ["AreAnsweredWithin"])

    def test_the_other_side_begins_in_the_same_role(self) -> None:
        story = Story(roles=(True, True))
        response = story.deliver(story.timeout("a", 0), "b", 50)
        story.passes("a", 50, 100)
        story.deliver(response, "a", 100)
        self.assertEqual(selects_in_time.find(story.network()), Verdict("", at(0), at(100), at(100), 1))

    def test_the_pair_waits_and_none_is_valid(self) -> None:
        story = selecting()
        pairs = story.session().steps[story.moments["a"][0]].before["a"].pairs
        self.assertEqual(self.altered("a", 0, queue=(REQUEST,)), ["Awaits.queue"])
        self.assertEqual(self.altered("a", 0, pairs=(replace(pairs[0], state="succeeded"), *pairs[1:])), ["IsUnanswered.invalid"])

    def test_other_calls_in_the_rounds(self) -> None:
        inside = ["AreKept.kept.between", "enough.AreEachPolled.polls", "enough.SideRoundsSuffice", "enough.ServedRoundsSuffice"]
        for call, missing in ((50, inside), (200, ["MakesInRound"])):
            self.assertEqual(self.lacking(selecting(call).network()), missing)

    def test_a_candidate_is_added(self) -> None:
        n = adding().network()
        missing = ["enough.AreEachPolled.polls", "enough.SideRoundsSuffice", "enough.ServedRoundsSuffice"]
        self.assertEqual([self.lacking(n, count, 1) for count in (2, 6)], [missing, []])
        self.assertEqual(self.lacking(adding(limit=1).network(), 6, 1), ["AreAnsweredWithin", "MayEndInRounds"])

    def test_later_rounds_begin_later(self) -> None:
        story = Story()
        story.exchange("a", 0)
        story.exchange("a", 0)
        self.assertEqual([self.lacking(story.network(), count, 0) for count in (1, 2)], [[], ["AreKept.late"]])

    def test_the_caller_is_punctual(self) -> None:
        story = selecting()
        poll = next(n for n, e in enumerate(story.log.entries) if e.side == "a" and e.call == "poll_timeout")
        story.log.entries[poll] = replace(story.log.entries[poll], returned=None)
        self.assertEqual(self.lacking(Network(Execution(replay(story.log)))), ["punctual"])

    def test_no_response_arrives(self) -> None:
        n = selecting(is_answered=False).network()
        self.assertEqual(self.lacking(n), ["AreAnsweredWithin"])
        self.assertEqual(selects_in_time.find(n).failed, "AreAnsweredWithin")

    def test_no_path_is_selected(self) -> None:
        story = selecting()
        story.log.entries = [e for e in story.log.entries if not isinstance(e.returned, NominatedSend)]
        self.assertTrue(selects_in_time.find(Network(Execution(replay(story.log)))).is_broken)


if __name__ == "__main__":
    unittest.main()
