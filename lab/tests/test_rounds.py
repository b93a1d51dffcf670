"""Tests the checkers of `rounds` and `due_rounds` of `run`: for each precondition, a log that lacks exactly it."""

import unittest
from dataclasses import replace
from typing import Any

from lab.clauses import due_rounds, rounds
from lab.clauses.execution import MAX
from lab.clauses.accepted_nominations import Network
from lab.clauses.single import Choice
from lab.clauses.verdict import Verdict
from lab.clock import BEGINNING, MILLISECOND
from lab.pairs import Check, Timing
from lab.tests.stories import REQUEST, A, Story, at


class Rounds(unittest.TestCase):
    """The pair of A is due at 250 ms, and checked and answered in a round from 300 ms on."""

    def lacking(self, n: Network, first: int = 1, end: int | None = None, pair: int = 0) -> list[str]:
        return rounds.lacking(n.x, Choice("a", pair, n.x.timeouts["a"][first], len(n.x) if end is None else end))

    def story(self) -> Story:
        story = Story()
        story.timeout("a", 0)
        story.exchange("a", 300)
        return story

    def test_an_answered_check(self) -> None:
        self.assertEqual(self.lacking(self.story().network()), [])
        self.assertEqual(rounds.find(self.story().network().x), Verdict("", at(300), at(310), at(310), 1))

    def test_a_new_agent(self) -> None:
        self.assertEqual(self.lacking(self.story().altered(0, "a", next_number=1)), ["IsFresh"])

    def test_the_pair_waits(self) -> None:
        story = self.story()
        first = story.moments["a"][1]
        cases: tuple[tuple[dict[str, Any], str], ...] = (
            ({"lite": True}, "checking.full"), ({"peer": None}, "checking.peer"), ({"timing": Timing(initial=1)}, "paced"),
            ({"queue": (REQUEST,)}, "queue"))
        for fields, missing in cases:
            self.assertEqual(self.lacking(story.altered(first, "a", **fields)), [f"Awaits.{missing}"])

    def test_no_pair_is_valid_and_this_one_is_not_removed(self) -> None:
        story = self.story()
        first = story.moments["a"][1]
        pair = story.session().steps[first].before["a"].pairs[0]
        silent = replace(pair, due=BEGINNING, checks=tuple(Check(bytes(12), BEGINNING, False, True) for _ in range(9)))
        self.assertEqual(self.lacking(story.altered(first, "a", pairs=(replace(pair, state="succeeded"),))), ["IsUnanswered.invalid"])
        self.assertEqual(self.lacking(story.altered(first, "a", pairs=(silent,))), ["IsUnanswered.young"])

    def test_a_response_that_comes_in_a_later_round(self) -> None:
        story = Story()
        story.timeout("a", 0)
        response = story.deliver(story.timeout("a", 300), "b", 305)
        story.timeout("a", 400)
        story.deliver(response, "a", 410)
        self.assertEqual(self.lacking(story.network()), ["IsAnswered"])
        self.assertEqual(rounds.find(story.network().x).failed, "IsAnswered")

    def test_the_agent_is_controlling(self) -> None:
        story = self.story()
        self.assertEqual(self.lacking(story.altered(story.moments["a"][1] + 1, "a", controlling=False)), ["IsControllingIn"])

    def test_a_candidate_may_remove_the_pair(self) -> None:
        story = self.story()
        story.evict("a", 320)
        story.timeout("a", 400)
        self.assertEqual(self.lacking(story.network()), ["IsEndedIn"])

    def test_the_pair_is_due_before(self) -> None:
        story = Story()
        story.exchange("a", 0)
        self.assertEqual(self.lacking(story.network(), 0), ["IsPassing.late"])
        early = Story()
        early.passes("a", 0, 200)
        self.assertEqual(self.lacking(early.network()), ["Awaits.due", "IsPassing.late"])

    def test_before_the_end_of_the_clock(self) -> None:
        story = Story()
        story.timeout("a", 0)
        story.exchange("a", MAX // MILLISECOND)
        self.assertEqual(self.lacking(story.network()), ["IsPassing.early"])

    def test_other_calls_in_the_rounds(self) -> None:
        story = self.story()
        story.set("a", "set_ice_lite", False)
        self.assertEqual(self.lacking(story.network()), ["IsPassing.between"])

    def test_fewer_rounds_than_suffice(self) -> None:
        story = Story(hosts=(3, 1))
        story.passes("a", 0)
        story.exchange("a", 50)
        pair = story.session().steps[story.moments["a"][1]].before["a"].pairs[1].number
        self.assertEqual(self.lacking(story.network(), pair=pair), ["OpenRoundsSuffice"])
        story.exchange("a", 100)
        self.assertEqual(self.lacking(story.network(), pair=pair), [])

    def test_candidates_are_added(self) -> None:
        story = self.story()
        story.host("a", A._replace(port=7), 1, 320)
        self.assertEqual(self.lacking(story.network()), ["OpenRoundsSuffice"])
        story.exchange("a", 400)
        self.assertEqual(self.lacking(story.network()), [])


class DueRounds(unittest.TestCase):
    """The pair of A is due at its first timeout."""

    def lacking(self, n: Network, end: int | None = None) -> list[str]:
        return due_rounds.lacking(n.x, Choice("a", 0, n.x.timeouts["a"][0], len(n.x) if end is None else end))

    def story(self) -> Story:
        story = Story()
        story.exchange("a", 0)
        return story

    def test_a_single_pair(self) -> None:
        self.assertEqual(self.lacking(self.story().network()), [])
        self.assertEqual(due_rounds.find(self.story().network().x), Verdict("", at(0), at(10), at(10), 1))

    def test_what_it_has_in_common_with_rounds(self) -> None:
        story = self.story()
        first = story.moments["a"][0]
        cases: tuple[tuple[dict[str, Any], str], ...] = (({"queue": (REQUEST,)}, "Awaits.queue"), ({"lite": True}, "Awaits.checking.full"))
        for fields, missing in cases:
            self.assertEqual(self.lacking(story.altered(first, "a", **fields)), [missing])
        self.assertEqual(self.lacking(story.altered(0, "a", next_number=1)), ["IsFresh"])
        self.assertEqual(self.lacking(story.altered(first + 1, "a", controlling=False)), ["IsControllingIn"])
        story.evict("a", 20)
        self.assertEqual(self.lacking(story.network()), ["IsEndedIn"])

    def test_the_response_comes_in_its_round(self) -> None:
        story = Story()
        response = story.deliver(story.timeout("a", 0), "b", 5)
        story.timeout("a", 50)
        story.deliver(response, "a", 60)
        self.assertEqual(self.lacking(story.network()), ["IsAnswered"])

    def test_the_pair_is_due(self) -> None:
        story = self.story()
        first = story.moments["a"][0]
        pair = story.session().steps[first].before["a"].pairs[0]
        self.assertEqual(self.lacking(story.altered(first, "a", pairs=(replace(pair, due=at(1)),))), ["Awaits.due"])

    def test_later_rounds_begin_before_the_end_of_the_clock(self) -> None:
        story = self.story()
        story.exchange("a", MAX // MILLISECOND)
        self.assertEqual(self.lacking(story.network()), ["IsPassing.early"])

    def test_other_calls_in_the_first_round_and_in_later_ones(self) -> None:
        story = self.story()
        story.set("a", "set_ice_lite", False)
        self.assertEqual(self.lacking(story.network()), ["first.between"])
        story = self.story()
        story.exchange("a", 20)
        story.set("a", "set_ice_lite", False)
        self.assertEqual(self.lacking(story.network()), ["IsPassing.between"])

    def test_later_rounds_begin_later(self) -> None:
        story = self.story()
        story.exchange("a", 0)
        self.assertEqual(self.lacking(story.network()), ["IsPassing.late"])

    def test_fewer_rounds_than_suffice(self) -> None:
        story = Story(hosts=(2, 1))
        for time in (0, 50, 100):
            story.exchange("a", time)
        self.assertEqual(self.lacking(story.network()), ["SufficesFromDue"])
        story.timeout("a", 150)
        self.assertEqual(self.lacking(story.network()), [])


if __name__ == "__main__":
    unittest.main()
