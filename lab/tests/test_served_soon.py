"""Tests the checkers of the theorems `served_are_checked_soon` and `executions_reach_served`, and that of `selects_in_time` for a pair on
which a request was served: for each precondition, a log that lacks exactly it; and a log in which nothing is checked, or selected."""

import unittest
from dataclasses import replace
from typing import Any

from lab.clauses import executions_reach_served as reached
from lab.clauses import served_are_checked_soon as checked
from lab.clauses import served_in_time as soon
from lab.clauses import served_select_in_time as selected
from lab.clauses.accepted_nominations import Network
from lab.clauses.executions_select_in_time import Choice as InTime
from lab.clauses.execution import Execution
from lab.clauses.in_time import Choice as OfPath
from lab.clauses.reached_in_turn import Choice
from lab.clauses.selects_in_time import selected_at
from lab.clauses.urgent_are_reached import reached_at
from lab.clauses.verdict import Verdict
from lab.pairs import Timing
from lab.tests.stories import MODERN, Story, at


class Served(unittest.TestCase):
    """A has nine pairs. It sends three checks, and from 100 ms on one every 50 ms, of which the first goes ahead. At 60 ms a check of B
    arrives, on a pair of which A checked none. If `answers`, A gets responses to its next two checks."""

    def story(self, answers: bool = False) -> Story:
        story = Story(hosts=(3, 3), settings=MODERN)
        story.passes("a", 0, 25, 50)
        check = [story.timeout("b", time) for time in range(30, 60, 5)][5]
        story.deliver(check, "a", 60)
        if answers:
            story.exchange("a", 100, 10, 20)
            story.exchange("a", 150)
            story.passes("a", *range(200, 400, 50))
        else:
            story.passes("a", *range(100, 400, 50))
        return story

    def pair(self, story: Story) -> int:
        """The number of the pair on which the request was served."""
        agent = story.network().x.state(story.moments["a"][3], "a")
        return next(p.number for p in agent.pairs if p.requests)

    def choice(self, story: Story, rounds: int = 2, delays: int = 1, first: int = 3) -> Choice:
        """So many rounds from one of the `handle_timeout` calls on."""
        return Choice("a", self.pair(story), *story.segment(first, rounds), delays)

    def with_pair(self, story: Story, index: int, **fields: Any) -> Execution:
        """The log in which the pair differs before one entry."""
        return story.with_pair(index, self.pair(story), **fields)

    def test_the_pair_is_checked(self) -> None:
        story = self.story()
        x, c = story.network().x, self.choice(story)
        self.assertEqual(checked.lacking(x, c), [])
        self.assertEqual(reached_at(x, c), at(100))
        self.assertEqual(checked.find(x), Verdict("", at(100), at(150), at(100), 2))

    def test_no_pair_is_checked(self) -> None:
        story = self.story()
        self.assertTrue(checked.find(story.unsent()).is_broken)

    def test_the_preconditions_of_a_check(self) -> None:
        story = self.story()
        moments, c = story.moments["a"], self.choice(story)
        self.assertEqual(checked.lacking(story.altered(0, "a", next_number=1).x, c), ["IsFresh"])
        self.assertEqual(checked.lacking(story.altered(moments[3], "a", timing=Timing()).x, c), ["IsServed.rule"])
        self.assertEqual(checked.lacking(self.with_pair(story, moments[3], requests=0), c), ["IsServed.requested"])
        self.assertEqual(checked.lacking(self.with_pair(story, moments[3], state="succeeded"), c), ["IsServed.invalid"])
        self.assertEqual(checked.lacking(self.with_pair(story, moments[3], due=at(100)), c), ["IsPassing.late"])
        self.assertEqual(checked.lacking(story.network().x, self.choice(story, 1)), ["enough"])

    def test_a_timeout_selects_a_path(self) -> None:
        story = self.story()
        x, c = story.network().x, self.choice(story)
        step = x.steps[story.moments["a"][4]]
        x.steps[step.at] = replace(step, selected=(x.state(c.first, "a").path(x.state(c.first, "a").pairs[0]),))
        self.assertEqual(checked.lacking(x, c), ["quiet"])

    # ---- in rounds of a controlling agent without a valid pair

    def few(self, story: Story, count: int = 3, first: int = 3) -> reached.Choice:
        """So many rounds from one of the `handle_timeout` calls on, of which one may check another pair before."""
        return reached.Choice("a", self.pair(story), story.moments["a"][first], count)

    def test_the_path_is_reached(self) -> None:
        story = self.story()
        x, c = story.network().x, self.few(story)
        self.assertEqual(reached.lacking(x, c), [])
        self.assertEqual(reached.reached_at(x, c), at(100))
        self.assertEqual(reached.find(x), Verdict("", at(100), at(200), at(100), 3))

    def test_the_path_is_not_reached(self) -> None:
        story = self.story()
        self.assertTrue(reached.find(story.unsent()).is_broken)

    def test_the_preconditions_of_the_rounds(self) -> None:
        story = self.story()
        moments, c = story.moments["a"], self.few(story)
        self.assertEqual(reached.lacking(story.altered(0, "a", next_number=1).x, c), ["IsFresh"])
        self.assertEqual(reached.lacking(story.altered(moments[3], "a", controlling=False).x, c), ["controlling"])
        self.assertEqual(reached.lacking(story.altered(moments[3], "a", timing=Timing()).x, c), ["SufficesForServed.IsServed.rule"])
        self.assertEqual(reached.lacking(self.with_pair(story, moments[3], requests=0), c), ["SufficesForServed.IsServed.requested"])
        self.assertEqual(reached.lacking(self.with_pair(story, moments[3], state="succeeded"), c),
                         ["IsUnanswered.invalid", "SufficesForServed.IsServed.invalid"])
        self.assertEqual(reached.lacking(story.network().x, self.few(story, 2)), ["SufficesForServed.few"])

    def test_a_round_checks_another_pair_before(self) -> None:
        """The pair that is checked at 150 ms is the selected one, so four rounds have to follow the first."""
        story = self.story()
        x, c = story.network().x, self.few(story)
        later = x.state(story.moments["a"][4], "a")
        sent = next(p.number for p in later.pairs if x.steps[story.moments["a"][4]].checks("a", later.path(p)))
        x = story.altered(story.moments["a"][4], "a", selected=sent).x
        self.assertEqual(reached.lacking(x, c), ["SufficesForServed.few"])

    # ---- in time, in either role

    def timed(self, story: Story, count: int = 2) -> OfPath:
        """So many rounds from the `handle_timeout` call at 100 ms on."""
        agent = story.network().x.state(story.moments["a"][3], "a")
        path = next(agent.path(p) for p in agent.pairs if p.number == self.pair(story))
        return OfPath("a", path, *story.segment(3, count))

    def test_the_pair_is_checked_in_time(self) -> None:
        story = self.story()
        x, c = story.network().x, self.timed(story)
        self.assertEqual(soon.lacking(x, c), [])
        found = soon.find(x)
        # Until there is a path, the agent asks for a call after 10 ms. So this caller is 40 ms late.
        self.assertEqual((found.since, found.bound, found.fact), (at(100), at(100 + 50 + 40), at(100)))

    def test_the_preconditions_of_a_check_in_time(self) -> None:
        story = self.story()
        moments, c = story.moments["a"], self.timed(story)
        self.assertEqual(soon.lacking(story.altered(moments[3], "a", timing=Timing()).x, c), ["has.enough.IsServed.rule"])
        self.assertEqual(soon.lacking(self.with_pair(story, moments[3], requests=0), c), ["has.enough.IsServed.requested"])
        self.assertEqual(soon.lacking(self.with_pair(story, moments[3], due=at(100)), c), ["has.enough.late"])
        self.assertEqual(soon.lacking(story.network().x, self.timed(story, 1)), ["has.enough.few"])

    # ---- in time, in the controlling role

    def in_time(self, story: Story) -> InTime:
        """Three rounds from the `handle_timeout` call at 100 ms on, and those up to the response."""
        moments = story.moments["a"]
        return InTime("a", self.pair(story), moments[3], 3, moments[6])

    def test_the_response_selects_a_path(self) -> None:
        story = self.story(answers=True)
        n, c = story.network(), self.in_time(story)
        self.assertEqual(selected.lacking(n, c), [])
        self.assertEqual(selected_at(n.x, c), at(100))
        self.assertEqual(selected.find(n).fact, at(100))

    def test_the_preconditions_of_a_selection(self) -> None:
        story = self.story()
        self.assertEqual(selected.lacking(story.network(), self.in_time(story)), ["AreAnsweredWithin"])
        story = self.story(answers=True)
        moments, c = story.moments["a"], self.in_time(story)
        lacks = selected.lacking(Network(self.with_pair(story, moments[3], requests=0)), c)
        self.assertEqual(lacks, ["enough.IsServed.requested"])


if __name__ == "__main__":
    unittest.main()
