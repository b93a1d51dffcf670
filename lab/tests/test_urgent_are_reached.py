"""Tests the checker of the theorem `urgent_are_reached`: for each precondition, a log that lacks exactly it; and a log in which nothing is
checked."""

import unittest
from dataclasses import replace

from lab.clauses import urgent_are_reached as of
from lab.clauses.execution import Execution, Lacks
from lab.clauses.reached_in_turn import Choice
from lab.clauses.served import is_overtaken
from lab.clauses.verdict import Verdict
from lab.pairs import Timing
from lab.tests.stories import MODERN, Story, at


class Urgent(unittest.TestCase):
    """A has nine pairs. It sends three checks, and from 100 ms on one every 50 ms, of which the first goes ahead. At 60 ms two checks of B
    arrive, on pairs of which A checked none. No check of A is answered."""

    def story(self) -> Story:
        story = Story(hosts=(3, 3), settings=MODERN)
        story.passes("a", 0, 25, 50)
        checks = [story.timeout("b", time) for time in range(30, 60, 5)]
        for check in checks[4:]:
            story.deliver(check, "a", 60)
        story.passes("a", *range(100, 400, 50))
        return story

    def urgent(self, story: Story) -> list[int]:
        """The numbers of the urgent pairs of A at its fourth `handle_timeout`, in the order of their turns."""
        first = story.moments["a"][3]
        agent = story.network().x.state(first, "a")
        return [p.number for p in sorted(agent.pairs, key=lambda p: agent.place_in_order(p, at(100), True)) if p.is_urgent]

    def choice(self, story: Story, pair: int, rounds: int = 2, delays: int = 1, first: int = 3) -> Choice:
        """So many rounds from one of the `handle_timeout` calls on."""
        return Choice("a", pair, *story.segment(first, rounds), delays)

    def lacking(self, x: Execution, c: Choice) -> Lacks:
        return of.lacking(x, c)

    def test_an_urgent_pair_is_checked(self) -> None:
        story = self.story()
        x, (leading, following) = story.network().x, self.urgent(story)
        for pair, rounds, delays, expected in ((leading, 2, 1, 100), (following, 2, 1, 100), (following, 4, 2, 200)):
            c = self.choice(story, pair, rounds, delays)
            self.assertEqual(self.lacking(x, c), [])
            self.assertEqual(of.reached_at(x, c), at(expected))
        self.assertEqual(of.find(x), Verdict("", at(100), at(150), at(100), 2))

    def test_no_pair_is_checked(self) -> None:
        story = self.story()
        self.assertTrue(of.find(story.unsent()).is_broken)

    def test_a_pair_that_is_not_urgent_is_not_before_it(self) -> None:
        story = self.story()
        first, (leading, following) = story.moments["a"][3], self.urgent(story)
        r = self.choice(story, following).rounds(story.network().x)[0]
        self.assertTrue(is_overtaken(story.network().x, "a", following, r))
        self.assertFalse(is_overtaken(story.network().x, "a", leading, r))  # it is the pair itself
        self.assertFalse(is_overtaken(story.with_pair(first, leading, requests=0), "a", following, r))
        self.assertFalse(is_overtaken(story.with_pair(first, leading, priority=0), "a", following, r))

    def test_the_selected_pair_is_before_it(self) -> None:
        story = self.story()
        first, (leading, following) = story.moments["a"][3], self.urgent(story)
        r = self.choice(story, following).rounds(story.network().x)[0]
        pairs = tuple(replace(p, requests=0) for p in story.network().x.state(first, "a").pairs)
        x = story.altered(first, "a", pairs=pairs, selected=leading).x
        self.assertTrue(is_overtaken(x, "a", following, r))

    def test_the_preconditions(self) -> None:
        story = self.story()
        moments, (_, following) = story.moments["a"], self.urgent(story)
        c = self.choice(story, following)
        self.assertEqual(self.lacking(story.altered(0, "a", next_number=1).x, c), ["IsFresh"])
        self.assertEqual(self.lacking(story.altered(moments[4], "a", timing=Timing()).x, c), ["PutsUrgentFirst.rule"])
        self.assertEqual(self.lacking(story.with_pair(moments[4], following, requests=0), c), ["PutsUrgentFirst.urgent"])
        self.assertEqual(self.lacking(story.with_pair(moments[3], following, due=at(100)), c), ["IsPassing.late"])
        self.assertEqual(self.lacking(story.network().x, self.choice(story, following, 1)), ["enough"])

    def test_a_path_is_selected(self) -> None:
        story = self.story()
        _, following = self.urgent(story)
        x, c = story.network().x, self.choice(story, following)
        step = x.steps[story.moments["a"][4]]
        x.steps[step.at] = replace(step, selected=(x.state(c.first, "a").path(x.state(c.first, "a").pairs[0]),))
        self.assertEqual(self.lacking(x, c), ["PutsUrgentFirst.quiet"])


if __name__ == "__main__":
    unittest.main()
