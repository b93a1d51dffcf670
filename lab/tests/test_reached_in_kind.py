"""Tests the checker of the theorem `reached_in_kind`: for each precondition, a log that lacks exactly it; and a log in which nothing is
checked."""

import unittest
from dataclasses import replace

from lab.clauses import reached_in_kind as of
from lab.clauses.execution import Execution, Lacks
from lab.clauses.reached_in_turn import Choice
from lab.pairs import Timing
from lab.tests.stories import MODERN, Story, at


class InKind(unittest.TestCase):
    """A has four pairs of one kind, and sends a check of one of them every 50 ms, in the order of their priorities. None is answered."""

    def story(self) -> Story:
        story = Story(hosts=(2, 2), settings=MODERN)
        story.passes("a", *range(0, 600, 50))
        return story

    def choice(self, story: Story, pair: int, rounds: int = 8, delays: int = 1, first: int = 1) -> Choice:
        """So many rounds from one of the `handle_timeout` calls on."""
        return Choice("a", pair, *story.segment(first, rounds), delays)

    def last(self, story: Story) -> int:
        """The number of the pair with the smallest priority."""
        return min(story.agents["a"].pairs, key=lambda p: p.priority).number

    def lacking(self, x: Execution, c: Choice) -> Lacks:
        return of.lacking(x, c)

    def test_a_pair_is_checked(self) -> None:
        story = self.story()
        x, c = story.network().x, self.choice(story, self.last(story))
        self.assertEqual(len(of.others_in(x, c, c.rounds(x))), 3)
        self.assertEqual((self.lacking(x, c), of.reached_at(x, c)), ([], at(150)))
        self.assertFalse(of.find(x).is_broken)

    def test_no_pair_is_checked(self) -> None:
        story = self.story()
        self.assertTrue(of.find(story.unsent()).is_broken)

    def test_an_urgent_pair_holds_it_up(self) -> None:
        story = self.story()
        first, c = story.moments["a"][1], self.choice(story, self.last(story))
        r = c.rounds(story.network().x)[0]
        self.assertFalse(of.is_held_up(story.network().x, "a", c.pair, r))
        pairs = tuple(replace(p, requests=1) for p in story.network().x.state(first, "a").pairs)
        self.assertTrue(of.is_held_up(story.altered(first, "a", pairs=pairs).x, "a", c.pair, r))

    def test_the_preconditions(self) -> None:
        story = self.story()
        moments, c = story.moments["a"], self.choice(story, self.last(story))
        self.assertEqual(self.lacking(story.altered(0, "a", next_number=1).x, c), ["IsFresh"])
        self.assertEqual(self.lacking(story.altered(moments[2], "a", timing=Timing()).x, c), ["TakesTurnsAmong.urgent"])
        without = story.altered(moments[2] + 1, "a", timing=Timing()).x
        self.assertEqual(self.lacking(without, c), ["TakesTurnsAmong.turns.rule"])
        self.assertEqual(self.lacking(story.network().x, self.choice(story, c.pair, 7)), ["enough"])


if __name__ == "__main__":
    unittest.main()
