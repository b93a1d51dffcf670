"""Tests the checker of the theorem `reached_in_turn`: for each precondition, a log that lacks exactly it; and a log in which nothing is
checked."""

import unittest
from dataclasses import replace

from lab.clauses import reached_in_turn as of
from lab.clauses.execution import Execution, Lacks
from lab.clauses.verdict import Verdict
from lab.pairs import Timing
from lab.tests.stories import MODERN, Story, at


class Turns(unittest.TestCase):
    """A has four pairs of one kind, and sends a check of one of them every 50 ms, in the order of their priorities. None is answered."""

    def story(self) -> Story:
        story = Story(hosts=(2, 2), settings=MODERN)
        story.passes("a", *range(0, 300, 50))
        return story

    def choice(self, story: Story, pair: int, rounds: int = 2, delays: int = 1, first: int = 1) -> of.Choice:
        """So many rounds from one of the `handle_timeout` calls on."""
        return of.Choice("a", pair, *story.segment(first, rounds), delays)

    def order(self, story: Story) -> list[int]:
        """The numbers of the pairs, the greatest priority first."""
        return [p.number for p in sorted(story.agents["a"].pairs, key=lambda p: -p.priority)]

    def lacking(self, x: Execution, c: of.Choice) -> Lacks:
        return of.lacking(x, c)

    def test_a_pair_is_checked_or_delayed(self) -> None:
        story = self.story()
        x, order = story.network().x, self.order(story)
        for pair, rounds, delays, expected in ((order[1], 2, 1, 50), (order[3], 2, 1, 50), (order[3], 4, 2, 100)):
            c = self.choice(story, pair, rounds, delays)
            self.assertEqual(self.lacking(x, c), [])
            self.assertEqual(of.reached_at(x, c), at(expected))
        self.assertEqual(of.find(x), Verdict("", at(50), at(100), at(50), 2))

    def test_no_pair_is_checked(self) -> None:
        story = self.story()
        self.assertTrue(of.find(story.unsent()).is_broken)

    def test_a_path_is_selected(self) -> None:
        story = self.story()
        c = self.choice(story, self.order(story)[3], 4, 2)
        x = story.altered(story.moments["a"][1] + 1, "a", selected=self.order(story)[0]).x
        self.assertEqual((self.lacking(x, c), of.reached_at(x, c)), ([], at(50)))

    def test_other_pairs_are_no_delay(self) -> None:
        story = self.story()
        x, order, first = story.network().x, self.order(story), story.moments["a"][1]
        r = self.choice(story, order[3]).rounds(x)[0]
        kind = of.kind_in(x.state(first, "a"), x.state(first, "a").pairs[0])
        self.assertTrue(of.is_delayed(x, "a", kind, order[3], r))
        self.assertFalse(of.is_delayed(x, "a", kind, order[1], r))  # it is the pair itself
        self.assertFalse(of.is_delayed(x, "a", kind + 1, order[3], r))
        greater = tuple(replace(p, priority=p.priority << (p.number == order[3])) for p in x.state(first, "a").pairs)
        self.assertFalse(of.is_delayed(story.altered(first, "a", pairs=greater).x, "a", kind, order[3], r))

    def test_an_urgent_pair_is_a_delay(self) -> None:
        story = self.story()
        first, order = story.moments["a"][1], self.order(story)
        pairs = tuple(replace(p, requests=int(p.number == order[1])) for p in story.network().x.state(first, "a").pairs)
        x = story.altered(first, "a", pairs=pairs).x
        self.assertTrue(of.is_delayed(x, "a", 0, order[3], self.choice(story, order[3]).rounds(x)[0]))

    def test_the_preconditions(self) -> None:
        story = self.story()
        order, moments = self.order(story), story.moments["a"]
        c = self.choice(story, order[3])
        self.assertEqual(self.lacking(story.altered(0, "a", next_number=1).x, c), ["IsFresh"])
        self.assertEqual(self.lacking(story.altered(moments[1] + 1, "a", timing=Timing()).x, c), ["TakesTurns.rule"])
        self.assertEqual(self.lacking(story.network().x, self.choice(story, order[3], 1)), ["enough"])
        self.assertEqual(self.lacking(story.network().x, self.choice(story, order[3], first=0)), ["IsPassing.late"])

    def test_the_pair_keeps_its_kind(self) -> None:
        story = self.story()
        order, second = self.order(story), story.moments["a"][2]
        places = tuple(replace(c, address=c.address._replace(ip="172.16.0.1")) for c in story.network().x.state(second, "a").remote)
        x = story.altered(second, "a", remote=places).x
        self.assertEqual(self.lacking(x, self.choice(story, order[3], 4)), ["TakesTurns.keeps"])


if __name__ == "__main__":
    unittest.main()
