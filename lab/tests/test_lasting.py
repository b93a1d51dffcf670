"""Tests that the checkers of rounds read the consent of the pair: logs in which it ends before the rounds, or in them, and that lack
nothing else."""

import unittest
from dataclasses import replace

from lab.clauses import connect, reached_in_turn
from lab.clock import MILLISECOND
from lab.pairs import Timing
from lab.tests.stories import MODERN, TO_A, TO_B, Story, at


class Lasting(unittest.TestCase):
    def test_the_consent_of_the_pair_ends_before_the_rounds(self) -> None:
        """A, which is controlling, selects at 10 ms, and nominates at 50 ms. B's check at 1 ms is answered. A's rounds begin at 700 ms."""
        cases: tuple[tuple[int, list[str]], ...] = ((1000, []), (1, ["asking.line.lasting"]))
        for limit, missing in cases:
            story = Story()
            story.exchange("a", 0)
            story.exchange("b", 1)
            story.exchange("a", 50)
            story.timeout("b", 400)
            story.timeout("a", 700)
            story.timeout("b", 800)
            timing = Timing(modern=True, limit=limit * MILLISECOND, strict=True)
            n = story.altered(story.moments["a"][-1], "a", timing=timing)
            a, b = n.x.timeouts["a"], n.x.timeouts["b"]
            self.assertEqual(connect.lacking(n, connect.Choice("b", TO_A, TO_B, b[0], a[-1], b[-2], b[-1])), missing)

    def test_the_consent_of_the_pair_ends_in_the_rounds(self) -> None:
        """A has four pairs, and calls of `handle_timeout` every 50 ms. The rounds are those at 50 and 100 ms."""
        story = Story(hosts=(2, 2), settings=MODERN)
        story.passes("a", *range(0, 300, 50))
        first, second = story.moments["a"][1:3]
        pairs = story.network().x.state(first, "a").pairs
        last = min(pairs, key=lambda p: p.priority)
        consent = Timing(modern=True).consent
        assert consent is not None
        cases: tuple[tuple[int, list[str]], ...] = ((101, []), (100, ["lasting"]), (50, ["line.lasting", "lasting"]))
        for end, missing in cases:
            valid = replace(last, state="succeeded", consented=at(end) - consent.timeout, due=last.due or at(0))
            x = story.altered(first, "a", pairs=tuple(valid if p.number == last.number else p for p in pairs)).x
            choice = reached_in_turn.Choice("a", last.number, first, second + 1, 1)
            self.assertEqual(reached_in_turn.lacking(x, choice), missing)


if __name__ == "__main__":
    unittest.main()
