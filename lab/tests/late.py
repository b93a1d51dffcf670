"""Tests that checkers have in common whose conclusion comes with the last `handle_timeout` call of B, and a story for them."""

import unittest
from dataclasses import replace

from lab.clauses.accepted_nominations import Network
from lab.clock import BEGINNING
from lab.pairs import Check, Pair
from lab.tests.stories import REQUEST, Story, at


def silent(pair: Pair) -> Pair:
    """The pair after as many unanswered checks as it stores, when it is due."""
    return replace(pair, due=BEGINNING, checks=tuple(Check(bytes(12), BEGINNING, False, True) for _ in range(9)))


class AtLastTimeout(unittest.TestCase):
    def story(self) -> Story:
        raise NotImplementedError

    def lacking(self, n: Network) -> list[str]:
        raise NotImplementedError

    def test_a_timeout_that_serves_a_request(self) -> None:
        story = self.story()
        self.assertEqual(self.lacking(story.altered(story.moments["b"][-1], "b", queue=(REQUEST,))), ["request_at"])

    def test_two_pairs_use_the_addresses(self) -> None:
        story = self.story()
        pair = story.agents["b"].pairs[0]
        altered = story.altered(story.moments["b"][-1] + 1, "b", pairs=(pair, replace(pair, number=9)))
        self.assertEqual(self.lacking(altered), ["IsOnlyPair"])


class Late(AtLastTimeout):
    """A, which is controlling, selects at 10 ms, and nominates at 50 ms. B checks at 1 ms and at 400 ms. Each has a round with a late
    timeout after that: A at 700 ms, B at 400 ms. The last timeout of B is at 800 ms."""

    def story(self, lasts: bool = True) -> Story:
        story = Story()
        story.exchange("a", 0)
        story.exchange("b", 1)
        story.exchange("a", 50)
        return self.end(story, lasts)

    def end(self, story: Story, lasts: bool = True) -> Story:
        story.timeout("b", 400)
        story.timeout("a", 700)
        if lasts:
            story.timeout("b", 800)
        return story

    def rows(self, story: Story) -> dict[str, tuple[int, str]]:
        """The first `handle_timeout` call of each side's rounds."""
        return {"a": (story.moments["a"][-1], "a"), "b": (story.moments["b"][-2], "b")}

    def altered(self, side: str) -> list[tuple[str, Network]]:
        """Logs in which a part of `IsInLine` or of `SideRoundsReach` does not hold of the side, with its name."""
        story = self.story()
        first, _ = self.rows(story)[side]
        pair = story.session().steps[first].before[side].pairs[0]
        changes: list[tuple[str, dict[str, object]]] = [
            ("line.checking.full", {"lite": True}), ("line.checking.peer", {"peer": None}), ("line.queue", {"queue": (REQUEST,)}),
            ("line.settled", {"pairs": (replace(pair, due=None, nomination="success"),)}), ("line.young", {"pairs": (silent(pair),)}),
            ("line.due", {"pairs": (replace(pair, due=at(1000)),)}), ("enough", {"pairs": (pair, replace(pair, number=9, local=0))})]
        return [(name, story.altered(first, side, **fields)) for name, fields in changes]

    def test_a_candidate_may_remove_a_pair(self) -> None:
        for side, name in (("a", "MayEndInRounds"), ("b", "MayEndAt")):
            story = self.story(lasts=False)
            story.evict(side, 710)
            story.timeout("b", 800)
            self.assertEqual(self.lacking(story.network()), [name])
