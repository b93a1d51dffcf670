"""Tests the checker of the clause `none_starved_in_time` of `run`: for each precondition, a log that lacks exactly it; and a log in which
the conclusion does not come true."""

import unittest
from dataclasses import replace
from typing import Any

from lab.clauses import none_starved_in_time as of
from lab.clauses.execution import MAX, Execution, Lacks
from lab.clauses.verdict import Verdict
from lab.clock import BEGINNING, MILLISECOND
from lab.pairs import Timing
from lab.replay import replay
from lab.tests.stories import LINE, REQUEST, TO_B, A, B, Story, at

PRIORITY = 126 << 24 | 65535 << 8 | 255
ONCE_MORE = LINE.format(PRIORITY, B.ip, B.port, "host")


def limited(*times: float, call: tuple[str, object] | None = None) -> Story:
    """A limits its pairs to 1 and what packets bring to 1, and knows B. So there are at most 1 + 1 * (1 + 1) pairs, for which 9 rounds are
    enough with 9 retransmits, or 5 for a pair that is due before them. The checks of A are lost. Another call may come after the first
    timeout."""
    story = Story(hosts=(0, 1), known=False)
    story.set("a", "set_max_discovered", 1)
    story.limit("a", 1)
    story.host("a", A, PRIORITY)
    story.know("a")
    for place, time in enumerate(times or (0, 50, 250, 300, 750)):
        story.passes("a", time)
        if place == 0 and call is not None:
            story.set("a", *call, time)
    return story


class NoneStarved(unittest.TestCase):
    def choice(self, x: Execution, many: int = 9, first: int = 0, last: int = -1) -> of.Choice:
        row = x.timeouts["a"]
        return of.Choice("a", TO_B, row[first], row[last] + 1, many)

    def lacking(self, x: Execution, many: int = 9, first: int = 0, last: int = -1) -> Lacks:
        return of.lacking(x, self.choice(x, many, first, last))

    def altered(self, story: Story, timeout: int = 0, **fields: Any) -> Lacks:
        """With another state of A before one timeout."""
        return self.lacking(story.altered(story.moments["a"][timeout], "a", **fields).x)

    def test_one_pair(self) -> None:
        x = limited().network().x
        self.assertEqual(of.pair_bound(x, "a", x.timeouts["a"][0]), 3)
        self.assertEqual([self.lacking(x, many) for many in (8, 9)], [["enough"], []])
        self.assertEqual(of.find(x), Verdict("", at(0), at(9 * 50), at(0), 10))

    def test_a_pair_that_is_due_before_the_first_round(self) -> None:
        x = limited(0, 50, 260, 310, 760).network().x
        self.assertEqual([self.lacking(x, many, 2) for many in (3, 4)], [["enough"], []])
        self.assertEqual(of.limit(x, self.choice(x, 4, 2)), at(260 + 4 * 50))

    def test_checks_that_go_ahead(self) -> None:
        self.assertEqual([of.least_rounds(ahead, 9, 9) for ahead in (False, True)], [9, 22])
        self.assertEqual([of.least_rounds(ahead, 11, 3 * 133) for ahead in (False, True)], [438, 975])
        self.assertEqual([of.least_rounds(True, 11, checks) for checks in (2 + 133, 8 + 133)], [329, 344])
        self.assertIsNone(of.least_rounds(True, 2, 9))

    def test_the_delay(self) -> None:
        x = limited(0, 51, 251, 302, 752).network().x
        self.assertEqual(of.limit(x, self.choice(x)), at(9 * 51))

    def test_how_long_the_rounds_go_on(self) -> None:
        x = limited(0, 50, 250, 300, 450, 451).network().x
        self.assertEqual([self.lacking(x, last=last) for last in (4, 5)], [["long"], []])
        many = limited(*range(10)).network().x
        self.assertEqual([self.lacking(many, last=last) for last in (8, 9)], [["long"], []])
        self.assertEqual(of.find(limited(0, 50).network().x).failed, "long")

    def test_a_new_agent(self) -> None:
        self.assertEqual(self.lacking(limited().altered(0, "a", next_number=1).x), ["IsFresh"])

    def test_the_limits(self) -> None:
        story = limited()
        self.assertEqual(self.altered(story, 1, max_discovered=None), ["IsLimited", "enough"])
        self.assertEqual(self.altered(story, 1, max_discovered=2), ["enough"])

    def test_no_candidate_is_added(self) -> None:
        story = limited(0, 50)
        story.remote("a", ONCE_MORE, 60)
        story.passes("a", 250, 300, 750)
        self.assertEqual(self.lacking(story.network().x), ["steady"])

    def test_all_pairs_have_consent(self) -> None:
        story = limited()
        pair = story.session().steps[story.moments["a"][2]].before["a"].pairs[0]
        fields = {"pairs": (replace(pair, state="succeeded", consented=BEGINNING),),
                  "timing": Timing(modern=True, limit=MILLISECOND, strict=True)}
        self.assertEqual(self.altered(story, 2, **fields), ["consents"])

    def test_the_pair_waits(self) -> None:
        story = limited()
        pair = story.session().steps[story.moments["a"][0]].before["a"].pairs[0]
        cases: tuple[tuple[dict[str, Any], str], ...] = (
            ({"lite": True}, "checking.full"), ({"peer": None}, "checking.peer"), ({"queue": (REQUEST,)}, "queue"),
            ({"pairs": (replace(pair, due=at(1)),)}, "due"), ({"pairs": (replace(pair, state="succeeded"),)}, "settled"))
        for fields, missing in cases:
            self.assertEqual(self.altered(story, **fields), [f"line.{missing}"])

    def test_other_calls_in_the_rounds(self) -> None:
        self.assertEqual(self.lacking(limited(call=("set_ice_lite", False)).network().x), ["first.between"])
        self.assertEqual(self.lacking(limited(call=("set_mtu", 1200)).network().x), [])

    def test_later_rounds_begin_later(self) -> None:
        self.assertEqual(self.lacking(limited(0, 0, 50, 250, 300, 750).network().x), ["IsPassing.late"])

    def test_before_the_end_of_the_clock(self) -> None:
        story = limited(*range(11))
        story.timeout("a", (MAX - BEGINNING) // MILLISECOND + 1)
        self.assertEqual([self.lacking(story.network().x, last=last) for last in (-2, -1)], [[], ["IsPassing.early"]])

    def test_the_caller_is_punctual(self) -> None:
        story = limited()
        poll = next(n for n, e in enumerate(story.log.entries) if n > story.moments["a"][1] and e.call == "poll_timeout")
        story.log.entries[poll] = replace(story.log.entries[poll], returned=None)
        self.assertEqual(self.lacking(Execution(replay(story.log))), ["punctual"])

    def test_no_check_is_sent(self) -> None:
        story = limited()
        story.log.entries = [e for e in story.log.entries if e.call != "poll_transmit"]
        x = Execution(replay(story.log))
        self.assertEqual(self.lacking(x), [])
        self.assertTrue(of.find(x).is_broken)

    def test_a_success_response(self) -> None:
        story = limited(0, 50)
        story.know("b", 50)
        story.exchange("a", 250)
        story.passes("a", *range(270, 280))
        story.log.entries = [e for e in story.log.entries if e.call != "poll_transmit" or e.side == "b"]
        self.assertEqual(self.lacking(Execution(replay(story.log))), ["IsAnsweredIn"])


if __name__ == "__main__":
    unittest.main()
