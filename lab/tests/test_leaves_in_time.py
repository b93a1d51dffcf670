"""Tests the checker of the theorem `leaves_in_time`: for each precondition, a log that lacks exactly it; and logs in which the conclusion
does not come true."""

import unittest
from dataclasses import replace

from is_ice import Settings
from lab.clauses import leaves_in_time
from lab.clauses.execution import Execution, Lacks
from lab.clauses.verdict import Verdict
from lab.clock import MILLISECOND
from lab.pairs import Consent, Pair, Timing
from lab.replay import replay
from lab.states import NEW
from lab.tests.stories import REQUEST, TO_A, TO_B, Story, at
from lab.tests.test_theorems import CONSENT, STRICT, altered


class Left(unittest.TestCase):
    """Consent ends 1 s after the check at 50: the one of A that got a response last."""

    def story(self, *times: float, settings: Settings = CONSENT) -> Story:
        story = Story(settings=settings)
        story.exchange("a", 0)
        story.exchange("a", 50)
        story.passes("a", *(times or (110, 600, 1049, 1050)))
        return story

    def choice(self, x: Execution, place: int) -> leaves_in_time.Choice:
        """That of a timeout of A, by its place."""
        return next(c for c in leaves_in_time.choices(x) if c.side == "a" and c.moment == x.timeouts["a"][place])

    def lacking(self, x: Execution, place: int) -> Lacks:
        return leaves_in_time.lacking(x, self.choice(x, place))

    def test_the_path_is_left(self) -> None:
        x = self.story().network().x
        self.assertEqual([self.lacking(x, place) for place in (2, 3, 4)], [[], [], []])
        self.assertEqual(leaves_in_time.find(x), Verdict("", at(110), at(1150), at(600)))  # this call is 50 ms late
        last = self.choice(x, 4)
        self.assertEqual((last.first, x.now(last.following)), (x.timeouts["a"][2], at(1050)))
        self.assertFalse(x.steps[x.timeouts["a"][5]].after["a"].state.is_connected())

    def test_the_preconditions(self) -> None:
        story = self.story()
        first, moment = story.moments["a"][2], story.moments["a"][3]
        self.assertEqual(self.lacking(altered(story, 0, "a", next_number=1), 3), ["IsFresh"])
        self.assertEqual(self.lacking(altered(story, first, "a", queue=(REQUEST,)), 3), ["IsLastHeard.queue"])
        self.assertEqual(self.lacking(altered(story, first, "a", peer=None), 3), ["IsLastHeard.peer"])
        self.assertEqual(self.lacking(altered(story, first, "a", timing=Timing()), 3), ["IsLastHeard.rule"])
        self.assertEqual(self.lacking(altered(story, first, "a", pairs=()), 3), ["IsLastHeard.responded"])
        self.assertEqual(self.lacking(altered(story, moment, "a", True, state=NEW), 3), ["connected"])
        lite = Story(settings=CONSENT)
        lite.set("a", "set_ice_lite", True)
        lite.set("a", "set_ice_lite", False)
        lite.exchange("a", 0)
        lite.exchange("a", 50)
        lite.passes("a", 110, 600)
        self.assertEqual(self.lacking(lite.network().x, 2), ["AreNeverLite"])

    def test_what_comes_between(self) -> None:
        for settings, missing in ((CONSENT, ["IsSilentRound.unasked"]), (STRICT, [])):
            asked = self.story(110, settings=settings)
            asked.deliver(asked.timeout("b", 300), "a", 305)
            asked.passes("a", 600)
            self.assertEqual(self.lacking(asked.network().x, 2), missing)
        answered = Story(settings=CONSENT)
        for time in (0, 50, 600):
            answered.exchange("a", time)
        answered.passes("a", 650)
        self.assertEqual(self.lacking(answered.network().x, 1), ["IsSilentRound.unanswered"])
        changed = self.story(110)
        changed.set("a", "set_max_stun_retransmits", 7, 120)
        changed.passes("a", 600)
        self.assertEqual(self.lacking(changed.network().x, 2), ["IsSilentRound.between"])
        evicted = self.story(110)
        evicted.evict("a", 120)
        evicted.passes("a", 600)
        self.assertEqual(self.lacking(evicted.network().x, 2), ["Ends"])

    def test_the_peers_last_check(self) -> None:
        pair = Pair(0, 0, 0, 1, consented=7, last_request=9)
        agent = self.story().agents["a"]
        until = leaves_in_time.consent_until
        found = [until(Consent(10, strict), replace(agent, pairs=(pair,)), TO_B, (pair,)) for strict in (True, False)]
        self.assertEqual(found, [17, 9 + 15_000 * MILLISECOND])
        self.assertIsNone(until(Consent(10), agent, TO_A, (pair,)))

    def test_a_path_that_is_not_left(self) -> None:
        story = self.story(110, 600, 1049, 1050, 1060)
        kept = self.story(110, 600, 1049)
        there, connected = kept.agents["a"].pairs, kept.agents["a"].state
        late = altered(story, story.moments["a"][5], "a", True, pairs=there, state=connected)
        self.assertTrue(leaves_in_time.find(late).is_broken)

    def test_a_call_that_comes_too_late(self) -> None:
        story = self.story(110, 600, 5000)
        polls = [n for n, e in enumerate(story.log.entries) if e.side == "a" and e.call == "poll_timeout"]
        story.log.entries[polls[-2]] = replace(story.log.entries[polls[-2]], returned=at(5000))
        broken = leaves_in_time.find(Execution(replay(story.log)))
        self.assertEqual((broken.bound, broken.fact, broken.is_broken), (at(1150), at(5000), True))


if __name__ == "__main__":
    unittest.main()
