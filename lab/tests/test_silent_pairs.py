"""Tests the checker of the theorem `silent_pairs_get_few`: its numbers; for each precondition, a log that lacks exactly it; and logs with
more checks than there may be."""

import unittest
from collections.abc import Iterable
from dataclasses import replace

from is_ice import IceAgent, IceCreds
from lab.clauses import silent_pairs
from lab.clauses.execution import MAX, Execution, Lacks
from lab.clauses.silent_pairs import (Choice, asked_time, check_time, early_time, ends_asked, ends_with, is_past_requests, least_asked,
                                      least_number)
from lab.clock import MILLISECOND
from lab.model import Agent
from lab.pairs import Timing
from lab.replay import replay
from lab.tests.stories import MODERN, Story
from lab.tests.test_check_rate import more_checks
from lab.tests.test_theorems import altered

ALL = (0, 250, 750, 1750, 3750, 6750, 9750, 12750, 15750)  # as soon as they are due with `Original`


def own_timing() -> Timing:
    """The timing of an agent as the library makes it: that of the settings of `Modern`."""
    creds = IceCreds("a" * 4, "a" * 22)
    return Agent(creds, 1).with_settings(IceAgent(creds, 1).settings).timing


def times(t: Timing, numbers: Iterable[int]) -> list[int]:
    """When these checks come after the first at least, in ms."""
    return [check_time(t, early_time(t), n) // MILLISECOND for n in numbers]


class Numbers(unittest.TestCase):
    def test_the_numbers_of_both_settings(self) -> None:
        original, modern = Timing(), own_timing()
        self.assertTrue(modern.modern)
        self.assertEqual([least_number(t, heard) for t in (original, modern) for heard in (False, True)], [9, 9, 17, 17])
        self.assertEqual([least_asked(t) for t in (original, modern)], [9, 11])

    def test_the_least_times(self) -> None:
        self.assertEqual(times(Timing(), range(11)), [0, *ALL, 18750])
        self.assertEqual(times(own_timing(), range(6)), [0, 0, 100, 200, 400, 750])
        modern = own_timing()
        self.assertEqual([check_time(modern, asked_time(modern), n) // MILLISECOND for n in range(6, 13)],
                         [1100, 1450, 4350, 7250, 10150, 13050, 15950])

    def test_each_part(self) -> None:
        self.assertEqual(ends_with(Timing(), 8), ["counted"])
        self.assertEqual(ends_with(own_timing(), 16), ["over"])
        self.assertEqual(ends_with(Timing(modern=True, retransmits=1), 3), ["rare"])
        self.assertEqual(ends_asked(own_timing(), 8), ["enough", "past"])
        self.assertEqual(ends_asked(own_timing(), 10), ["enough", "past"])
        self.assertEqual(ends_asked(Timing(modern=True, retransmits=9), 9), ["past"])

    def test_none_if_checks_have_no_distance(self) -> None:
        self.assertIsNone(least_number(Timing(modern=True, initial=0), True))

    def test_requests_may_keep_a_pair_longer(self) -> None:
        brief = Timing(retransmits=3)
        self.assertEqual([least_number(brief, heard) for heard in (False, True)], [3, 17])
        self.assertEqual([is_past_requests(brief, n) for n in (16, 17)], [False, True])
        self.assertEqual(times(brief, (17, 18)), [14750, 15750])


class Silent(unittest.TestCase):
    def choices(self, x: Execution, side: str = "a") -> list[Choice]:
        return [c for c in silent_pairs.choices(x) if c.own.side == side]

    def both(self, x: Execution, place: int) -> tuple[Lacks, Lacks]:
        """What is missing of either theorem at a check of A."""
        c = self.choices(x)[place]
        return silent_pairs.lacking(c), silent_pairs.lacking_since(c)

    def test_all_its_checks(self) -> None:
        story = Story()
        story.passes("a", *ALL, 18750, 21750)
        x = story.network().x
        self.assertEqual([self.both(x, place) for place in range(9)], [([], [])] * 9)
        for found in (silent_pairs.silent_pairs_get_few(x), silent_pairs.silences_have_few(x)):
            self.assertEqual((found.is_broken, found.count, found.limit), (False, 9, 9))

    def test_one_check_more(self) -> None:
        story = Story()
        story.passes("a", *ALL)
        x = more_checks(story, 1)
        self.assertTrue(silent_pairs.silent_pairs_get_few(x).is_broken)
        self.assertTrue(silent_pairs.silences_have_few(x).is_broken)

    def test_after_a_response(self) -> None:
        story = Story()
        story.exchange("a", 0)
        story.passes("a", 250)
        self.assertEqual(self.both(story.network().x, 1), (["IsSilent.unanswered"], ["IsSilentSince.silent.unanswered"]))

    def test_after_a_request_they_are_counted_again(self) -> None:
        story = Story()
        story.passes("a", 0, 250)
        story.deliver(story.timeout("b", 300), "a", 310)
        story.passes("a", *ALL[2:])
        x = story.network().x
        self.assertEqual(self.both(x, 2), (["IsSilent.unheard"], []))
        last = self.choices(x)[-1]
        self.assertEqual((last.before.sent, last.after.sent, last.before.requests), (2, 9, 1))
        self.assertFalse(silent_pairs.silences_have_few(more_checks(story, 2)).is_broken)
        self.assertTrue(silent_pairs.silences_have_few(more_checks(story, 3)).is_broken)

    def test_a_pair_that_a_request_brought(self) -> None:
        story = Story(settings=MODERN)
        story.deliver(story.timeout("b", 0), "a", 5)
        story.passes("a", 10, 110)
        c = self.choices(story.network().x)[1]
        c = replace(c, n=least_asked(c.own.timing))
        self.assertEqual(silent_pairs.lacking_asked(c), [])
        self.assertEqual(silent_pairs.lacking_asked(replace(c, n=10)), ["EndsAsked.past"])
        self.assertEqual(silent_pairs.lacking_asked(replace(c, after=replace(c.after, first_sent=0))), ["is_asked_first"])
        self.assertEqual(silent_pairs.lacking_asked(replace(c, after=replace(c.after, requests=2))), ["StaysSilent.unheard"])
        found = silent_pairs.asked_pairs_get_few(story.network().x)
        self.assertEqual((found.is_broken, found.count, found.limit), (False, 2, 11))

    def test_each_part_of_silence_since(self) -> None:
        story = Story()
        story.passes("a", 0)
        c = self.choices(story.network().x)[0]
        for lacking, other in (("silent.number", replace(c, before=replace(c.before, number=7))),
                               ("silent.unheard", replace(c, after=replace(c.after, requests=1))),
                               ("silent.counted", replace(c, before=replace(c.before, requests=MAX), after=replace(c.after, requests=MAX))),
                               ("kept", replace(c, before=replace(c.before, requests=1), after=replace(c.after, requests=1), n=1))):
            self.assertEqual(silent_pairs.is_silent_since(other), [lacking])

    def test_the_preconditions(self) -> None:
        story = Story()
        story.passes("a", 0, 250)
        self.assertEqual(self.both(altered(story, 0, "a", next_number=1), 0), (["IsNewlyCreated"],) * 2)
        other = altered(story, story.moments["a"][1], "a", timing=Timing(retransmits=8))
        self.assertEqual(self.both(other, 1), (["IsTimedBy.called"],) * 2)
        back = Story()
        back.passes("a", 300, 250)
        c = next(c for c in self.choices(back.network().x) if c.at > back.moments["a"][0])
        self.assertEqual(silent_pairs.lacking(c), [])
        back.passes("a", 600)
        self.assertEqual(silent_pairs.lacking(self.choices(back.network().x)[-1]), ["AreInOrder"])
        late = Story()
        late.passes("a", 0, MAX // MILLISECOND)
        self.assertEqual(self.both(late.network().x, 1), (["IsTimedBy.early"],) * 2)

    def test_a_setting_that_is_set_back(self) -> None:
        story = Story(settings=MODERN)
        story.set("a", "set_max_stun_retransmits", 8)
        story.set("a", "set_max_stun_retransmits", 9)
        story.passes("a", 0, 250)
        self.assertEqual(self.both(story.network().x, 1), ([], []))  # polls before the first call do not count
        for count in (8, 9):
            story.set("a", "set_max_stun_retransmits", count, 260)
        story.passes("a", 750)
        self.assertEqual(self.both(story.network().x, 2), (["IsTimedBy.polled"],) * 2)

    def test_a_timing_without_an_end_after_a_request(self) -> None:
        story = Story(settings=replace(MODERN, initial_rto=0))
        story.deliver(story.timeout("b", 0), "a", 5)
        story.passes("a", 10)
        self.assertEqual(self.both(story.network().x, 0)[1], ["EndsWith", "IsSilentSince.kept"])

    def test_a_check_on_no_pair_is_no_choice(self) -> None:
        story = Story()
        story.passes("a", 0)
        at = next(at for at, e in enumerate(story.log.entries) if e.call == "poll_transmit")
        entry = story.log.entries[at]
        elsewhere = entry.returned._replace(destination=entry.returned.source)
        story.log.entries[at] = replace(entry, returned=elsewhere)
        self.assertEqual(self.choices(Execution(replay(story.log))), [])


if __name__ == "__main__":
    unittest.main()
