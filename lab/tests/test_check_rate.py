"""Tests the checkers of the theorems `timeouts_check` and `checks_are_paced`: for each precondition, a log that lacks exactly it; logs with
more checks than there may be; and ordinary sessions."""

import unittest
from dataclasses import replace

from lab import checked, scenario
from lab.candidates import LEAST_ADVANCE
from lab.clauses import check_rate
from lab.clauses.check_rate import DEFAULT_ADVANCE, Caller, Choice
from lab.clauses.execution import MAX, Execution, Lacks
from lab.clock import MILLISECOND, SECOND
from lab.replay import replay
from lab.tests.stories import MODERN, Story, at
from lab.tests.test_theorems import altered

PACED = tuple(range(0, 1000, 50))  # as fast as the default pacing interval lets


def more_checks(story: Story, count: int) -> Execution:
    """The story, in which a sends so many more checks at the end."""
    check = next(e for e in story.log.entries if e.side == "a" and e.call == "poll_transmit")
    extra = replace(check, time=story.log.entries[-1].time)
    return Execution(replay(replace(story.log, entries=[*story.log.entries, *[extra] * count])))


def many(*times: float) -> Story:
    """Two agents with 25 pairs each, of which A makes its calls at these times."""
    story = Story(hosts=(5, 5))
    story.passes("a", *times)
    return story


def patience(story: Story, start: float = 0, end: float = 1000) -> int:
    """The gap with which the caller of A is patient from one time to before another one, in milliseconds."""
    return Caller(story.network().x, "a").patience(at(start), at(end))


def choices(x: Execution) -> list[Choice]:
    return [c for c in check_rate.choices(x) if c.caller.side == "a"]


class Calls(unittest.TestCase):
    def test_each_call_sends_one_check_at_most(self) -> None:
        found = check_rate.timeouts_check(many(0, 50).network().x)
        self.assertEqual((found.held, found.is_broken, found.count, found.limit), (True, False, 2, 2))

    def test_a_call_that_sends_two(self) -> None:
        self.assertTrue(check_rate.timeouts_check(more_checks(many(0, 50), 1)).is_broken)

    def test_a_call_that_sends_none_lets_no_later_one_send_two(self) -> None:
        story = Story()
        story.passes("a", 0, 50)  # the only pair is not due at 50
        self.assertEqual(check_rate.timeouts_check(story.network().x).count, 1)
        early = [e for e in story.log.entries if e.call == "poll_transmit"]
        story.log.entries.insert(story.log.entries.index(early[0]), early[0])
        self.assertTrue(check_rate.timeouts_check(Execution(replay(story.log))).is_broken)


class Paced(unittest.TestCase):
    def test_intervals_that_begin(self) -> None:
        found = [check_rate.begun_in(long, DEFAULT_ADVANCE) for long in (1, DEFAULT_ADVANCE, DEFAULT_ADVANCE + 1, SECOND)]
        self.assertEqual([*found, check_rate.begun_in(SECOND, LEAST_ADVANCE)], [1, 1, 2, 20, 200])

    def test_who_goes_by_poll_timeout_is_patient_with_any_gap(self) -> None:
        self.assertEqual(patience(many(*PACED)), MAX)

    def test_who_calls_sooner_is_patient_with_the_gap(self) -> None:
        self.assertEqual(patience(many(0, 50, 80, 130)), 30 * MILLISECOND)

    def test_the_first_call_of_a_span_is_free_and_so_are_those_outside(self) -> None:
        story = many(0, 3, 53, 103, 105)
        self.assertEqual([patience(story, *span) for span in ((0, 3), (0, 4), (3, 104), (3, 105), (3, 106), (104, 106))],
                         [MAX, 3 * MILLISECOND, MAX, MAX, 2 * MILLISECOND, MAX])

    def test_of_a_modern_agent_the_own_polls_count(self) -> None:
        story = Story(hosts=(5, 5), settings=MODERN)
        story.passes("a", 0, 10, 14)
        caller = Caller(story.network().x, "a")
        first = caller.checks[0]
        self.assertEqual((patience(story), caller.least_pace(first, first + SECOND)), (4 * MILLISECOND, 10 * MILLISECOND))

    def test_a_modern_callers_soon(self) -> None:
        story = Story(hosts=(5, 5), settings=MODERN)
        story.passes("a", 0)
        story.deliver(story.timeout("b", 1), "a", 2)  # makes a pair due
        assert story.agents["a"].deadline is not None
        self.assertEqual(story.agents["a"].deadline - story.log.entries[0].time, 5 * MILLISECOND)
        story.passes("a", 5)
        self.assertEqual(patience(story), 5 * MILLISECOND)

    def test_the_closest_span(self) -> None:
        found = check_rate.checks_are_paced(many(*PACED).network().x)
        self.assertEqual((found.held, found.is_broken, found.count, found.limit), (True, False, found.limit, found.count))

    def test_a_check_too_soon(self) -> None:
        self.assertTrue(check_rate.checks_are_paced(more_checks(many(0, 50), 1)).is_broken)

    def test_the_preconditions(self) -> None:
        story = many(0, 50)
        self.assertEqual(check_rate.lacking_pace(choices(story.network().x)[0]), [])
        self.assertEqual(check_rate.lacking_pace(choices(altered(story, 0, "a", next_number=1))[0]), ["IsNewlyCreated"])
        self.assertEqual(check_rate.lacking_pace(choices(many(0, 0).network().x)[0]), ["pace"])


class Seconds(unittest.TestCase):
    def both(self, x: Execution, place: int = 0) -> tuple[Lacks, Lacks]:
        """What is missing of either half at a check of A."""
        c = choices(x)[place]
        return check_rate.lacking_few(c, LEAST_ADVANCE, False), check_rate.lacking_few(c, DEFAULT_ADVANCE, True)

    def test_a_full_second(self) -> None:
        x = many(*PACED, 1000).network().x
        self.assertEqual(self.both(x), ([], []))
        found = [find(x) for find in (check_rate.seconds_have_few, check_rate.late_seconds_have_few)]
        self.assertEqual([(v.is_broken, v.count, v.limit) for v in found], [(False, 20, 200), (False, 20, 20)])

    def test_one_check_more(self) -> None:
        x = more_checks(many(*PACED), 1)
        self.assertTrue(check_rate.late_seconds_have_few(x).is_broken)
        self.assertFalse(check_rate.seconds_have_few(x).is_broken)
        self.assertTrue(check_rate.seconds_have_few(more_checks(many(*PACED), 181)).is_broken)

    def test_a_frugal_caller(self) -> None:
        story = Story(hosts=(5, 5), settings=MODERN)
        story.passes("a", *range(0, 60, 5))  # the charges are 275 ms when it comes at 55 ms
        self.assertEqual(check_rate.lacking_frugal(choices(story.network().x)[0]), [])
        story.passes("a", 60)
        self.assertEqual(check_rate.lacking_frugal(choices(story.network().x)[0]), ["IsFrugal"])
        lasts = [choices(story.altered(story.moments["a"][12], "a", last=at(last)).x)[0] for last in (35, 36)]
        self.assertEqual([check_rate.lacking_frugal(c) for c in lasts], [[], ["IsFrugal"]])  # the calls since then served early requests
        self.assertEqual(check_rate.lacking_frugal(choices(altered(many(*PACED), 0, "a", next_number=1))[0]), ["IsNewlyCreated"])

    def test_checks_of_a_frugal_caller(self) -> None:
        found = [check_rate.frugal_seconds_have_few(more_checks(many(*PACED), count)) for count in (29, 30)]
        self.assertEqual([(v.is_broken, v.count, v.limit) for v in found], [(False, 49, 49), (True, 50, 49)])

    def test_the_preconditions(self) -> None:
        story = many(*PACED)
        self.assertEqual(self.both(altered(story, 0, "a", next_number=1)), (["IsNewlyCreated"],) * 2)
        self.assertEqual(self.both(many(0, 30).network().x), ([], ["IsPatient"]))
        self.assertEqual(self.both(many(0, 3).network().x), (["IsPatient"], ["IsPatient"]))
        early = Story(hosts=(5, 5), settings=MODERN)
        early.passes("a", 0, 100, 200, 300)
        self.assertEqual(self.both(early.network().x), ([], ["IsLateAt"]))

    def test_a_shorter_interval_counts_until_it_is_set_back(self) -> None:
        story = Story(hosts=(5, 5))
        story.set("a", "set_timing_advance", 20 * MILLISECOND)
        story.passes("a", 0, 50)
        story.set("a", "set_timing_advance", 50 * MILLISECOND, 60)
        story.passes("a", 100, 150)
        x = story.network().x
        self.assertEqual([self.both(x, place)[1] for place in (0, 1, 2)], [["IsSlowAt"], ["IsSlowAt"], []])


class Sessions(unittest.TestCase):
    def played(self, name: str, *changes: str) -> checked.Checked:
        found = checked.Play(0)((scenario.load(name, changes), range(1)))
        assert isinstance(found, list), found
        return found[0]

    def test_the_preconditions_hold_in_ordinary_sessions(self) -> None:
        for name in ("two_homes", "symmetric_both", "many_hosts"):
            for changes in ((), ('a.profile="original"', 'b.profile="original"', 'connects="sometimes"')):
                with self.subTest(scenario=name, changes=changes):
                    found = self.played(name, *changes)
                    # No first check follows a request there.
                    self.assertEqual({clause: v.failed for clause, v in found.verdicts.items() if not v.held and clause != "asked"}, {})
                    self.assertFalse(found.differs)

    def test_the_tables(self) -> None:
        told = checked.table(["two_homes"], [self.played("two_homes")])
        self.assertIn("of 200", told)
        self.assertEqual(told.count("two_homes"), 2)


if __name__ == "__main__":
    unittest.main()
