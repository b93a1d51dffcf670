"""Tests the checkers of `of_use`, `successes` and `nominations` of `run`, and of `one_path` and `by_number` of `World::run`: for each
precondition, a log that lacks exactly it; and a log in which the conclusion does not come true."""

import unittest
from dataclasses import replace
from typing import Any

from is_ice import Settings
from lab.clauses import by_number, nominations, of_use, one_path, successes
from lab.clauses.accepted_nominations import Network
from lab.clauses.execution import Execution, Lacks
from lab.clauses.verdict import Verdict
from lab.clock import MILLISECOND
from lab.pairs import Timing
from lab.replay import replay
from lab.tests.stories import MODERN, ORIGINAL, OUTSIDE, REQUEST, TO_A, TO_B, Story, at
from lab.tests.test_theorems import altered, answered, without_selections


class Successes(unittest.TestCase):
    def lacking(self, x: Execution, of: Any = successes) -> Lacks:
        """Of the last choice of A."""
        found: Lacks = of.lacking(x, [c for c in of.choices(x) if c.side == "a"][-1])
        return found

    def test_a_response_selects_a_pair(self) -> None:
        x = answered().network().x
        self.assertEqual(self.lacking(x), [])
        self.assertEqual(successes.find(x), Verdict("", at(10), at(10), at(10)))
        self.assertTrue(successes.find(without_selections(answered(), "a")).is_broken)

    def test_a_new_agent_that_is_controlling(self) -> None:
        story = answered()
        last = [c for c in successes.choices(story.network().x) if c.side == "a"][-1].at
        self.assertEqual(self.lacking(altered(story, 0, "a", next_number=1)), ["IsFresh"])
        self.assertEqual(self.lacking(altered(story, last, "a", True, controlling=False)), ["controlling"])
        lost = Story()
        lost.timeout("a", 0)
        self.assertEqual(successes.find(lost.network().x).failed, "BringsSuccess")

    def test_a_timeout_selects_a_pair(self) -> None:
        x = answered().network().x
        self.assertEqual(self.lacking(x, nominations), [])
        self.assertEqual(nominations.find(x), Verdict("", at(50), at(50), at(50)))
        self.assertTrue(nominations.find(without_selections(answered(), "a")).is_broken)

    def test_a_timeout_of_a_new_agent_with_a_nominated_pair(self) -> None:
        story = answered()
        last = story.moments["a"][-1]
        self.assertEqual(self.lacking(altered(story, 0, "a", next_number=1), nominations), ["IsFresh"])
        self.assertEqual(self.lacking(altered(story, last, "a", queue=(REQUEST,)), nominations), ["unqueued"])
        pairs = tuple(replace(p, nomination="none") for p in story.agents["a"].pairs)
        self.assertEqual(self.lacking(altered(story, last, "a", True, pairs=pairs), nominations), ["nominated"])


class OfUse(unittest.TestCase):
    def story(self) -> Story:
        """A's check at 0 is lost. It polls the timeout again at 100, when no packet waits, and calls `handle_timeout` at that time."""
        story = Story()
        story.timeout("a", 0)
        self.poll(story, 100)
        story.timeout("a", 250)
        return story

    def poll(self, story: Story, time: float) -> None:
        story.agents["a"], wake = story.agents["a"].poll_timeout(False)
        story._log(time, "a", "poll_timeout", (), wake)

    def lacking(self, x: Execution) -> Lacks:
        """Of the last choice of A."""
        return of_use.lacking(x, [c for c in of_use.choices(x) if c.side == "a"][-1])

    def test_a_timeout_sends_a_check(self) -> None:
        x = self.story().network().x
        self.assertEqual(self.lacking(x), [])
        self.assertEqual(of_use.find(x), Verdict("", at(100), at(250), at(250)))

    def test_the_preconditions(self) -> None:
        story = self.story()
        asked = [c.asked for c in of_use.choices(story.network().x) if c.side == "a"][-1]
        self.assertEqual(self.lacking(altered(story, 0, "a", next_number=1)), ["IsFresh"])
        self.assertEqual(self.lacking(altered(story, asked, "a", peer=None)), ["IsChecking.peer"])
        self.assertEqual(self.lacking(altered(story, asked, "a", lite=True)), ["IsChecking.full"])
        self.assertEqual(self.lacking(altered(story, asked, "a", pairs=())), ["pairs"])
        queued = Story()
        queued.passes("a", 0, 50)
        self.assertEqual(self.lacking(queued.network().x), ["AreTaken"])
        soon = Story()
        soon.timeout("a", 0)
        self.poll(soon, 100)
        soon.timeout("a", 200)
        self.assertEqual(self.lacking(soon.network().x), ["kept"])
        between = Story()
        between.timeout("a", 0)
        self.poll(between, 100)
        between.set("a", "set_timing_advance", 50 * MILLISECOND, 120)
        between.timeout("a", 250)
        self.assertEqual(self.lacking(between.network().x), ["polled"])
        story.log.entries[asked] = replace(story.log.entries[asked], returned=None)
        self.assertEqual(self.lacking(Execution(replay(story.log))), ["timed_out"])

    def test_a_timeout_that_does_nothing(self) -> None:
        session = self.story().session()
        last = session.timeouts("a")[-1]
        session.steps[last] = replace(session.steps[last], issued=None)
        self.assertTrue(of_use.find(Execution(session)).is_broken)

    def test_a_pair_is_removed_or_a_request_is_served(self) -> None:
        removed: dict[str, Any] = {"queue": (REQUEST,), "pairs": ()}
        served: dict[str, Any] = {"queue": ()}
        for fields in (removed, served):
            session = self.story().session()
            asked, last = (session.steps[at_] for at_ in (session.timeouts("a")[-1] - 1, session.timeouts("a")[-1]))
            before = {**asked.before, "a": replace(asked.before["a"], queue=(REQUEST,))}
            after = {**last.after, "a": replace(last.after["a"], **fields)}
            session.steps[asked.at] = replace(asked, before=before)
            session.steps[last.at] = replace(last, issued=None, after=after)
            self.assertFalse(of_use.find(Execution(session)).is_broken)

    def test_a_path_is_selected_since_the_selected_pair_is_gone(self) -> None:
        numbered: dict[str, Any] = {"renominates": True, "timing": Timing(modern=True)}
        unnumbered: dict[str, Any] = {}
        for fields in (numbered, unnumbered):
            session = self.story().session()
            asked, last = (session.steps[at_] for at_ in (session.timeouts("a")[-1] - 1, session.timeouts("a")[-1]))
            valid = tuple(replace(p, state="succeeded") for p in asked.before["a"].pairs)
            before = {**asked.before, "a": replace(asked.before["a"], pairs=valid, **fields)}
            session.steps[asked.at] = replace(asked, before=before)
            session.steps[last.at] = replace(last, issued=None, selected=(TO_B,))
            self.assertEqual(of_use.find(Execution(session)).is_broken, not fields)


def renominated(story: Story, renominate: bool = True) -> Story:
    """A's first check selects its path, its check at 50 nominates it, and B's check at 60 is answered. B's timeout follows at 120."""
    for side in "ab" if renominate else "":
        story.set(side, "set_renomination", True)
    story.exchange("a", 0)
    story.exchange("a", 50)
    story.exchange("b", 60)
    story.timeout("b", 120)
    return story


def replayed(story: Story) -> tuple[Network, one_path.Choice]:
    """As `renominated`, but the check that nominates arrives once more at 80, by another path. Returns the choice of the first one."""
    for side in "ab":
        story.set(side, "set_renomination", True)
    story.exchange("a", 0)
    check = story.timeout("a", 50)
    story.deliver(check, "b", 55)
    story.exchange("b", 60)
    story.deliver(check, "b", 80, (OUTSIDE, TO_B[1]))
    story.timeout("b", 120)
    n = story.network()
    return n, one_path.Choice("b", TO_A, TO_B, n.handed["a"][1].sent, story.moments["b"][-1])


class OnePath(unittest.TestCase):
    def story(self, renominate: bool = True) -> Story:
        return renominated(Story(), renominate)

    def lacking(self, n: Network) -> Lacks:
        """Of B's last choice."""
        return one_path.lacking(n, [c for c in one_path.choices(n) if c.side == "b"][-1])

    def test_both_select_the_path(self) -> None:
        n = self.story().network()
        self.assertEqual(self.lacking(n), [])
        self.assertEqual(one_path.find(n), Verdict("", at(50), at(120), at(120)))

    def test_the_preconditions(self) -> None:
        story = self.story()
        last = story.moments["b"][-1]
        self.assertEqual(self.lacking(story.altered(0, "a", next_number=1)), ["IsNewlyCreated"])
        self.assertEqual(self.lacking(self.story(renominate=False).network()), ["Renominate"])
        self.assertEqual(self.lacking(story.altered(last, "b", queue=(REQUEST,))), ["request_at"])
        self.assertEqual(self.lacking(story.altered(last, "a", controlling=False)), ["IsControlled"])
        pair = story.agents["b"].pairs[0]
        self.assertEqual(self.lacking(story.altered(last + 1, "b", pairs=(pair, replace(pair, number=9)))), ["IsOnlyPair"])
        alone = Story()
        for side in "ab":
            alone.set(side, "set_renomination", True)
        alone.exchange("a", 0)
        alone.exchange("a", 50)
        alone.timeout("b", 120)
        self.assertEqual(self.lacking(alone.network()), ["IsExchangedOver.handed"])
        self.assertEqual(one_path.find(Story().network()).failed, "IsNominatedLast.handed")

    def test_a_candidate_may_remove_the_pair(self) -> None:
        story = Story()
        for side in "ab":
            story.set(side, "set_renomination", True)
        story.exchange("a", 0)
        story.exchange("a", 50)
        story.exchange("b", 60)
        story.evict("b", 80)
        story.timeout("b", 120)
        self.assertEqual(self.lacking(story.network()), ["MayEndAt"])

    def test_the_last_nomination(self) -> None:
        n, choice = replayed(Story())
        self.assertEqual(one_path.lacking(n, choice), ["IsNominatedLast.last"])

    def test_the_controlling_side_selects_another_path(self) -> None:
        session = self.story().session()
        delivered = session.timeouts("b")[0] + 1
        own = next(s.at for s in session.steps[delivered:] if s.entry.side == "a")
        session.steps[own] = replace(session.steps[own], selected=((OUTSIDE, TO_B[1]),))
        n = Network(Execution(session))
        self.assertEqual(self.lacking(n), ["IsNominatedLast.stays"])

    def test_a_side_that_selects_another_path_or_none(self) -> None:
        for side in "ab":
            self.assertTrue(one_path.find(Network(without_selections(self.story(), side))).is_broken)


class ByNumber(unittest.TestCase):
    def story(self, settings: Settings = MODERN) -> Story:
        return renominated(Story(settings=settings))

    def lacking(self, n: Network) -> Lacks:
        """Of B's last choice."""
        return by_number.lacking(n, [c for c in one_path.choices(n) if c.side == "b"][-1])

    def test_both_select_the_path(self) -> None:
        n = self.story().network()
        self.assertEqual(self.lacking(n), [])
        self.assertEqual(by_number.find(n), Verdict("", at(50), at(120), at(120)))
        self.assertIn("unnumbered", one_path.lacking(n, [c for c in one_path.choices(n) if c.side == "b"][-1]))

    def test_the_preconditions(self) -> None:
        story = self.story()
        end = story.moments["b"][-1] + 1
        self.assertEqual(self.lacking(self.story(ORIGINAL).network()), ["LeadsByNumber"])
        self.assertEqual(self.lacking(story.altered(end, "b", numbers_seen=False)), ["LeadsByNumber"])
        self.assertEqual(self.lacking(story.altered(end, "b", controlling=True)), ["LeadsByNumber"])
        self.assertEqual(by_number.find(Story().network()).failed, "IsNominated.handed")

    def test_the_same_number_on_another_path(self) -> None:
        n, choice = replayed(Story(settings=MODERN))
        self.assertEqual(by_number.lacking(n, choice), ["LeadsByNumber"])

    def test_a_side_that_selects_another_path_or_none(self) -> None:
        for side in "ab":
            self.assertTrue(by_number.find(Network(without_selections(self.story(), side))).is_broken)


if __name__ == "__main__":
    unittest.main()
