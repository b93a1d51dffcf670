"""Tests the checkers of the theorems on one agent, and of the clauses `in_time` and `connected`: for each precondition, a log that lacks
exactly it; and a log in which the conclusion does not come true."""

import unittest
from collections.abc import Callable
from dataclasses import replace
from typing import Any

from is_ice import Candidate, NominatedSend, Settings
from is_ice import Consent as Setting
from lab.clauses import (
    completed_nominations_are_selected, connected_are_answered, connected_have_consent, consent_ends_in_time, consent_holds, in_time,
    run_connected, run_connected_answered, run_in_time, states_agree, valid_have_consented)
from lab.clauses.execution import Execution, Lacks
from lab.clauses.progress import has_selected
from lab.clauses.verdict import Verdict
from lab.clock import MILLISECOND
from lab.pairs import Consent, Pair, Timing
from lab.replay import replay
from lab.tests.stories import MODERN, ORIGINAL, REQUEST, TO_A, TO_B, B, Story, at

CONSENT, STRICT = (replace(MODERN, consent=Setting(1000 * MILLISECOND, strict)) for strict in (False, True))
BRIEF = replace(MODERN, consent=Setting(30 * MILLISECOND))


def altered(story: Story, index: int, side: str, is_after: bool = False, **fields: Any) -> Execution:
    """The story with another state of the side before one entry, or after it."""
    session = story.session()
    step = session.steps[index]
    if is_after:
        session.steps[index] = replace(step, after={**step.after, side: replace(step.after[side], **fields)})
    else:
        session.steps[index] = replace(step, before={**step.before, side: replace(step.before[side], **fields)})
    return Execution(session)


def without_selections(story: Story, side: str) -> Execution:
    """The story, in which the side reports no path."""
    story.log.entries = [e for e in story.log.entries if not (e.side == side and isinstance(e.returned, NominatedSend))]
    return Execution(replay(story.log))


def answered(settings: Settings = CONSENT) -> Story:
    """A's check at 0 is answered at 10, and so is the one at 50, which nominates the pair, at 60. A timeout follows at 110."""
    story = Story(settings=settings)
    story.exchange("a", 0)
    story.exchange("a", 50)
    story.timeout("a", 110)
    return story


class Consents(unittest.TestCase):
    def lacking(self, x: Execution, moment: int) -> Lacks:
        choice = next(c for c in consent_holds.choices(x) if c.side == "a" and c.moment == moment)
        return consent_holds.lacking(x, choice)

    def test_after_each_timeout(self) -> None:
        story = answered()
        x = story.network().x
        self.assertEqual([self.lacking(x, moment) for moment in story.moments["a"]], [["responded"], [], []])
        self.assertEqual(consent_holds.find(x), Verdict("", at(50), at(50), at(50)))

    def test_the_preconditions(self) -> None:
        story = answered()
        last = story.moments["a"][-1]
        self.assertEqual(self.lacking(altered(story, last, "a", lite=True), last), ["IsMaintained.full"])
        self.assertEqual(self.lacking(altered(story, last, "a", queue=(REQUEST,)), last), ["IsMaintained.unqueued"])
        self.assertEqual(self.lacking(altered(story, last, "a", timing=Timing()), last), ["rule"])
        self.assertEqual(consent_holds.find(answered(ORIGINAL).network().x).failed, "rule")

    def test_a_pair_that_is_kept_without_consent(self) -> None:
        story = answered()
        pairs = story.agents["a"].pairs
        story.timeout("a", 1049)  # 999 ms after the last check with a response
        self.assertEqual(story.agents["a"].pairs[0].number, pairs[0].number)
        story.timeout("a", 1050)
        self.assertEqual(story.agents["a"].pairs, ())
        self.assertFalse(consent_holds.find(story.network().x).is_broken)
        broken = consent_holds.find(altered(story, story.moments["a"][-1], "a", True, pairs=pairs))
        self.assertEqual((broken.bound, broken.is_broken), (at(1050), True))

    def test_a_check_of_the_peer_keeps_it_unless_consent_is_strict(self) -> None:
        for settings in (CONSENT, STRICT):
            story = answered(settings)
            story.deliver(story.timeout("b", 900), "a", 905)
            story.timeout("a", 1050)
            self.assertEqual(bool(story.agents["a"].pairs), settings is CONSENT)
            self.assertFalse(consent_holds.find(story.network().x).is_broken)


class Ends(unittest.TestCase):
    def lacking(self, x: Execution, moment: int = 0) -> Lacks:
        """Of the last `poll_timeout` after this timeout of A."""
        choices = [c for c in consent_ends_in_time.choices(x) if c.side == "a" and c.moment == x.timeouts["a"][moment]]
        return consent_ends_in_time.lacking(x, choices[-1])

    def test_the_next_timeout_comes_before_consent_ends(self) -> None:
        x = answered().network().x
        self.assertEqual(self.lacking(x), [])
        # Until the nomination is sent, the agent asks for a call 5 ms after the last one. So this caller is 45 ms late.
        self.assertEqual(consent_ends_in_time.find(x), Verdict("", at(0), at(1000 + 45), at(50)))

    def test_the_preconditions(self) -> None:
        story = answered()
        first = story.moments["a"][0]
        self.assertEqual(self.lacking(altered(story, first, "a", lite=True)), ["IsMaintained.full"])
        self.assertEqual(self.lacking(altered(story, first, "a", queue=(REQUEST,))), ["IsMaintained.unqueued"])
        self.assertEqual(self.lacking(altered(story, first, "a", timing=Timing())), ["rule"])
        lost = Story(settings=CONSENT)
        lost.passes("a", 0, 50)
        self.assertEqual(self.lacking(lost.network().x), ["responded"])
        changed = Story(settings=CONSENT)
        changed.exchange("a", 0)
        changed.set("a", "set_max_stun_retransmits", 7, 20)
        changed.exchange("a", 50)
        self.assertEqual(self.lacking(changed.network().x), ["between"])
        only = Story(settings=CONSENT)
        only.timeout("a", 0)
        self.assertEqual(consent_ends_in_time.find(only.network().x).failed, "IsFollowed.prompt")

    def nominated(self) -> Story:
        """A's second check, at 20, nominates the pair. Consent ends at 50, and the next call is due at 70."""
        story = Story(settings=BRIEF)
        story.exchange("a", 0)
        story.exchange("a", 20)
        return story

    def bound(self, story: Story) -> int:
        """By when the call after the one at 20 comes."""
        x = story.network().x
        choices = [c for c in consent_ends_in_time.choices(x) if c.side == "a" and c.moment == story.moments["a"][1]]
        self.assertEqual(consent_ends_in_time.lacking(x, choices[-1]), [])
        return consent_ends_in_time.bound(x, choices[-1])

    def test_the_pacing_interval_and_the_delay(self) -> None:
        story = self.nominated()
        story.timeout("a", 77)  # 7 ms after the time that was returned
        self.assertEqual(self.bound(story), at(77))
        slow = self.nominated()
        slow.set("a", "set_timing_advance", 80 * MILLISECOND, 40)
        slow.timeout("a", 77)
        self.assertEqual(self.bound(slow), at(20 + 80 + 7))

    def test_a_time_that_is_too_late(self) -> None:
        story = Story(settings=CONSENT)
        story.exchange("a", 0)
        story.timeout("a", 5000)
        polls = [n for n, e in enumerate(story.log.entries) if e.side == "a" and e.call == "poll_timeout"]
        story.log.entries[polls[-2]] = replace(story.log.entries[polls[-2]], returned=at(5000))
        broken = consent_ends_in_time.find(Execution(replay(story.log)))
        self.assertEqual((broken.bound, broken.fact, broken.is_broken), (at(1000), at(5000), True))

    def test_when_consent_ends(self) -> None:
        end, pair = consent_ends_in_time.consent_end, Pair(0, 0, 0, 1, consented=7, last_request=5)
        self.assertEqual(end(Consent(10, True), pair), 17)
        self.assertEqual(end(Consent(10), pair), 5 + 15_000 * MILLISECOND)
        self.assertEqual(end(Consent(10), replace(pair, consented=None)), (1 << 64) - 1)


class Valid(unittest.TestCase):
    def test_when_a_pair_becomes_valid(self) -> None:
        x = answered().network().x
        self.assertEqual(valid_have_consented.find(x), Verdict("", at(10), at(10), at(10)))
        missing = [valid_have_consented.lacking(x, c) for c in valid_have_consented.choices(x) if c.side == "a"]
        self.assertIn(["is_valid"], missing)
        self.assertIn([], missing)

    def test_a_new_agent_that_is_never_lite(self) -> None:
        story = answered()
        self.assertEqual(valid_have_consented.find(altered(story, 0, "a", next_number=1)).failed, "IsFresh")
        lite = Story(settings=CONSENT)
        lite.set("a", "set_ice_lite", True)
        lite.set("a", "set_ice_lite", False)
        lite.exchange("a", 0)
        x = lite.network().x
        last = [c for c in valid_have_consented.choices(x) if c.side == "a"][-1]
        self.assertEqual(valid_have_consented.lacking(x, last), ["AreNeverLite"])

    def test_a_pair_that_is_valid_without_a_response(self) -> None:
        story = Story()
        story.timeout("a", 0)
        pair = replace(story.agents["a"].pairs[0], state="succeeded")
        self.assertTrue(valid_have_consented.find(altered(story, story.moments["a"][0], "a", True, pairs=(pair,))).is_broken)


class Connected(unittest.TestCase):
    """The theorems."""

    of: Any = connected_have_consent
    answered: Any = connected_are_answered
    choices: Any = staticmethod(connected_have_consent.choices)
    never_lite = "AreNeverLite"

    def lacking(self, x: Execution, of: Any = None) -> Lacks:
        """Of the last timeout of A."""
        found: Lacks = (of or self.of).lacking(x, [c for c in self.choices(x) if c.side == "a"][-1])
        return found

    def test_after_a_timeout(self) -> None:
        x = answered().network().x
        self.assertEqual((self.lacking(x), self.lacking(x, self.answered)), ([], []))
        for theorem in (self.of, self.answered):
            self.assertEqual(theorem.find(x), Verdict("", at(50), at(50), at(50)))

    def test_the_preconditions(self) -> None:
        story = answered()
        last = story.moments["a"][-1]
        for of in (self.of, self.answered):
            self.assertEqual(self.lacking(altered(story, 0, "a", next_number=1), of), ["IsFresh"])
            self.assertEqual(self.lacking(altered(story, last, "a", queue=(REQUEST,)), of), ["unqueued"])
            self.assertEqual(self.lacking(altered(story, last, "a", lite=True), of), ["full"])
            lost = Story(settings=CONSENT)
            lost.timeout("a", 0)
            self.assertEqual(self.lacking(lost.network().x, of), ["connected"])
        self.assertEqual(self.lacking(answered(ORIGINAL).network().x), [])
        self.assertEqual(self.lacking(answered(ORIGINAL).network().x, self.answered), ["rule"])
        lite = Story(settings=CONSENT)
        lite.set("a", "set_ice_lite", True)
        lite.set("a", "set_ice_lite", False)
        lite.exchange("a", 0)
        lite.exchange("a", 50)
        self.assertEqual(self.lacking(lite.network().x), [])
        self.assertEqual(self.lacking(lite.network().x, self.answered), [self.never_lite])

    def test_without_a_selected_path_or_without_consent(self) -> None:
        story = answered()
        pairs, state = story.agents["a"].pairs, story.agents["a"].state
        story.timeout("a", 1050)
        kept = altered(story, story.moments["a"][-1], "a", True, pairs=pairs, state=state)
        for theorem in (self.of, self.answered):
            self.assertTrue(theorem.find(without_selections(answered(), "a")).is_broken)
            self.assertTrue(theorem.find(kept).is_broken)

    def test_when_a_pair_is_alive(self) -> None:
        alive, pair = connected_are_answered.is_alive_by, Pair(0, 0, 0, 1, consented=7, last_request=9)
        self.assertEqual([alive(Consent(10, strict), now, pair) for strict in (True, False) for now in (16, 17)], [True, False, True, True])
        self.assertFalse(alive(Consent(10), 8, replace(pair, consented=None)))


class ConnectedOfRun(Connected):
    """The clauses of `run`."""

    of = run_connected
    answered = run_connected_answered
    choices = staticmethod(run_connected.choices)
    never_lite = "NeverLite"

    def test_the_path_that_was_selected_last(self) -> None:
        x = answered().network().x
        found = list(run_connected.choices(x))
        self.assertEqual(found, list(connected_have_consent.choices(x)))
        self.assertEqual([c.selected for c in found if c.side == "a"], [None, TO_B, TO_B])


class Completed(unittest.TestCase):
    of = completed_nominations_are_selected

    def nominated_last(self, settings: Settings = MODERN, between: Callable[[Story], None] = lambda story: None) -> Story:
        """B's check is answered at 30, and A's nomination arrives at 55."""
        story = Story(settings=settings)
        story.exchange("a", 0)
        story.exchange("b", 20)
        between(story)
        story.exchange("a", 50)
        return story

    def lacking(self, x: Execution) -> Lacks:
        """Of the last nomination or response of B."""
        return self.of.lacking(x, [c for c in self.of.choices(x) if c.side == "b"][-1])

    def last(self, story: Story) -> int:
        """The entry of it."""
        return [c for c in self.of.choices(story.network().x) if c.side == "b"][-1].at

    def test_the_nomination_comes_last(self) -> None:
        x = self.nominated_last().network().x
        self.assertEqual(self.lacking(x), [])
        self.assertEqual(self.of.find(x), Verdict("", at(30), at(55), at(55)))

    def test_the_response_comes_last(self) -> None:
        story = Story()
        story.exchange("a", 0)
        story.exchange("a", 50)
        story.exchange("b", 60)
        self.assertEqual(self.of.find(story.network().x), Verdict("", at(55), at(70), at(70)))

    def test_the_preconditions(self) -> None:
        story = self.nominated_last()
        self.assertEqual(self.lacking(altered(story, 0, "b", next_number=1)), ["IsFresh"])
        self.assertEqual(self.lacking(self.nominated_last(ORIGINAL).network().x), ["modern"])
        self.assertEqual(self.lacking(altered(story, self.last(story), "b", True, controlling=True)), ["controlled"])
        pair = story.agents["b"].pairs[0]
        two = altered(story, self.last(story), "b", True, pairs=(pair, replace(pair, number=9)))
        self.assertEqual(self.lacking(two), ["IsOnlyPair"])
        self.assertEqual(self.lacking(self.nominated_last(between=lambda story: story.evict("b", 40)).network().x), ["Ends"])
        alone = Story(settings=MODERN)
        alone.exchange("a", 0)
        alone.exchange("a", 50)
        self.assertEqual(self.lacking(alone.network().x), ["arrives"])

    def test_no_path_is_selected(self) -> None:
        self.assertTrue(self.of.find(without_selections(self.nominated_last(), "b")).is_broken)

    def test_the_selected_path_is_that_of_a_best_pair(self) -> None:
        agent = self.nominated_last().agents["b"]
        self.assertTrue(has_selected(agent, TO_A))
        self.assertFalse(has_selected(agent, TO_B))
        better = replace(agent.pairs[0], number=9, remote=agent.pairs[0].remote, priority=agent.pairs[0].priority + 1)
        for own, expected in ((better, True), (replace(better, nomination="none"), True)):
            self.assertEqual(has_selected(replace(agent, pairs=(agent.pairs[0], own)), TO_A), expected)


class Agree(unittest.TestCase):
    """A selects a path at 10, and B at 55."""

    of = states_agree

    def story(self, settings: Settings = MODERN) -> Story:
        story = Story(settings=settings)
        story.exchange("a", 0)
        story.exchange("b", 20)
        story.exchange("a", 50)
        return story

    def lacking(self, x: Execution) -> Lacks:
        """Of the last entry that changes B."""
        return self.of.lacking(x, [c for c in self.of.choices(x) if c.side == "b"][-1])

    def test_after_each_call(self) -> None:
        x = self.story().network().x
        self.assertEqual(self.lacking(x), [])
        self.assertEqual(self.of.find(x), Verdict("", at(0), at(0), at(0)))
        found = [(x.time(c.at), c.selected) for c in self.of.choices(x) if c.side == "b" and c.selected is not None]
        self.assertEqual(found[0], (at(55), TO_A))

    def test_the_preconditions(self) -> None:
        story = self.story()
        self.assertEqual(self.lacking(altered(story, 0, "b", next_number=1)), ["IsFresh"])
        self.assertEqual(self.lacking(self.story(ORIGINAL).network().x), ["IsModernAlong"])
        lite = Story(settings=MODERN)
        lite.set("b", "set_ice_lite", True)
        lite.set("b", "set_ice_lite", False)
        lite.timeout("b", 0)
        self.assertEqual(self.lacking(lite.network().x), ["AreNeverLite"])

    def test_before_the_session(self) -> None:
        x = Story(settings=ORIGINAL).network().x
        self.assertEqual(self.lacking(x), [])
        self.assertFalse(self.of.find(x).is_broken)

    def test_the_profile_counts_once_the_session_has_begun(self) -> None:
        late = Story(settings=ORIGINAL)
        late.set("b", "set_settings", MODERN)
        late.timeout("b", 0)
        self.assertEqual(self.lacking(late.network().x), [])
        late.set("b", "set_settings", ORIGINAL, 10)
        late.set("b", "set_settings", MODERN, 20)
        self.assertEqual(self.lacking(late.network().x), ["IsModernAlong"])

    def test_a_pair_that_is_removed(self) -> None:
        story = self.story()
        story.invalidate("b", Candidate.host(B), 70)
        self.assertFalse(story.agents["b"].state.is_connected())
        self.assertFalse(self.of.find(story.network().x).is_broken)
        self.assertTrue(self.of.find(altered(story, story.end - 2, "b", True, state=self.story().agents["b"].state)).is_broken)

    def test_without_a_selected_path_or_a_live_pair(self) -> None:
        self.assertTrue(self.of.find(without_selections(self.story(), "b")).is_broken)
        agent = self.story().agents["b"]
        self.assertEqual([self.of.is_live(agent, path) for path in (TO_A, TO_B, None)], [True, False, False])
        for dead in (replace(agent.pairs[0], state="waiting"), replace(agent.pairs[0], nomination="none")):
            self.assertFalse(self.of.is_live(replace(agent, pairs=(dead,)), TO_A))


class InTime(unittest.TestCase):
    """`World::run`."""

    of: Any = in_time
    new, answered, ended = "IsNewlyCreated", "Succeeds", "MayEndInRounds"

    def two_pairs(self) -> Story:
        """A has two pairs, and four timeouts. Both pairs are due at the first one."""
        story = Story(hosts=(2, 1))
        story.passes("a", 0, 50, 102, 150)
        return story

    def lacking(self, x: Execution, rounds: int, first: int = 0) -> Lacks:
        row = x.timeouts["a"]
        path = x.state(row[first], "a").path(x.state(row[first], "a").pairs[-1])
        missing: Lacks = self.of.lacking(x, in_time.Choice("a", path, row[first], row[first + rounds - 1] + 1))
        return missing

    def test_the_only_pair(self) -> None:
        story = Story()
        story.timeout("a", 0)
        self.assertEqual(self.of.find(story.network().x), Verdict("", at(0), at(0), at(0), 1))

    def test_two_pairs(self) -> None:
        x = self.two_pairs().network().x
        self.assertEqual([self.lacking(x, rounds) for rounds in (3, 4)], [["has.enough"], []])
        row = x.timeouts["a"]
        agent = x.state(row[0], "a")
        choice = in_time.Choice("a", agent.path(agent.pairs[-1]), row[0], row[3] + 1)
        self.assertEqual((in_time.pace(x, choice), in_time.delay(x, "a", choice.rounds(x))), (50 * MILLISECOND, 2 * MILLISECOND))
        self.assertEqual(self.of.find(x), Verdict("", at(0), at(3 * 52), at(0), 4))

    def test_the_preconditions(self) -> None:
        story = self.two_pairs()
        first = story.moments["a"][0]
        self.assertEqual(self.lacking(altered(story, 0, "a", next_number=1), 4), [self.new])
        self.assertEqual(self.lacking(altered(story, first, "a", queue=(REQUEST,)), 4), ["has.line.queue"])
        self.assertEqual(self.lacking(altered(story, first, "a", peer=None), 4), ["has.line.checking.peer"])
        story.log.entries = [e for e in story.log.entries if e.call != "poll_timeout"]
        self.assertEqual(self.lacking(Execution(replay(story.log)), 4), ["punctual"])
        paced = self.two_pairs()
        paced.set("a", "set_max_stun_rto", 100 * MILLISECOND, 160)
        paced.timeout("a", 200)
        self.assertIn("has.kept.kept.between", self.lacking(paced.network().x, 5))

    def unchecked(self, story: Story) -> tuple[Execution, in_time.Choice]:
        """The story, in which A's first timeout sends no check, and all of it as one round."""
        session = story.session()
        first = story.moments["a"][0]
        session.steps[first] = replace(session.steps[first], issued=None)
        x = Execution(session)
        return x, in_time.Choice("a", TO_B, first, len(x))

    def test_what_excuses_a_missing_check(self) -> None:
        story = Story()
        story.exchange("a", 0)
        self.assertEqual(self.of.lacking(*self.unchecked(story)), [self.answered])
        story = Story()
        story.timeout("a", 0)
        story.evict("a", 10)
        self.assertEqual(self.of.lacking(*self.unchecked(story)), [self.ended])

    def test_no_check_in_time(self) -> None:
        story = Story()
        story.timeout("a", 0)
        x, choice = self.unchecked(story)
        self.assertEqual(self.of.lacking(x, choice), [])
        self.assertTrue(self.of.find(x).is_broken)

    def test_the_other_agent(self) -> None:
        self.assertEqual(self.lacking(altered(self.two_pairs(), 0, "b", next_number=1), 4), [self.new])


class InTimeOfRun(InTime):
    """`run`: the other agent may be any."""

    of = run_in_time
    new, answered, ended = "IsFresh", "IsAnsweredIn", "IsEndedIn"

    def test_the_other_agent(self) -> None:
        self.assertEqual(self.lacking(altered(self.two_pairs(), 0, "b", next_number=1), 4), [])


if __name__ == "__main__":
    unittest.main()
