"""Tests the checkers of `connect` and `both` of `World::run`: for each precondition, a log that lacks exactly it. And those of `connect`
and `in_time` for agents whose nominations have numbers."""

import unittest
from dataclasses import replace

from is_ice import SocketAddress
from lab.clauses import both, connect, in_time
from lab.clauses.accepted_nominations import Network
from lab.clauses.selections import are_enough
from lab.clauses.verdict import Verdict
from lab.tests import late
from lab.tests.late import silent
from lab.tests.stories import MODERN, OUTSIDE, REQUEST, TO_A, TO_B, A, Story, at

FEW = ["Opens.enough.AreEachPolled.few", "Opens.enough.SideRoundsSuffice", "Opens.enough.ServedRoundsSuffice"]


class Connecting(late.Late):
    def lacking(self, n: Network, its: tuple[SocketAddress, SocketAddress] = TO_B, asking: int = -1) -> list[str]:
        a, b = n.x.timeouts["a"], n.x.timeouts["b"]
        return connect.lacking(n, connect.Choice("b", TO_A, its, b[0], a[asking], b[-2], b[-1]))

    def test_both_have_rounds_that_suffice(self) -> None:
        self.assertEqual(self.lacking(self.story().network()), [])
        self.assertEqual(connect.find(self.story().network()), Verdict("", at(1), at(400), at(400), 1))

    def test_new_agents(self) -> None:
        self.assertEqual(self.lacking(self.story().altered(0, "a", next_number=1)), ["IsNewlyCreated"])

    def test_the_roles_differ(self) -> None:
        story = self.story()
        self.assertEqual(self.lacking(story.altered(story.moments["b"][-1], "a", controlling=False)), ["IsControlled"])
        self.assertEqual(self.lacking(story.altered(story.moments["b"][-1], "b", controlling=True)), ["IsControlled"])

    def test_each_part_of_the_rounds_of_the_controlling_agent(self) -> None:
        for part, n in self.altered("a"):
            self.assertEqual(self.lacking(n), [f"asking.{part}"])

    def test_each_part_of_the_rounds_of_the_controlled_agent(self) -> None:
        for part, n in self.altered("b"):
            self.assertEqual(self.lacking(n), [f"asked.{part}"])

    def test_a_pair_on_the_path(self) -> None:
        self.assertEqual(self.lacking(self.story().network(), (A, OUTSIDE)), ["asking.on"])

    def test_the_rounds_are_in_the_segment(self) -> None:
        n = self.story().network()
        a, b = n.x.timeouts["a"], n.x.timeouts["b"]
        self.assertEqual(connect.lacking(n, connect.Choice("b", TO_A, TO_B, b[0], a[0], b[-2], b[-1])), ["split"])

    def test_other_calls_in_the_rounds(self) -> None:
        for side, name in (("a", "asking"), ("b", "asked")):
            story = self.story(lasts=False)
            story.set(side, "set_max_stun_retransmits", 9)
            story.timeout("b", 800)
            self.assertEqual(self.lacking(story.network()), [f"{name}.kept.kept.between"])

    def test_candidates_may_be_added_in_the_rounds(self) -> None:
        story = self.story(lasts=False)
        for side in "ab":
            story.remote(side, "candidate:1 1 udp 1 10.9.9.9 9 typ host", 710)
        story.timeout("b", 800)
        self.assertEqual(self.lacking(story.network()), [])

    def test_the_nomination_is_delivered(self) -> None:
        story = Story()
        story.exchange("a", 0)
        story.exchange("b", 1)
        story.passes("a", 50, 100)  # the second one fixes when the pair is due
        self.assertEqual(self.lacking(self.end(story).network()), ["Asks.asked.handed"])

    def test_the_nomination_is_delivered_also_if_only_a_response_comes(self) -> None:
        story = Story()
        response = story.deliver(story.timeout("a", 0), "b", 5)
        story.exchange("b", 1)
        first = story.end
        story.timeout("a", 20)  # sends nothing
        story.deliver(response, "a", 30)
        story.timeout("b", 400)
        story.timeout("b", 800)
        pair = story.session().steps[first].before["a"].pairs[0]
        self.assertEqual(self.lacking(story.altered(first, "a", pairs=(replace(pair, due=at(10)),))), ["Asks.early.handed"])

    def test_the_check_of_the_controlled_agent_is_answered(self) -> None:
        story = Story()
        story.exchange("a", 0)
        response = story.deliver(story.timeout("b", 1), "a", 6)
        story.exchange("a", 50)
        self.assertEqual(self.lacking(self.end(story).network()), ["IsAnswered.comes"])
        story.deliver(response, "b", 810)
        story.timeout("b", 900)
        self.assertEqual(self.lacking(story.network()), ["asked.line.due"])  # the round from 800 ms on

    def test_what_is_missing_is_said(self) -> None:
        story = Story()
        story.exchange("a", 0)
        story.exchange("b", 1)
        self.assertEqual(connect.find(self.end(story).network()).failed, "Asks.asked.nominated")


class Numbered(unittest.TestCase):
    """Nominations have numbers. A has two pairs. It selects the lesser one at 60 ms and nominates it at 100 ms, and the greater one at 260
    and 310 ms. B's checks are answered. It selects the lesser pair at 131 ms, and the greater one at 540 ms, when A's second nomination
    arrives. A's rounds for the greater pair begin at 310 ms, B's at 520 ms. Two pairs take 7 rounds, since every second check may go ahead,
    and a path that is selected, and whose pair was not checked since, two more. So after its first round A takes 7, since it sent its
    nomination, and B takes 9, since it selected a path."""

    def story(self, asking: int, asked: int) -> Story:
        """The log with so many later timeouts of A and of B, 50 ms apart, whose checks are lost."""
        story = Story(hosts=(2, 1), settings=MODERN)
        for side in "ab":
            story.set(side, "set_renomination", True)
        story.timeout("a", 0)
        for side, time in (("a", 50), ("b", 61), ("a", 100), ("b", 121), ("a", 250)):
            story.exchange(side, time)
        nomination = story.timeout("a", 310)
        story.passes("a", *(360 + 50 * n for n in range(asking) if n < 3))
        story.exchange("b", 520)
        story.deliver(story.deliver(nomination, "b", 540), "a", 545)
        for n in range(max(asking - 3, asked)):
            story.passes("a", *[550 + 50 * n] * (n < asking - 3))
            story.passes("b", *[570 + 50 * n] * (n < asked))
        return story

    def choice(self, n: Network) -> connect.Choice:
        """B's path to A's greater pair, with these rounds."""
        a, b = ([at for at in n.x.timeouts[side] if n.x.now(at) >= since] for side, since in (("a", at(310)), ("b", at(520))))
        return connect.Choice("b", TO_A, TO_B, a[0], a[0], b[0], b[-1])

    def test_with_numbers(self) -> None:
        n = self.story(7, 10).network()
        self.assertEqual([n.x.time(at) for at in n.x.selections("b")], [at(131), at(540)])
        self.assertEqual(connect.lacking(n, self.choice(n)), [])
        found = connect.find(n)
        self.assertEqual((found.held, found.is_broken), (True, False))

    def test_each_nomination_of_the_controlling_agent_counts(self) -> None:
        n = self.story(6, 10).network()
        choice = self.choice(n)
        self.assertEqual(connect.lacking(n, choice), ["asking.enough"])
        self.assertTrue(are_enough(n.x, "a", at(309), n.x.rounds("a", choice.asking, choice.moment), choice.moment))

    def test_each_selection_of_the_controlled_agent_counts(self) -> None:
        n = self.story(7, 9).network()
        choice = self.choice(n)
        self.assertEqual(connect.lacking(n, choice), ["asked.enough"])
        self.assertTrue(are_enough(n.x, "b", at(519), n.x.rounds("b", choice.asked, choice.moment), choice.moment))

    def test_checks_in_time(self) -> None:
        for later, missing in ((6, ["has.enough"]), (7, [])):
            n = self.story(later, 1).network()
            choice = in_time.Choice("a", TO_B, self.choice(n).asking, len(n.x))
            self.assertEqual(in_time.lacking(n.x, choice), missing)
            self.assertFalse(in_time.verdict_of(n.x, choice).is_broken)


class Both(late.Late):
    def lacking(self, n: Network, pair: int | None = 0, start: int | None = None, count: int = 1, leads: int = -1) -> list[str]:
        a, b = n.x.timeouts["a"], n.x.timeouts["b"]
        return both.lacking(n, both.Choice("b", TO_A, TO_B, a[0], pair, count, b[0] if start is None else start, a[leads], b[-2], b[-1]))

    def test_from_creation_on(self) -> None:
        self.assertEqual(self.lacking(self.story().network()), [])
        self.assertEqual(both.find(self.story().network()), Verdict("", at(0), at(400), at(400), 1))

    def test_a_fair_world(self) -> None:
        story = self.story()
        story.log.sides["b"] = replace(story.log.sides["b"], tie_breaker=10)
        self.assertEqual(self.lacking(story.network()), ["IsFairWorld.tie"])

    def test_they_agree_on_roles(self) -> None:
        self.assertEqual(self.lacking(self.story().altered(0, "b", controlling=True)), ["AgreeOnRoles.IsMeeting"])

    def test_after_a_role_conflict(self) -> None:
        story = Story(roles=(True, True))
        error = story.deliver(story.timeout("b", 0), "a", 5)
        story.deliver(error, "b", 10)
        story.exchange("a", 20)
        story.exchange("b", 260)
        story.exchange("a", 300)
        story.timeout("b", 1000)
        self.assertEqual(both.find(story.network()), Verdict("", at(20), at(1000), at(1000), 1))

    def test_a_check_that_ends_a_role_conflict_selects(self) -> None:
        story = Story(roles=(True, True))
        story.exchange("a", 20)
        story.exchange("b", 260)
        story.exchange("a", 300)
        story.timeout("b", 1000)
        self.assertEqual(both.find(story.network()), Verdict("", at(25), at(1000), at(1000), 1))

    def test_a_path_that_was_selected_before(self) -> None:
        story = self.story()
        self.assertEqual(self.lacking(story.network(), None), [])
        self.assertEqual(self.lacking(story.network(), None, story.moments["a"][0] + 1), ["Already", "AreNominatedOn"])

    def test_the_side_is_controlled(self) -> None:
        story = self.story()
        self.assertEqual(self.lacking(story.altered(story.moments["a"][0], "b", controlling=True)), ["controlled"])

    def test_each_part_of_the_opening(self) -> None:
        story = self.story()
        first = story.moments["a"][0]
        pair = story.session().steps[first].before["a"].pairs[0]
        for part, pairs in (("IsUnanswered.young", (silent(pair),)),
                            ("IsUnanswered.invalid", (pair, replace(pair, number=9, state="succeeded"))),
                            ("Awaits.due", (replace(pair, due=at(9)),))):
            missing = [f"Opens.{part}"] + FEW * (len(pairs) > 1)
            self.assertEqual(self.lacking(story.altered(first, "a", pairs=pairs)), missing)
        self.assertEqual(self.lacking(story.altered(first, "a", queue=(REQUEST,))), ["Opens.Awaits.queue"])
        self.assertEqual(self.lacking(story.altered(first, "a", lite=True)), ["Opens.Awaits.checking.full"])

    def test_the_pair_of_the_opening_is_on_the_path(self) -> None:
        story = self.story()
        first = story.moments["a"][0]
        agent = story.session().steps[first].before["a"]
        remote, pair = replace(agent.remote[0], address=OUTSIDE), replace(agent.pairs[0], number=9, remote=1)
        found = self.lacking(story.altered(first, "a", remote=(*agent.remote, remote), pairs=(*agent.pairs, pair)), 9)
        self.assertEqual(found, ["Opens.on", *FEW])

    def test_the_opening_ends_before_the_last_segment(self) -> None:
        story = self.story()
        self.assertEqual(self.lacking(story.network(), start=story.moments["a"][0] + 1), ["Opens.delivers.handed", "AreNominatedOn"])

    def test_the_rounds_are_in_their_segments(self) -> None:
        self.assertEqual(self.lacking(self.story().network(), count=2), ["Opens.split"])
        self.assertEqual(self.lacking(self.story().network(), leads=0), ["split"])

    def test_the_first_check_is_answered(self) -> None:
        story = self.story()
        n = story.network()
        back = n.back_at(n.handed["a"][0], ("success",), True)
        assert back is not None
        self.assertEqual(self.lacking(story.altered(back, "a", peer=None)), ["Opens.delivers.returned.know.mine"])

    def test_the_selected_path_stays_nominated(self) -> None:
        story = self.story()
        first = story.moments["b"][-2]
        pair = story.session().steps[first].before["a"].pairs[0]
        self.assertEqual(self.lacking(story.altered(first, "a", pairs=(replace(pair, nomination="none"),))), ["AreNominatedOn"])

    def test_each_part_of_the_later_rounds(self) -> None:
        for side, name in (("a", "leads"), ("b", "goes")):
            for part, n in self.altered(side):
                self.assertEqual(self.lacking(n), [f"{name}.rounds.{part}"])

    def test_other_calls_in_the_later_rounds(self) -> None:
        for side, name in (("a", "leads"), ("b", "goes")):
            story = self.story(lasts=False)
            story.set(side, "set_max_stun_retransmits", 9)
            story.timeout("b", 800)
            self.assertEqual(self.lacking(story.network()), [f"{name}.rounds.kept.kept.between"])

    def test_the_nomination_and_its_response_are_delivered(self) -> None:
        for is_handed, missing in ((False, "handed"), (True, "comes")):
            story = Story()
            story.exchange("a", 0)
            story.exchange("b", 1)
            check = story.timeout("a", 50)
            if is_handed:
                story.deliver(check, "b", 55)
            story.timeout("a", 100)  # fixes when the pair is due
            self.assertEqual(self.lacking(self.end(story).network()), [f"leads.delivers.{missing}"])

    def test_the_check_of_the_controlled_agent_is_answered(self) -> None:
        story = Story()
        story.exchange("a", 0)
        story.deliver(story.timeout("b", 1), "a", 6)
        story.exchange("a", 50)
        self.assertEqual(self.lacking(self.end(story).network()), ["goes.delivers.comes"])


if __name__ == "__main__":
    unittest.main()
