"""Tests the checkers of the clauses of `World::run`: for each precondition, a log that lacks exactly it."""

import unittest
from dataclasses import replace
from typing import Any

from is_ice import Candidate
from lab.clauses import meet, nomination_accepted, world_rounds
from lab.clauses.accepted_nominations import Network
from lab.clauses.verdict import Verdict
from lab.pairs import Place, Timing
from lab.tests import late
from lab.tests.stories import LINE, OUTSIDE, REQUEST, TO_A, TO_B, A, B, Story, at


def discarded(story: Story) -> tuple[Place, ...]:
    """The local candidates of B, if all are discarded."""
    return tuple(replace(c, is_discarded=True) for c in story.agents["b"].local)


class Meeting(unittest.TestCase):
    def lacking(self, n: Network, side: str = "a", end: int | None = None) -> list[str]:
        return meet.lacking(n, meet.Choice(side, TO_B if side == "a" else TO_A, 0, len(n.x) if end is None else end))

    def delivered(self) -> Story:
        story = Story()
        story.deliver(story.timeout("a", 0), "b", 5)
        return story

    def conflict(self) -> Story:
        """B's check meets a role conflict; the story ends before its 487 is delivered."""
        story = Story(roles=(True, True))
        self.error = story.deliver(story.timeout("b", 0), "a", 5)
        return story

    def test_a_delivered_check_is_enough(self) -> None:
        self.assertEqual(self.lacking(self.delivered().network()), [])
        self.assertEqual(meet.find(self.delivered().network()), Verdict("", at(0), at(5), at(0)))

    def test_a_fair_world(self) -> None:
        story = self.delivered()
        self.assertEqual(self.lacking(story.altered(0, "a", next_number=1)), ["IsFairWorld.start.new"])
        story.log.sides["b"] = replace(story.log.sides["b"], tie_breaker=10)
        self.assertEqual(self.lacking(story.network()), ["IsFairWorld.tie"])

    def test_a_check_that_is_lost(self) -> None:
        story = Story()
        story.timeout("a", 0)
        self.assertEqual(self.lacking(story.network()), ["IsMeeting.handed"])
        self.assertEqual(meet.find(story.network()).failed, "IsMeeting.handed")

    def test_a_check_to_a_stranger(self) -> None:
        story = self.delivered()
        arrived = story.network().handed["a"][0].arrived
        self.assertEqual(self.lacking(story.altered(arrived, "b", peer=None)), ["IsMeeting.know.its"])

    def test_a_check_that_reaches_no_candidate(self) -> None:
        story = self.delivered()
        arrived = story.network().handed["a"][0].arrived
        self.assertEqual(self.lacking(story.altered(arrived, "b", local=discarded(story))), ["IsMeeting.reached.there"])

    def test_a_role_conflict_needs_the_487(self) -> None:
        story = self.conflict()
        self.assertEqual(self.lacking(story.network(), "b"), ["IsMeeting.comes"])
        self.assertEqual(meet.find(story.network()).failed, "IsMeeting.comes")
        story.deliver(self.error, "b", 9)
        self.assertEqual(self.lacking(story.network(), "b"), [])
        self.assertEqual(meet.find(story.network()), Verdict("", at(0), at(9), at(9)))

    def test_the_487_comes_back_elsewhere(self) -> None:
        story = self.conflict()
        story.deliver(self.error, "b", 9, (OUTSIDE, B))
        self.assertEqual(self.lacking(story.network(), "b"), ["IsMeeting.returned.back"])

    def test_the_487_comes_to_a_stranger(self) -> None:
        story = self.conflict()
        returned = story.end
        story.deliver(self.error, "b", 9)
        self.assertEqual(self.lacking(story.altered(returned, "b", peer=None), "b"), ["IsMeeting.returned.know.mine"])

    def test_the_487_comes_after_the_check_is_pending(self) -> None:
        story = Story(roles=(True, True))
        story.set("b", "set_max_stun_retransmits", 2)
        error = story.deliver(story.timeout("b", 0), "a", 5)
        story.deliver(story.timeout("a", 5), "b", 10)  # so that the pair stays
        story.passes("b", 250, 1000)
        story.deliver(error, "b", 1010)
        self.assertEqual(self.lacking(story.network(), "b"), ["IsMeeting.returned.pending"])

    def test_its_pair_may_be_removed_before_the_487_comes(self) -> None:
        story = self.conflict()
        story.evict("b", 7)
        story.deliver(self.error, "b", 9)
        self.assertEqual(self.lacking(story.network(), "b"), ["IsMeeting.stays"])


class Rounds(unittest.TestCase):
    """Rounds of A, which is controlling, for its first pair."""

    def lacking(self, n: Network, moment: int = 0, count: int = 1, end: int | None = None) -> list[str]:
        return world_rounds.lacking(n, world_rounds.Choice("a", 0, n.x.timeouts["a"][moment], count, len(n.x) if end is None else end))

    def answered(self, hosts: tuple[int, int] = (1, 1)) -> Story:
        story = Story(hosts=hosts)
        story.exchange("a", 0)
        return story

    def test_a_single_pair_needs_one_round(self) -> None:
        n = self.answered().network()
        self.assertEqual(self.lacking(n), [])
        self.assertEqual(world_rounds.find(n), Verdict("", at(0), at(10), at(10), 1))

    def test_the_rounds_are_in_the_segment(self) -> None:
        story = self.answered()
        end = story.end
        story.timeout("a", 50)
        self.assertEqual(self.lacking(story.network(), 0, 2, end), ["split"])

    def test_new_agents(self) -> None:
        self.assertEqual(self.lacking(self.answered().altered(0, "a", next_number=1)), ["IsNewlyCreated"])

    def test_the_side_is_controlling(self) -> None:
        story = self.answered()
        first = story.moments["a"][0]
        self.assertEqual(self.lacking(story.altered(first, "a", controlling=False)), ["controlling"])
        self.assertEqual(self.lacking(story.altered(first + 1, "a", controlling=False)), ["IsControlling"])
        self.assertEqual(self.lacking(story.altered(first + 1, "b", controlling=True)), ["IsControlling"])

    def test_the_pair_waits(self) -> None:
        story = self.answered()
        first = story.moments["a"][0]
        cases: tuple[tuple[dict[str, Any], str], ...] = (
            ({"lite": True}, "Awaits.checking.full"), ({"timing": Timing(initial=1)}, "Awaits.paced"),
            ({"queue": (REQUEST,)}, "Awaits.queue"))
        for fields, missing in cases:
            self.assertEqual(self.lacking(story.altered(first, "a", **fields)), [missing])

    def test_the_remote_credentials(self) -> None:
        story = Story()
        story.timeout("a", 0)
        story.exchange("a", 250)
        self.assertEqual(self.lacking(story.altered(story.moments["a"][0], "a", peer=None), 0, 2), ["Awaits.checking.peer"])

    def test_the_pair_is_due(self) -> None:
        story = Story()
        story.passes("a", 0, 200)  # due at 250
        self.assertEqual(self.lacking(story.network(), 1), ["Awaits.due"])

    def test_no_pair_is_valid(self) -> None:
        story = self.answered()
        story.exchange("a", 50)
        self.assertEqual(self.lacking(story.network(), 1), ["IsUnanswered.invalid"])

    def test_the_pair_is_not_removed_first(self) -> None:
        story = Story()
        story.timeout("a", 0)
        story.exchange("a", 250)
        self.assertEqual(self.lacking(story.altered(story.moments["a"][1], "a", timing=Timing(retransmits=1)), 1), ["IsUnanswered.young"])

    def two(self) -> Story:
        """Two pairs; the check of the first one is answered late."""
        story = Story(hosts=(2, 1))
        self.response = story.deliver(story.timeout("a", 0), "b", 5)
        return story

    def late(self, story: Story) -> Network:
        """The response comes."""
        story.deliver(self.response, "a", 260)
        return story.network()

    def test_other_calls_in_the_rounds(self) -> None:
        story = self.two()
        story.set("a", "set_ice_lite", False)
        story.passes("a", 50, 100, 150)
        self.assertEqual(self.lacking(self.late(story), 0, 4), ["AreKept.kept.between"])

    def test_later_rounds_begin_later(self) -> None:
        story = self.two()
        story.passes("a", 0)
        self.assertEqual(self.lacking(self.late(story), 0, 2), ["AreKept.late"])

    def test_fewer_rounds_than_suffice(self) -> None:
        story = self.two()
        story.passes("a", 50)
        n = self.late(story)
        self.assertEqual(self.lacking(n, 0, 1), ["enough.AreEachPolled.few", "enough.SideRoundsSuffice", "enough.ServedRoundsSuffice"])
        self.assertEqual(self.lacking(n, 0, 2), [])

    def test_open_rounds(self) -> None:
        story = self.two()
        story.host("a", A._replace(port=7), 1, 20)
        story.passes("a", 50, 100, 150, 200, 250)
        n = self.late(story)
        self.assertEqual(self.lacking(n, 0, 5), ["enough.AreEachPolled.polls", "enough.SideRoundsSuffice", "enough.ServedRoundsSuffice"])
        self.assertEqual(self.lacking(n, 0, 6), [])

    def test_a_candidate_may_remove_the_pair(self) -> None:
        story = self.answered()
        story.evict("a", 20)
        story.timeout("a", 250)
        self.assertEqual(self.lacking(story.network(), 0, 2), ["MayEndInRounds"])

    def test_the_check_is_answered(self) -> None:
        story = Story()
        check = story.timeout("a", 0)
        self.assertEqual(self.lacking(story.network()), ["IsAnsweredInTime.handed"])
        response = story.deliver(check, "b", 5)
        self.assertEqual(self.lacking(story.network()), ["IsAnsweredInTime.comes"])
        story.deliver(response, "a", 10, (OUTSIDE, A))
        self.assertEqual(self.lacking(story.network()), ["IsAnsweredInTime.returned.back"])
        story.deliver(response, "a", 20)
        self.assertEqual(self.lacking(story.network()), [])

    def test_the_pair_may_be_removed_before_the_response(self) -> None:
        story = Story()
        response = story.deliver(story.timeout("a", 0), "b", 5)
        story.evict("a", 6)
        story.deliver(response, "a", 10)
        self.assertEqual(self.lacking(story.network()), ["IsAnsweredInTime.stays"])

    def test_a_later_response_through_a_nat(self) -> None:
        story = Story()
        response = story.deliver(story.timeout("a", 0), "b", 5, (OUTSIDE, B))
        story.timeout("a", 250)
        story.deliver(response, "a", 260, (B, A))
        self.assertEqual(world_rounds.find(story.network()), Verdict("", at(0), at(260), at(260), 1))

    def test_if_no_check_is_answered(self) -> None:
        story = Story()
        story.timeout("a", 0)
        self.assertEqual(world_rounds.find(story.network()).failed, "IsAnsweredInTime.handed")


class Granting(late.AtLastTimeout):
    """B is controlled: it checks at 20 ms, is nominated at 55 ms, and selects at 70 ms."""

    def lacking(self, n: Network, start: int | None = None) -> list[str]:
        first, last = n.x.timeouts["b"][0], n.x.timeouts["b"][-1]
        return nomination_accepted.lacking(n, nomination_accepted.Choice("b", TO_A, first if start is None else start, last))

    def story(self, answered: bool = True, nominated: bool = True) -> Story:
        story = Story()
        story.exchange("a", 0)
        check = story.timeout("b", 20)
        self.response = story.deliver(check, "a", 25)
        if answered:
            story.deliver(self.response, "b", 30)
        if nominated:
            story.exchange("a", 50)
        story.timeout("b", 70)
        return story

    def test_a_nomination_and_a_response(self) -> None:
        self.assertEqual(self.lacking(self.story().network()), [])
        self.assertEqual(nomination_accepted.find(self.story().network()), Verdict("", at(20), at(70), at(70)))

    def test_in_either_order(self) -> None:
        story = Story()
        story.exchange("a", 0)
        check = story.timeout("b", 20)
        story.exchange("a", 50)
        story.deliver(story.deliver(check, "a", 60), "b", 65)
        story.timeout("b", 70)
        self.assertEqual(nomination_accepted.find(story.network()), Verdict("", at(20), at(70), at(65)))

    def test_new_agents(self) -> None:
        self.assertEqual(self.lacking(self.story().altered(0, "a", next_number=1)), ["IsNewlyCreated"])

    def test_the_roles_differ(self) -> None:
        story = self.story()
        self.assertEqual(self.lacking(story.altered(story.moments["b"][-1], "a", controlling=False)), ["IsControlled"])
        conflict = Story(roles=(True, True))
        start = conflict.end
        conflict.deliver(conflict.deliver(conflict.timeout("b", 0), "a", 5), "b", 10)
        conflict.exchange("a", 20)
        conflict.exchange("b", 250)
        conflict.exchange("a", 300)
        conflict.timeout("b", 750)
        self.assertEqual(self.lacking(conflict.network(), start), ["IsControlled"])

    def test_no_nomination(self) -> None:
        self.assertEqual(self.lacking(self.story(nominated=False).network()), ["IsAskedOver.handed"])

    def test_a_check_that_does_not_nominate(self) -> None:
        story = self.story(nominated=False)
        self.assertEqual(self.lacking(story.network(), story.moments["a"][0]), ["IsAskedOver.nominated"])

    def test_the_nomination_comes_to_a_stranger(self) -> None:
        story = self.story()
        arrived = story.network().handed["a"][1].arrived
        self.assertEqual(self.lacking(story.altered(arrived, "b", peer=None)), ["IsAskedOver.know.its"])
        self.assertEqual(self.lacking(story.altered(arrived, "b", local=discarded(story))), ["IsAskedOver.reached.there"])

    def test_no_check_or_no_response(self) -> None:
        story = Story()
        story.exchange("a", 0)
        story.timeout("b", 20)
        story.exchange("a", 50)
        story.timeout("b", 70)
        self.assertEqual(self.lacking(story.network()), ["IsExchangedOver.handed"])
        self.assertEqual(self.lacking(self.story(answered=False).network()), ["IsExchangedOver.comes"])

    def test_a_response_from_elsewhere(self) -> None:
        story = self.story(answered=False)
        story.deliver(self.response, "b", 80, (OUTSIDE, B))
        story.timeout("b", 90)
        self.assertEqual(self.lacking(story.network()), ["IsExchangedOver.back"])

    def test_a_response_after_as_many_later_checks_as_it_stores(self) -> None:
        story = Story()
        story.exchange("a", 0)
        story.set("b", "set_max_stun_retransmits", 1)
        check = story.timeout("b", 20)
        story.exchange("a", 50)
        story.timeout("b", 270)
        story.deliver(story.deliver(check, "a", 280), "b", 290)
        story.timeout("b", 300)
        self.assertEqual(self.lacking(story.network()), ["IsExchangedOver.pending"])

    def test_all_pairs_on_the_nominating_path_are_nominated(self) -> None:
        story = Story(known=False, hosts=(0, 1))
        story.local("a", Candidate.server_reflexive(OUTSIDE, A), LINE.format(100 << 24, OUTSIDE.ip, OUTSIDE.port, "srflx"))
        story.host("a", A, 1)  # of lower priority, so the server-reflexive candidate keeps its pair
        story.know("a")
        story.know("b")
        story.deliver(story.timeout("b", 0), "a", 5, (B, A))  # forms a pair of the host candidate
        for time in (10, 60):
            story.exchange("a", time)
        story.timeout("b", 250)
        self.assertEqual(len(story.agents["a"].on(TO_B)), 2)
        self.assertIn("IsAskedOver.nominated", nomination_accepted.find(story.network()).failed)

    def test_a_candidate_may_remove_the_pair(self) -> None:
        story = Story()
        story.exchange("a", 0)
        story.exchange("b", 20)
        story.evict("b", 40)
        story.exchange("a", 50)
        story.timeout("b", 70)
        self.assertEqual(self.lacking(story.network()), ["MayEndAt"])

    def test_a_nat_may_change_the_addresses(self) -> None:
        story = Story()
        back = story.deliver(story.timeout("a", 0), "b", 5, (OUTSIDE, B))
        story.deliver(back, "a", 10, (B, A))
        story.timeout("b", 20)  # to A, which is lost
        answer = story.deliver(story.timeout("b", 70), "a", 75, (B, A))
        story.deliver(answer, "b", 80, (OUTSIDE, B))
        story.deliver(story.timeout("a", 80), "b", 85, (OUTSIDE, B))
        story.timeout("b", 120)
        self.assertEqual(nomination_accepted.find(story.network()).bound, at(120))


if __name__ == "__main__":
    unittest.main()
