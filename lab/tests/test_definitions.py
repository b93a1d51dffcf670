"""Tests the definitions that clauses of progress share: each part, on a state or a log that lacks exactly it."""

import unittest
from dataclasses import replace

from is_ice import Candidate, IceCreds, SocketAddress
from lab.clauses.execution import MAX, is_in_round
from lab.clauses.fair import is_fair_world
from lab.clauses.accepted_nominations import (is_exchanged_over, is_reached_by, is_returned, is_returned_in_time,
                                              know_each_other, stays_pending)
from lab.clauses.progress import (are_as_many_as_due, awaits, is_in_line, is_paced, is_top_selected, is_unanswered, nominations_ahead,
                                  suffice_for_due, suffices, suffices_from_due)
from lab.clauses.selections import are_each_polled, are_enough, are_kept, is_answered_in_time, makes_in_round
from lab.clauses.single import are_plain
from lab.clauses.staying import may_end_in
from lab.clock import BEGINNING, MILLISECOND
from lab.model import Agent
from lab.pairs import Check, Place, Timing
from lab.tests.stories import LINE, MODERN, ORIGINAL, OUTSIDE, REQUEST, TO_A, TO_B, A, B, Story, at


class Known(unittest.TestCase):
    def setUp(self) -> None:
        self.a, self.b = Story().agents["a"], Story().agents["b"]

    def named(self, ufrag: str) -> list[str]:
        """What is missing if the first agent has this username fragment."""
        creds = IceCreds(ufrag, "a" * 22)
        return know_each_other(replace(self.a, creds=creds), replace(self.b, peer=creds))

    def test_they_know_each_other(self) -> None:
        self.assertEqual(know_each_other(self.a, self.b), [])

    def test_each_knows_the_other(self) -> None:
        self.assertEqual(know_each_other(replace(self.a, peer=None), self.b), ["mine"])
        self.assertEqual(know_each_other(self.a, replace(self.b, peer=IceCreds("aaaa", "c" * 22))), ["its"])

    def test_username_fragments(self) -> None:
        self.assertEqual(self.named("a:a"), ["own"])
        self.assertEqual(self.named(""), ["own"])
        self.assertEqual(self.named("a" * 504), ["fit"])
        self.assertEqual(self.named("a" * 503), [])
        creds = IceCreds("b:b", "b" * 22)
        self.assertEqual(know_each_other(replace(self.a, peer=creds), replace(self.b, creds=creds)), ["other"])


class Reached(unittest.TestCase):
    def setUp(self) -> None:
        self.b = Story().agents["b"]

    def test_it_is_reached(self) -> None:
        self.assertEqual(is_reached_by(self.b, (A, B)), [])
        self.assertEqual(is_reached_by(self.b, (OUTSIDE, B)), [])

    def test_a_live_local_candidate(self) -> None:
        self.assertEqual(is_reached_by(self.b, (A, OUTSIDE)), ["there"])
        self.assertEqual(is_reached_by(replace(self.b, local=(replace(self.b.local[0], is_discarded=True),)), (A, B)), ["there"])
        self.assertEqual(is_reached_by(replace(self.b, local=(replace(self.b.local[0], kind="srflx"),)), (A, B)), ["there"])

    def test_no_discarded_remote_one(self) -> None:
        self.assertEqual(is_reached_by(replace(self.b, remote=(replace(self.b.remote[0], is_discarded=True),)), (A, B)), ["from"])

    def test_room_for_the_sender(self) -> None:
        full = replace(self.b, max_discovered=0)
        self.assertEqual(is_reached_by(full, (OUTSIDE, B)), ["room"])
        self.assertEqual(is_reached_by(full, (A, B)), [])
        self.assertEqual(is_reached_by(replace(full, max_discovered=None), (OUTSIDE, B)), [])
        found = Place("prflx", OUTSIDE, OUTSIDE, 1, is_found=True)
        self.assertEqual(is_reached_by(replace(full, remote=(*full.remote, found)), (SocketAddress("203.0.113.9", 1), B)), [])


class Waiting(unittest.TestCase):
    """The first pair of A, a little after its check was due."""

    def setUp(self) -> None:
        self.agent = Story().agents["a"]
        self.pair = self.agent.pairs[0]
        self.now = at(100)

    def both(self, agent: Agent, by: int | None = None) -> tuple[list[str], list[str]]:
        """What is missing of `Awaits` and of `IsInLine`."""
        pair = agent.pairs[0]
        by = self.now if by is None else by
        return awaits(self.now, by, agent, pair), is_in_line(self.now, by, agent, pair)

    def test_it_waits(self) -> None:
        self.assertEqual(self.both(self.agent), ([], []))
        self.assertEqual(is_unanswered(self.agent, self.pair), [])

    def test_the_agent_checks(self) -> None:
        self.assertEqual(self.both(replace(self.agent, lite=True)), (["checking.full"], ["checking.full"]))
        self.assertEqual(self.both(replace(self.agent, peer=None)), (["checking.peer"], ["checking.peer"]))

    def test_no_early_request(self) -> None:
        self.assertEqual(self.both(replace(self.agent, queue=(REQUEST,))), (["queue"], ["queue"]))

    def test_with_numbers(self) -> None:
        numbered = replace(self.agent, renominates=True, timing=Timing(modern=True), selected=self.pair.number)
        due = replace(numbered, nomination_due=True)
        self.assertEqual([self.both(agent) for agent in (numbered, due)], [([], []), ([], [])])
        self.assertEqual([is_unanswered(agent, self.pair) for agent in (numbered, due)], [[], ["calm"]])

    def test_it_is_due(self) -> None:
        self.assertEqual(self.both(self.agent, self.now - 1), (["due"], ["due"]))

    def test_it_exists(self) -> None:
        self.assertEqual(awaits(self.now, self.now, replace(self.agent, pairs=()), self.pair), ["there"])
        self.assertEqual(is_in_line(self.now, self.now, replace(self.agent, pairs=()), self.pair), ["there"])

    def test_checks_are_paced(self) -> None:
        for timing in (Timing(initial=MILLISECOND - 1), Timing(greatest=MILLISECOND - 1), Timing(retransmits=0)):
            self.assertFalse(is_paced(replace(self.agent, timing=timing)))
        self.assertEqual(self.both(replace(self.agent, timing=Timing(initial=1000))), (["paced"], []))

    def test_a_valid_pair_has_a_fixed_due_time(self) -> None:
        valid = replace(self.pair, state="succeeded")
        self.assertEqual(is_in_line(self.now, self.now, replace(self.agent, pairs=(valid,)), valid), ["settled"])
        fixed = replace(valid, due=self.now)
        self.assertEqual(is_in_line(self.now, self.now, replace(self.agent, pairs=(fixed,)), fixed), [])

    def test_no_pair_is_valid(self) -> None:
        other = replace(self.pair, number=1, state="succeeded")
        self.assertEqual(is_unanswered(replace(self.agent, pairs=(self.pair, other)), self.pair), ["invalid"])

    def test_it_is_not_removed_before_its_check(self) -> None:
        checks = tuple(Check(bytes(12), BEGINNING, False, True) for _ in range(9))
        old = replace(self.pair, checks=checks, due=self.now)
        self.assertEqual(is_unanswered(replace(self.agent, pairs=(old,)), old), ["young"])
        self.assertEqual(is_in_line(self.now, self.now, replace(self.agent, pairs=(old,)), old), ["young"])
        answered = replace(old, checks=(*checks[:-1], replace(checks[-1], answered=self.now)))
        self.assertEqual(is_unanswered(replace(self.agent, pairs=(answered,)), answered), [])


class Enough(unittest.TestCase):
    """Two pairs, of which both are due."""

    def setUp(self) -> None:
        self.one, self.two = Story().agents["a"], Story(hosts=(2, 1)).agents["a"]

    def test_two_n_less_one_rounds_if_the_pair_is_due_before(self) -> None:
        added = replace(self.two, next_number=self.two.next_number + 1)
        self.assertTrue(suffices(0, 1, self.two, self.two, self.two, 2))
        self.assertFalse(suffices(0, 1, self.two, self.two, self.two, 1))
        self.assertFalse(suffices(0, 1, self.two, self.two, added, 2))
        self.assertTrue(suffices(0, 1, self.two, self.two, added, 3))

    def test_one_more_round_if_it_is_due_by_the_first(self) -> None:
        self.assertFalse(suffices(1, 1, self.two, self.two, self.two, 2))
        self.assertTrue(suffices(1, 1, self.two, self.two, self.two, 3))

    def test_the_pairs_of_the_second_round_count(self) -> None:
        self.assertTrue(suffices_from_due(self.two, self.one, self.one, 1))
        self.assertFalse(suffices_from_due(self.two, self.two, self.two, 2))

    def test_one_round_suffices_for_a_single_pair(self) -> None:
        self.assertTrue(suffices_from_due(self.one, self.two, self.two, 0))
        self.assertTrue(suffice_for_due(1, 1, self.one, self.one, []))

    def test_nominations_that_may_be_sent_at_once(self) -> None:
        numbered = replace(self.two, renominates=True, timing=Timing(modern=True))
        due = replace(numbered, nomination_due=True)
        unnumbered = (replace(due, renominates=False), replace(due, timing=Timing()))
        self.assertEqual([nominations_ahead(agent, 2) for agent in (numbered, due, *unnumbered)], [2, 3, 0, 0])

    def test_they_count_like_pairs_that_are_added(self) -> None:
        for later, all_ahead, ahead in ((2, 0, 9), (3, 1, 9), (4, 2, 9), (4, 9, 1)):
            self.assertTrue(suffices(0, 1, self.two, self.two, self.two, later, all_ahead, ahead))
            self.assertFalse(suffices(0, 1, self.two, self.two, self.two, later - 1, all_ahead, ahead))
        self.assertFalse(suffices(1, 1, self.two, self.two, self.two, 4, 0, 2))
        self.assertTrue(suffices(0, 1, self.one, self.one, self.one, 0, 9, 9))

    def test_they_count_twice_if_checks_may_go_ahead(self) -> None:
        two = replace(self.two, timing=Timing(modern=True))
        self.assertFalse(suffices(0, 1, two, two, two, 7, 1, 9))
        self.assertTrue(suffices(0, 1, two, two, two, 8, 1, 9))

    def test_as_many_rounds_as_due_pairs(self) -> None:
        self.assertTrue(are_as_many_as_due(at(0), self.two, [at(0), at(50)]))
        self.assertFalse(are_as_many_as_due(at(0), self.two, [at(0)]))
        self.assertFalse(are_as_many_as_due(at(0), replace(self.two, pairs=()), []))

    def test_as_many_later_rounds_as_are_due_at_the_second_one(self) -> None:
        fixed = replace(self.two, pairs=tuple(replace(p, due=at(1)) for p in self.two.pairs))
        self.assertTrue(suffice_for_due(at(1), at(2), fixed, fixed, [at(50)]))
        self.assertFalse(suffice_for_due(at(1), at(1), fixed, fixed, [at(50)]))
        self.assertTrue(suffice_for_due(at(1), at(1), fixed, fixed, [at(50), at(100)]))
        self.assertTrue(suffice_for_due(at(1), at(1), fixed, self.one, [at(50)]))


class Kept(unittest.TestCase):
    def story(self, *times: float) -> Story:
        story = Story(hosts=(2, 1))
        story.passes("a", *times)
        return story

    def test_later_rounds_begin_later(self) -> None:
        x = self.story(0, 0).network().x
        rounds = x.rounds("a", x.timeouts["a"][0], len(x))
        self.assertEqual(are_kept(x, "a", at(0), rounds), ["late"])
        self.assertEqual(are_kept(x, "a", at(1), rounds), ["from", "late"])
        self.assertEqual(are_kept(x, "a", at(-1), rounds), [])

    def test_before_the_end_of_the_clock(self) -> None:
        x = self.story(MAX // MILLISECOND).network().x
        self.assertEqual(are_kept(x, "a", at(0), x.rounds("a", x.timeouts["a"][0], len(x))), ["kept.early"])

    def test_only_calls_that_may_come_in_a_round(self) -> None:
        calls = {"set_ice_lite": False, "set_remote_credentials": IceCreds("bbbb", "b" * 22), "set_initial_stun_rto": 250 * MILLISECOND,
                 "set_max_stun_rto": 3000 * MILLISECOND, "set_max_stun_retransmits": 9, "set_lite_timeout": 15000 * MILLISECOND,
                 "set_settings": ORIGINAL}
        for name, value in calls.items():
            with self.subTest(call=name):
                story = self.story(0)
                story.set("a", name, value)
                x = story.network().x
                self.assertEqual(are_kept(x, "a", at(-1), x.rounds("a", x.timeouts["a"][0], len(x))), ["kept.between"])
                self.assertTrue(makes_in_round(x, "b", range(x.timeouts["a"][0], len(x))))

    def test_candidates_and_some_settings_may_come(self) -> None:
        story = self.story(0)
        story.host("a", A._replace(port=7), 1, 10)
        story.set("a", "set_timing_advance", 20 * MILLISECOND)
        x = story.network().x
        rounds = x.rounds("a", x.timeouts["a"][0], len(x))
        self.assertEqual(are_kept(x, "a", at(-1), rounds), [])
        self.assertFalse(are_plain(x, "a", rounds))
        self.assertFalse(is_in_round("invalidate_candidate") or is_in_round("ice_restart") or is_in_round("recreate_candidate_pairs"))

    def test_plain_rounds_and_open_ones(self) -> None:
        story = self.story(0)
        story.host("a", A._replace(port=7), 1, 10)
        story.passes("a", 50, 100, 150, 200, 250)
        x = story.network().x
        row = x.timeouts["a"]
        rounds = [x.rounds("a", row[0], end) for end in (*row[1:], len(x))]
        self.assertEqual(are_each_polled(x, "a", at(0), rounds[0]), ["few", "polls"])
        self.assertEqual(are_each_polled(x, "a", at(0), rounds[1]), ["polls"])
        self.assertEqual([are_enough(x, "a", at(0), r, r[-1].behind.stop) for r in rounds], [False] * 5 + [True])


class Fair(unittest.TestCase):
    def test_a_fair_world(self) -> None:
        story = Story()
        story.exchange("a", 0)
        self.assertEqual(is_fair_world(story.network().x), [])

    def test_new_agents(self) -> None:
        self.assertEqual(is_fair_world(Story().altered(0, "b", next_number=1).x), ["start.new"])

    def test_no_packet_in_flight(self) -> None:
        story, before = Story(), Story()
        story.deliver(before.timeout("a", 0), "b", 5)
        self.assertEqual(is_fair_world(story.network().x), ["start.empty"])

    def test_different_tie_breakers(self) -> None:
        story = Story(ties=(5, 5))
        self.assertEqual(is_fair_world(story.network().x), ["tie"])

    def test_distinct_ids(self) -> None:
        story = Story()
        story.timeout("a", 0)
        story.ids = 0
        story.timeout("b", 0)
        self.assertEqual(is_fair_world(story.network().x), ["start.distinct"])

    def test_a_lite_agent_that_keeps_its_role(self) -> None:
        for settings, lacking in ((MODERN, ["compares"]), (ORIGINAL, [])):
            story = Story(settings=settings)
            self.assertEqual(is_fair_world(story.altered(1, "b", lite=True).x), lacking)


class Returned(unittest.TestCase):
    """A check of B, and its response, which comes late."""

    def lacking(self, story: Story, later: str = "", **fields: object) -> tuple[list[str], list[str]]:
        """What is missing of `IsReturned` and of `IsReturnedInTime` at the last packet that B receives; `later` what comes before."""
        n = story.network()
        at = max(s.at for s in n.x.steps if s.entry.side == "b" and s.entry.call == "handle_packet")
        if fields:
            n = story.altered(at, "b", **fields)
        check = n.handed["b"][0]
        return is_returned(n.x, check, at), is_returned_in_time(n.x, check, at)

    def test_it_comes_back(self) -> None:
        story = Story()
        story.deliver(story.deliver(story.timeout("b", 0), "a", 5), "b", 10)
        self.assertEqual(self.lacking(story), ([], []))

    def test_it_comes_back_elsewhere(self) -> None:
        story = Story()
        story.deliver(story.deliver(story.timeout("b", 0), "a", 5), "b", 10, (OUTSIDE, B))
        self.assertEqual(self.lacking(story), (["back"], ["returned.back"]))

    def test_they_know_each_other_no_more(self) -> None:
        story = Story()
        story.deliver(story.deliver(story.timeout("b", 0), "a", 5), "b", 10)
        self.assertEqual(self.lacking(story, peer=None), (["know.mine"], ["returned.know.mine"]))

    def test_as_many_later_checks_as_it_stores(self) -> None:
        for limit, missing in ((2, ["pending"]), (3, [])):
            story = Story()
            story.set("b", "set_max_stun_retransmits", limit)
            response = story.deliver(story.timeout("b", 0), "a", 5)
            story.deliver(story.timeout("a", 5), "b", 10)  # so that the pair stays
            story.passes("b", 250, 1000)
            story.deliver(response, "b", 1010)
            self.assertEqual(self.lacking(story)[0], missing)

    def test_it_stores_fewer_for_a_while(self) -> None:
        story = Story()
        response = story.deliver(story.timeout("b", 0), "a", 5)
        story.passes("b", 250)
        story.deliver(response, "b", 260)
        n = story.altered(story.moments["b"][1] + 1, "b", timing=Timing(retransmits=1))
        self.assertFalse(stays_pending(n.x, n.handed["b"][0], story.end - 2))

    def test_its_pair_may_have_been_removed(self) -> None:
        story = Story()
        response = story.deliver(story.timeout("b", 0), "a", 5)
        story.evict("b", 7)
        story.deliver(response, "b", 10)
        self.assertEqual(self.lacking(story), ([], ["stays"]))

    def test_a_check_that_is_answered(self) -> None:
        story = Story()
        story.exchange("b", 0)
        n = story.network()
        self.assertEqual(is_answered_in_time(n, "b", TO_A, range(story.end)), [])
        self.assertEqual(is_exchanged_over(n, "b", TO_A, range(story.end)), [])
        self.assertEqual(is_answered_in_time(n, "b", TO_B, range(story.end)), ["handed"])
        self.assertEqual(is_answered_in_time(n, "b", TO_A, range(story.moments["b"][0] + 1, story.end)), ["handed"])
        back = n.back_at(n.handed["b"][0], ("success",), True)
        assert back is not None
        self.assertEqual(is_exchanged_over(n, "b", TO_A, range(back)), ["comes"])


class Ended(unittest.TestCase):
    """Calls of B that may remove its pair."""

    def ends(self, story: Story, start: int) -> bool:
        return may_end_in(story.network().x, "b", TO_A, range(start, story.end))

    def test_a_candidate_that_evicts_it(self) -> None:
        story = Story()
        start = story.end
        story.remote("b", LINE.format(126 << 24 | 65535 << 8 | 255, "10.9.9.9", 9, "host"))
        self.assertFalse(self.ends(story, start))
        story.limit("b", 1)
        story.remote("b", LINE.format(126 << 24 | 65535 << 8 | 255, "10.9.9.8", 9, "host"))
        self.assertTrue(self.ends(story, start))

    def test_a_candidate_of_lower_priority(self) -> None:
        story = Story()
        story.limit("b", 1)
        start = story.end
        story.remote("b", LINE.format(1, "10.9.9.9", 9, "host"))
        self.assertFalse(self.ends(story, start))

    def test_a_candidate_that_replaces_it(self) -> None:
        story = Story(known=False)
        story.know("a")
        story.meet("b")
        story.deliver(story.timeout("a", 0), "b", 5)  # its sender becomes a peer-reflexive candidate, of lower priority
        start = story.end
        story.know("b", 10)
        self.assertTrue(self.ends(story, start))

    def test_its_candidate_is_invalidated(self) -> None:
        story = Story()
        start = story.end
        story.invalidate("b", Candidate.host(SocketAddress("10.0.0.9", 9)))
        self.assertFalse(self.ends(story, start))
        story.invalidate("b", Candidate.host(B))
        self.assertTrue(self.ends(story, start))

    def test_pairs_are_cleared(self) -> None:
        story = Story()
        start = story.end
        story.set("b", "recreate_candidate_pairs", None)
        self.assertTrue(self.ends(story, start))

    def test_its_checks_are_not_answered_in_time(self) -> None:
        story = Story()
        story.passes("b", 0, 250, 750, 1750, 3750, 6750, 9750, 12750, 15750)
        start = story.end
        self.assertFalse(self.ends(story, 0))
        story.passes("b", 18750)
        self.assertTrue(self.ends(story, start))


class Announced(unittest.TestCase):
    def test_the_selected_pair_is_a_greatest_one(self) -> None:
        story = Story(hosts=(2, 1))
        story.exchange("a", 0)
        agent = story.agents["a"]
        self.assertTrue(is_top_selected(agent))
        greater = replace(agent.pairs[0], number=9, priority=1 << 64, state="succeeded")
        self.assertFalse(is_top_selected(replace(agent, pairs=(*agent.pairs, greater))))
        self.assertFalse(is_top_selected(replace(agent, selected=None)))
        alike = replace(agent.chosen(), number=9, state="waiting")
        self.assertFalse(is_top_selected(replace(agent, pairs=(*agent.pairs, alike), selected=9)))


if __name__ == "__main__":
    unittest.main()
