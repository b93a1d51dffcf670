"""Tests the two profiles: triggered checks, urgent pairs, early retransmissions, early pacing and selection at once, which `Modern` has and
`Original` has not, on logs of two agents; and the settings that name a profile."""

import unittest
from dataclasses import replace

import is_ice
from is_ice import Consent, IceCreds, Profile, Transmit
from lab import endpoint, hosts, profiles
from lab.clock import BEGINNING, MILLISECOND
from lab.hosts import Cell, Found
from lab.kinds import is_brought
from lab.model import Agent
from lab.pairs import Check, Pair, Path, Timing, early_delay
from lab.scenario import AgentSettings
from lab.tests.stories import LINE, MODERN, ORIGINAL, A, B, Story, at, timing

SECOND_A, THIRD_A = A._replace(port=A.port + 1), A._replace(port=A.port + 2)
OUTSIDE = B._replace(ip="203.0.113.9")


def path(packet: Transmit | None) -> Path | None:
    return None if packet is None else (packet.source, packet.destination)


class Triggered(unittest.TestCase):
    """B checks A, whose own checks were lost, and whose next one is due at 750."""

    def story(self) -> Story:
        story = Story(settings=MODERN)
        story.passes("a", 0, 100, 200, 400)
        self.assertEqual(self.due(story), at(750))
        return story

    def due(self, story: Story) -> int | None:
        return story.agents["a"].pairs[0].due

    def test_a_request_moves_the_due_time_up(self) -> None:
        story = self.story()
        story.deliver(story.timeout("b", 500), "a", 510)
        self.assertEqual(self.due(story), at(510))
        story.session()

    def test_not_with_the_original_profile(self) -> None:
        story = Story(settings=ORIGINAL)
        story.passes("a", 0, 250, 300)  # the last one fixes the due time, 500 ms after the second check
        story.deliver(story.timeout("b", 500), "a", 510)
        self.assertEqual(self.due(story), at(750))
        story.session()

    def test_the_first_request_only(self) -> None:
        story = self.story()
        story.deliver(story.timeout("b", 500), "a", 510)
        story.passes("a", 550)  # a check, 350 ms before the next one
        self.assertEqual(self.due(story), at(900))
        story.deliver(story.timeout("b", 700), "a", 710)
        self.assertEqual(self.due(story), at(900))
        story.session()

    def test_never_down(self) -> None:
        pair = replace(Pair(0, 0, 0, 1), due=100)
        self.assertEqual([pair.triggered(time).due for time in (99, 100, 101)], [99, 100, 100])

    def test_not_if_no_due_time_is_fixed_or_it_is_valid_or_asked_before(self) -> None:
        pair = Pair(0, 0, 0, 1, due=100)
        for other in (replace(pair, due=None), replace(pair, state="succeeded"), replace(pair, requests=1)):
            self.assertEqual(other.triggered(50), other)

    def test_not_before_the_last_timeout(self) -> None:
        story = self.story()
        story.deliver(story.timeout("b", 100), "a", 110)
        self.assertEqual(self.due(story), at(400))

    def test_a_lite_agent_counts_a_pair_once(self) -> None:
        self.assertEqual(Pair(0, 0, 0, 1).asked(7), Pair(0, 0, 0, 1, last_request=7, requests=1))


class Ahead(unittest.TestCase):
    """A has three host candidates and B one. The first check is that of the greatest priority, and the second one goes ahead."""

    def story(self) -> Story:
        return Story(hosts=(3, 1), settings=MODERN)

    def asked(self, story: Story, time: float, own: Path) -> None:
        """B's check arrives at a path of A."""
        check = story.timeout("b", time)
        story.deliver(check, "a", time, own)

    def test_an_urgent_pair_goes_ahead_in_every_second_check(self) -> None:
        story = self.story()
        self.assertEqual(path(story.timeout("a", 0)), (A, B))
        self.asked(story, 10, (B, THIRD_A))
        self.assertEqual(path(story.timeout("a", 50)), (THIRD_A, B))
        self.assertEqual(path(story.timeout("a", 100)), (SECOND_A, B))
        # Both are due again after 100 ms: A's first pair since 100, the third one now.
        self.assertEqual(path(story.timeout("a", 150)), (THIRD_A, B))
        story.session()

    def test_in_order_of_due_times_with_the_original_profile(self) -> None:
        story = Story(hosts=(3, 1), settings=ORIGINAL)
        story.passes("a", 0)
        self.asked(story, 10, (B, THIRD_A))
        self.assertEqual([path(story.timeout("a", time)) for time in (50, 100)], [(SECOND_A, B), (THIRD_A, B)])

    def test_urgent_ones_come_before_all_kinds(self) -> None:
        for is_asked, expected in ((True, (THIRD_A, B)), (False, (A, OUTSIDE))):
            story = self.story()
            story.remote("a", LINE.format(100 << 24 | 65535 << 8 | 255, OUTSIDE.ip, OUTSIDE.port, "srflx"))
            story.passes("a", 0)
            if is_asked:
                self.asked(story, 10, (B, THIRD_A))
            self.assertEqual(path(story.timeout("a", 50)), expected)
            story.session()

    def test_those_that_a_request_brought_come_last(self) -> None:
        story = self.story()
        story.passes("a", 0)
        self.asked(story, 10, (OUTSIDE, A))
        agent = story.agents["a"]
        self.assertEqual([is_brought(agent.remote, p) for p in agent.pairs], [False, False, False, True])
        self.asked(story, 20, (B, SECOND_A))
        # Before 150 the second pair is not due again.
        self.assertEqual([path(story.timeout("a", time)) for time in (50, 100, 140)], [(SECOND_A, B), (THIRD_A, B), (A, OUTSIDE)])
        story.session()

    def test_a_pair_that_is_not_due_does_not_go_ahead(self) -> None:
        story = self.story()
        story.passes("a", 0, 50, 100, 110)
        self.assertFalse(story.agents["a"].has_first(at(120)))
        self.asked(story, 120, (B, THIRD_A))
        self.assertTrue(story.agents["a"].has_first(at(120)))
        self.assertFalse(replace(story.agents["a"], timing=timing()).has_first(at(120)))
        self.assertEqual(path(story.timeout("a", 130)), (THIRD_A, B))
        self.assertEqual([story.agents["a"].has_first(at(time)) for time in (229, 230)], [False, True])
        story.session()

    def test_a_nomination_goes_ahead_also_once_a_path_is_selected(self) -> None:
        story = self.story()
        story.exchange("a", 0)
        pair = next(p for p in story.agents["a"].pairs if p.is_nominated)
        self.assertTrue(pair.is_urgent)
        story.exchange("a", 50)
        pair = next(p for p in story.agents["a"].pairs if p.is_nominated)
        self.assertEqual((pair.nomination, pair.is_urgent), ("success", False))
        story.session()

    def test_the_selected_pair_goes_ahead(self) -> None:
        story = self.story()
        story.exchange("a", 0)
        story.exchange("a", 50)
        agent = story.agents["a"]
        selected = next(p for p in agent.pairs if p.number == agent.selected)
        self.assertEqual([agent.goes_first(p) for p in agent.pairs], [p is selected for p in agent.pairs])
        self.assertFalse(replace(agent, timing=timing()).goes_first(selected))
        due = next(p.due for p in agent.pairs if p is selected)
        assert due is not None
        self.assertEqual([agent.has_first(time) for time in (due - 1, due)], [False, True])

    def test_which_pairs_are_urgent(self) -> None:
        pair = Pair(0, 0, 0, 1)
        self.assertFalse(pair.is_urgent)
        self.assertTrue(replace(pair, requests=1).is_urgent)
        self.assertFalse(replace(pair, requests=1, state="succeeded").is_urgent)
        self.assertEqual([replace(pair, nomination=n).is_urgent for n in ("nominated", "attempt", "success")], [True, True, False])


class Early(unittest.TestCase):
    """Checks of a pair without a response: with `Modern` two retransmissions 100 ms apart; then 200 ms, and at most 350 ms."""

    def due_times(self, story: Story, count: int) -> list[float]:
        """When A's checks are due, in ms, if each is sent then and all are lost."""
        times = [0.0]
        for _ in range(count):
            story.passes("a", times[-1], times[-1] + 1)
            due = story.agents["a"].pairs[0].due if story.agents["a"].pairs else None
            times.append(float("nan") if due is None else (due - BEGINNING) / MILLISECOND)
        story.session()
        return times

    def test_the_delays_double_up_to_the_cap(self) -> None:
        self.assertEqual([early_delay(count) / MILLISECOND for count in range(1, 7)], [100, 100, 200, 350, 350, 350])
        self.assertEqual(self.due_times(Story(settings=MODERN), 7), [0, 100, 200, 400, 750, 1100, 1450, 1800])
        self.assertEqual(self.due_times(Story(settings=ORIGINAL), 4), [0, 250, 750, 1750, 3750])

    def test_not_after_a_response(self) -> None:
        story = Story(settings=MODERN)
        story.passes("a", 0)
        story.exchange("a", 100)
        story.exchange("a", 150)  # it nominates the pair
        story.passes("a", 200)
        self.assertEqual(story.agents["a"].pairs[0].nomination, "success")
        self.assertEqual(story.agents["a"].pairs[0].due, at(150 + 1000))  # as after three checks
        story.session()

    def test_a_nomination_without_response(self) -> None:
        # A response would be late after 40 ms, but checks are at least 70 ms apart; 7.5 s after the check with a response half a second.
        story = Story(settings=MODERN)
        story.exchange("a", 0)
        for time, delay in (*((50 + 70 * n, 70) for n in range(12)), (7400, 70), (7500, 500)):
            story.passes("a", time, time + 50)
            self.assertEqual(story.agents["a"].pairs[0].due, at(time + delay))
        story.session()

    def test_they_end_no_pair_sooner(self) -> None:
        # Nine checks at 5 s have no response. A whole series takes 21.5 s: from the first check of all, or, if there was a response
        # before, from the first without one. With the original profile the last check counts for 3 s.
        checks = (Check(bytes(12), at(5000), False, True),) * 9
        pair, modern = Pair(0, 0, 0, 1, checks, sent=12, first_sent=at(0)), timing(True)
        for other, by, end in ((pair, modern, at(21_500)), (replace(pair, answers=1), modern, at(26_500)), (pair, timing(), at(8000))):
            self.assertEqual([other.is_possible(now, by) for now in (end - 1, end)], [True, False])
        for other in (Pair(0, 0, 0, 1, checks[1:], sent=13, first_sent=at(0)), replace(pair, last_request=at(50_000))):
            self.assertTrue(other.is_possible(at(60_000), modern))

    def test_they_end_after_some_time(self) -> None:
        # From 2.15 s on the RTO counts, 3 s. A whole series takes 21.5 s, so the check before that is the last one.
        story = Story(settings=MODERN)
        times = self.due_times(story, 15)
        self.assertEqual(times, [0, 100, 200, *range(400, 2151, 350), *range(5150, 23_151, 3000)])
        story.passes("a", times[-2] + 2999)
        self.assertEqual([p.first_sent for p in story.agents["a"].pairs], [at(0)])
        story.passes("a", times[-1])
        self.assertEqual(story.agents["a"].pairs, ())
        story.session()

    def test_the_number_of_stored_checks_does_not_count(self) -> None:
        pair = Pair(0, 0, 0, 1, (Check(bytes(12), at(5000), False, True),), sent=12, first_sent=at(4000))
        found = [replace(pair, sent=sent, answers=answers, nomination="attempt").due_at(at(5000), timing(True))
                 for sent, answers in ((2, 0), (3, 0), (4, 0), (4, 1))]
        self.assertEqual(found, [at(5100), at(5200), at(5350), at(5100)])

    def test_again_after_the_first_request(self) -> None:
        pair = Pair(0, 0, 0, 1, (Check(bytes(12), at(9000), False, True),), sent=12, first_sent=at(0), requests=1)
        found = [replace(pair, first_after_request=again).due_at(at(9000), timing(True))
                 for again in (None, at(9000), at(6851), at(6850))]
        self.assertEqual(found, [at(9250), at(9350), at(9350), at(9250)])

    def test_the_first_check_after_a_request_is_noted(self) -> None:
        story = Story(settings=MODERN)
        story.timeout("a", 0)
        self.assertIsNone(story.agents["a"].pairs[0].first_after_request)
        story.deliver(story.timeout("b", 0), "a", 40)
        story.passes("a", 60)
        story.passes("a", 200)
        self.assertEqual([(p.first_sent, p.first_after_request) for p in story.agents["a"].pairs], [(at(0), at(60))])
        story.session()


class Pacing(unittest.TestCase):
    """How soon the next timeout of an agent comes that has pairs to check, in ms."""

    def after(self, is_modern: bool = True, advance: float = 50, checks: int = 0, side: str = "a", hosts: tuple[int, int] = (1, 3),
              limit: int = 100) -> list[float]:
        """With a packet queued, and without one. Before that, so many checks of the side succeed. A is controlling."""
        story = Story(known=False, hosts=hosts, settings=MODERN if is_modern else ORIGINAL)
        story.set(side, "set_timing_advance", round(advance * MILLISECOND))
        story.limit(side, limit)
        for other in "ab":
            story.know(other)
        for check in range(checks):
            story.exchange(side, 50 * check)
        if not checks:
            story.passes(side, 0)
        story.session()
        agent = story.agents[side]
        polled = [agent.poll_timeout(is_waiting)[1] for is_waiting in (True, False)]
        assert agent.last is not None
        return [(time - agent.last) / MILLISECOND for time in polled if time is not None]

    def test_it_is_shorter_until_the_agent_is_settled(self) -> None:
        self.assertEqual([self.after(), self.after(checks=1), self.after(checks=2)], [[10, 10], [10, 10], [50, 50]])
        self.assertEqual([self.after(side="b"), self.after(is_modern=False)], [[10, 10], [50, 50]])

    def test_it_is_the_same_with_many_pairs(self) -> None:
        self.assertEqual([self.after(hosts=(10, count), limit=125) for count in (5, 12)], [[10, 10]] * 2)

    def test_twelve_checks_come_closer(self) -> None:
        story = Story(hosts=(5, 5), settings=MODERN)
        gaps, time = list[int](), 0
        for _ in range(14):
            story.timeout("a", time)
            gaps.append(story.agents["a"].pacing(at(time)) // MILLISECOND)
            time += gaps[-1]
        self.assertEqual(gaps, [10] * 11 + [25] * 3)

    def test_not_longer_than_what_is_set(self) -> None:
        self.assertEqual([self.after(advance=8), self.after(advance=3)], [[8, 8], [3, 3]])


class Waiting(unittest.TestCase):
    """Polls of the timeout while a packet is queued: here each call is followed by one, and then by those of packets."""

    def due(self, is_modern: bool) -> int | None:
        story = Story(settings=MODERN if is_modern else ORIGINAL)
        story.timeout("a", 0)
        story.deliver(story.timeout("b", 0), "a", 10)
        story.session()
        return story.agents["a"].pairs[0].due

    def test_a_request_moves_up_the_due_time_that_they_fixed(self) -> None:
        self.assertEqual(self.due(True), at(10))

    def test_with_the_original_profile_they_fix_none(self) -> None:
        self.assertIsNone(self.due(False))


class AtOnce(unittest.TestCase):
    """The controlled side's pair is valid when the check with USE-CANDIDATE arrives."""

    def selected(self, is_modern: bool, valid: bool = True) -> int | None:
        story = Story(settings=MODERN if is_modern else ORIGINAL)
        story.exchange("a", 0)
        if valid:
            story.exchange("b", 20)
        story.deliver(story.timeout("a", 50), "b", 60)
        session = story.session()
        return next((step.entry.time for step in session.steps if step.entry.side == "b" and step.selected), None)

    def test_it_selects_when_the_request_arrives(self) -> None:
        self.assertEqual(self.selected(True), at(60))

    def test_not_with_the_original_profile(self) -> None:
        self.assertIsNone(self.selected(False))

    def test_not_if_the_pair_is_not_valid(self) -> None:
        self.assertIsNone(self.selected(True, False))


class Settings(unittest.TestCase):
    def test_those_of_a_scenario(self) -> None:
        for name, profile in (("modern", Profile.MODERN), ("original", Profile.ORIGINAL)):
            made = endpoint.settings_by(AgentSettings(profile=name), replace(ORIGINAL, max_pairs=7))
            self.assertEqual(made, replace(ORIGINAL, max_pairs=7, profile=profile, consent=Consent(29_600 * MILLISECOND)))
        made = endpoint.settings_by(AgentSettings(consent_ms=0.5, strict_consent=True), MODERN)
        self.assertEqual(made, replace(MODERN, consent=Consent(MILLISECOND // 2, True)))
        self.assertEqual(endpoint.settings_by(AgentSettings(consent_ms=0), ORIGINAL), MODERN)

    def test_an_agent_with_settings(self) -> None:
        agent = Story().agents["a"]
        modern = agent.with_settings(MODERN)
        self.assertEqual((modern.timing, modern.modern), (timing(True), True))
        self.assertEqual(modern.with_settings(ORIGINAL), agent)
        self.assertIsInstance(modern, Agent)
        changed = replace(MODERN, timing_advance=1, initial_rto=2, max_rto=3, max_retransmits=4, lite_timeout=5, consent=Consent(6, True),
                          max_pairs=7, max_discovered=8, renomination=True)
        made = agent.with_settings(changed)
        self.assertEqual(made.timing, Timing(2, 3, 4, 5, True, 6, True))
        self.assertEqual((made.advance, made.max_pairs, made.max_discovered, made.renominates), (1, 7, 8, True))

    def test_due_times_that_are_fixed_stay_unless_an_rto_changes(self) -> None:
        story = Story()
        story.passes("a", 0, 50)
        agent = story.agents["a"]
        self.assertEqual(agent.pairs[0].due, at(250))
        for settings, expected in ((MODERN, at(250)), (replace(ORIGINAL, initial_rto=MILLISECOND), None),
                                   (replace(ORIGINAL, max_rto=MILLISECOND), None)):
            self.assertEqual(agent.with_settings(settings).pairs[0].due, expected)

    def test_how_long_a_response_keeps_a_pair(self) -> None:
        # the longest RTO and a whole series: 3 s and 21.5 s, or 2.9 s and 26.7 s
        self.assertIsNone(timing().consent)
        for given, expected in ((timing(True), 24_500), (replace(timing(True), greatest=2900 * MILLISECOND, retransmits=11), 29_600),
                                (replace(timing(True), limit=MILLISECOND), 1)):
            assert given.consent is not None
            self.assertEqual((given.consent.timeout, given.consent.strict), (expected * MILLISECOND, False))
        strict = replace(timing(True), strict=True).consent
        assert strict is not None
        self.assertTrue(strict.strict)

    def test_those_of_the_library(self) -> None:
        agent = Agent(IceCreds("aaaa", "a" * 22), 1)
        for settings in (is_ice.Settings.original(), is_ice.Settings.modern()):
            made, library = agent.with_settings(settings), is_ice.IceAgent()
            library.set_settings(settings)
            self.assertEqual(made.timing.timeout(), library.ice_timeout)
            self.assertEqual((made.timing.lite, made.advance, made.max_pairs, made.max_discovered, made.modern), (
                settings.lite_timeout, settings.timing_advance, settings.max_pairs, settings.max_discovered,
                settings.profile is is_ice.Profile.MODERN))
            library.close()


class Tables(unittest.TestCase):
    def test_a_row_for_each_situation(self) -> None:
        found = {cell: Found() for cell in profiles.cells()}
        lines = profiles.table(found).splitlines()
        self.assertEqual((len(lines), len({line.count("|") for line in lines})), (2 + sum(map(len, profiles.LATE.values())), 1))
        self.assertEqual([word.strip() for word in lines[0].split("|")[5:7]], ["modern", "original"])
        self.assertEqual([word.strip() for word in lines[-1].split("|")[1:7]], ["9", "50", "30", "5", "never", "never"])

    def test_texts(self) -> None:
        found = Found(4, [100.0, 300.0, 200.0], [7, 8, 9])
        self.assertEqual(profiles.told(found), "200 / 300 / 300 (75 %), 8")

    def test_names(self) -> None:
        cell = Cell(True, 20, 0, 1, "modern", 200)
        self.assertEqual((cell.name, replace(cell, profile="original").name, replace(cell, late=0).name),
                         ("hosts True 20 0 1 200", "hosts True 20 0 1 200", "hosts True 20 0 1"))
        made = cell.scenario()
        self.assertEqual((made.signaling.peer_late_ms, made.seconds), (200, hosts.GATHERED_MS / 1000 + hosts.SECONDS + 0.2))


if __name__ == "__main__":
    unittest.main()
