"""Tests which removed pairs the model lists, and why, each reason on a log of two agents."""

import unittest
from dataclasses import replace

from is_ice import Candidate, CheckState, Consent, IceCreds, MediaPath, Protocol, Removal, RemovedPair
from lab.clock import MILLISECOND
from lab.removed import LIMIT, why_expired
from lab.replay import replay
from lab.tests.stories import LINE, MODERN, PROFILES, TO_B, A, B, Story

PATH = MediaPath(*TO_B, Protocol.UDP)


class Reasons(unittest.TestCase):
    def listed(self, story: Story, side: str = "a") -> list[tuple[Removal, CheckState, int, int]]:
        """Why the side removed which pairs, with their states, checks and responses."""
        listed = [pair.listed() for pair in story.agents[side].removed]
        story.log.removed[side] = listed
        story.session()
        return [(p.reason, p.state, p.checks_sent, p.responses) for p in listed]

    def test_without_a_response(self) -> None:
        story = Story()
        story.set("a", "set_max_stun_retransmits", 2)
        story.passes("a", 0, 250, 750)
        self.assertEqual(self.listed(story), [(Removal.NO_RESPONSE, CheckState.IN_PROGRESS, 2, 0)])
        self.assertEqual(story.agents["a"].removed[0].listed().path, PATH)

    def test_without_consent(self) -> None:
        story = Story(settings=replace(MODERN, consent=Consent(1000 * MILLISECOND)))
        story.exchange("a", 0)
        story.timeout("a", 1000)
        self.assertEqual(self.listed(story), [(Removal.CONSENT_LOST, CheckState.SUCCEEDED, 1, 1)])

    def test_without_requests(self) -> None:
        story = Story()
        story.set("b", "set_ice_lite", True)
        story.deliver(story.timeout("a", 0), "b", 5)
        story.timeout("b", 15_005)
        self.assertEqual(self.listed(story, "b"), [(Removal.PEER_SILENT, CheckState.SUCCEEDED, 0, 0)])
        self.assertEqual(why_expired(story.agents["a"].pairs[0], False), Removal.NO_RESPONSE)

    def test_at_the_limit(self) -> None:
        for settings in PROFILES:
            story = Story(settings=settings)
            story.limit("a", 1)
            story.remote("a", LINE.format(1, "10.9.9.9", 9, "host"))
            self.assertEqual(self.listed(story), [(Removal.EVICTED, CheckState.WAITING, 0, 0)])
            self.assertEqual(story.agents["a"].removed[0].listed().path, MediaPath(A, B._replace(ip="10.9.9.9", port=9), Protocol.UDP))

    def test_by_another_pair(self) -> None:
        story = Story(known=False)
        story.know("b")
        story.meet("a")
        story.deliver(story.timeout("b", 0), "a", 5)
        story.know("a", 10)
        self.assertEqual(self.listed(story), [(Removal.REPLACED, CheckState.WAITING, 0, 0)])

    def test_with_a_candidate(self) -> None:
        for candidate in (Candidate.host(A), Candidate.host(B)):
            story = Story()
            story.invalidate("a", candidate)
            self.assertEqual(self.listed(story), [(Removal.INVALIDATED, CheckState.WAITING, 0, 0)])

    def test_the_last_error(self) -> None:
        story = Story(roles=(True, True), ties=(5, 10))
        story.exchange("a", 0)
        story.invalidate("a", Candidate.host(A), 20)
        self.assertEqual([p.listed().error for p in story.agents["a"].removed], [487])
        story.session()


class Kept(unittest.TestCase):
    def test_the_last_ones(self) -> None:
        story = Story(hosts=(1, LIMIT + 2))
        story.invalidate("a", Candidate.host(A))
        self.assertEqual([r.pair.number for r in story.agents["a"].removed], [*range(2, LIMIT + 2)])

    def test_until_a_restart(self) -> None:
        story = Story()
        story.invalidate("a", Candidate.host(A))
        agent = story.agents["a"]
        self.assertEqual((len(agent.recreate().removed), agent.restart(IceCreds("cccc", "c" * 22), True).removed), (1, ()))

    def test_not_if_another_candidate_gets_the_index(self) -> None:
        story = Story(hosts=(1, 2))
        story.set("b", "set_max_discovered", 1)
        story.set("b", "set_max_stun_retransmits", 1)
        story.invalidate("b", Candidate.host(B))
        for time, ip in ((0, "10.8.8.8"), (5000, "10.8.8.9")):
            packet = story.timeout("a", time)
            assert packet is not None
            story.deliver(packet, "b", time, (A._replace(ip=ip), B._replace(port=B.port + 1)))
            story.passes("b", *(time + 1 + 50 * n for n in range(3)))
            story.passes("b", time + 60_000)
        agent = story.agents["b"]
        found = [place for place in (agent.remote[r.pair.remote] for r in agent.removed) if place.is_found]
        self.assertEqual([place.address.ip for place in found], ["10.8.8.9"])

    def test_the_log_shows_a_difference(self) -> None:
        story = Story()
        story.invalidate("a", Candidate.host(A))
        listed = story.agents["a"].removed[0].listed()
        cases: list[tuple[list[RemovedPair], int]] = [
            ([listed], 0), ([], 1), ([replace(listed, reason=Removal.EVICTED)], 1), ([listed, listed], 1)]
        for pairs, count in cases:
            story.log.removed["a"] = pairs
            self.assertEqual(len(replay(story.log).differences), count)
        self.assertEqual(listed, RemovedPair(PATH, listed.priority, CheckState.WAITING, 0, 0, None, Removal.INVALIDATED))


if __name__ == "__main__":
    unittest.main()
