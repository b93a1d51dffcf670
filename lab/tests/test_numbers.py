"""Tests nominations with numbers (draft-thatcher-ice-renomination) in the model: a controlled agent with two valid pairs."""

import unittest
from dataclasses import replace

from is_ice import Candidate, Protocol, SocketAddress, Transmit
from lab.stun import NOMINATION, nomination_of
from lab.tests.stories import ICE_CONTROLLING, PRIORITY, USE_CANDIDATE, USERNAME, MODERN, ORIGINAL, A, B, Story, message

SECOND_B = B._replace(port=B.port + 1)


class Followed(unittest.TestCase):
    """Both pairs of side b are valid. Each test nominates them by requests of side a."""

    def setUp(self) -> None:
        self.story = Story(hosts=(1, 2), settings=MODERN)
        for side in "ab":
            self.story.set(side, "set_renomination", True)
        for time in (0, 50):
            self.story.exchange("b", time)
        self.time = 100

    def selected(self) -> SocketAddress | None:
        agent = self.story.agents["b"]
        return next((agent.path(p)[0] for p in agent.pairs if p.number == agent.selected), None)

    def nominate(self, local: SocketAddress, number: int | None) -> SocketAddress | None:
        """Delivers a request with USE-CANDIDATE, and NOMINATION if there is a number. Returns where the selected path begins after it."""
        self.story.ids += 1
        attributes = {USERNAME: b"bbbb:aaaa", PRIORITY: bytes(4), ICE_CONTROLLING: bytes(8), USE_CANDIDATE: b""}
        if number is not None:
            attributes[NOMINATION] = number.to_bytes(4, "big")
        contents = message("request", self.story.ids.to_bytes(12, "big"), attributes)
        self.story.deliver(Transmit(Protocol.UDP, A, local, contents), "b", self.time)
        self.time += 5
        return self.selected()

    def test_the_greatest_number(self) -> None:
        stays, moves = ((B, 1, SECOND_B), (B, 2, SECOND_B)), ((B, 3, B), (SECOND_B, 2, B))
        for local, number, expected in ((B, 1, B), (SECOND_B, 2, SECOND_B), *stays, *moves):
            self.assertEqual(self.nominate(local, number), expected)
        self.story.session()

    def test_without_numbers_the_last_one(self) -> None:
        for local in (B, SECOND_B, B):
            self.assertEqual(self.nominate(local, None), local)

    def test_with_the_original_profile_they_are_ignored(self) -> None:
        self.story.set("b", "set_settings", replace(ORIGINAL, renomination=True))
        for local, number in ((B, 2), (SECOND_B, 1), (B, 0)):
            self.nominate(local, number)
            self.story.timeout("b", self.time)  # which selects the path that was nominated last
            self.assertEqual(self.selected(), local)

    def test_use_candidate_counts_as_1(self) -> None:
        for local, number, expected in ((B, None, B), (SECOND_B, 2, SECOND_B), (B, None, SECOND_B), (B, 2, SECOND_B), (B, 3, B)):
            self.assertEqual(self.nominate(local, number), expected)

    def test_0_is_none(self) -> None:
        self.assertIsNone(self.nominate(B, 0))
        self.assertEqual(self.nominate(SECOND_B, 1), SECOND_B)

    def test_a_removed_pair_gives_way(self) -> None:
        self.nominate(B, 1)
        self.assertEqual(self.nominate(SECOND_B, 2), SECOND_B)
        self.story.timeout("b", 150)
        self.story.invalidate("b", Candidate.host(SECOND_B), 160)
        self.assertEqual(self.selected(), B)
        self.story.session()

    def test_a_restart_forgets_them(self) -> None:
        self.nominate(B, 1)
        agent = self.story.agents["b"]
        self.assertTrue(agent.numbers_seen)
        self.assertFalse(agent.restart(agent.creds, True).numbers_seen)


class Read(unittest.TestCase):
    def test_nomination(self) -> None:
        for attributes, expected in (({NOMINATION: bytes(3) + b"\7"}, 7), ({NOMINATION: b"\7"}, None), ({USE_CANDIDATE: b""}, None),
                                     ({0x0008: bytes(20), NOMINATION: bytes(3) + b"\7"}, None)):
            self.assertEqual(nomination_of(message("request", bytes(12), attributes)), expected)
