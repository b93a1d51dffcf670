"""`poll_timeout` is a query: sessions with further queries at random places send the same packets, byte for byte, as those without. And no
agent is called without need: once a session is settled it is called for its checks only, and not at all while the peer is unknown."""

from __future__ import annotations

import dataclasses
import heapq
import random
import unittest
from collections.abc import Callable

from is_ice import Candidate, IceAgent, IceCreds, NominatedSend, Profile, SocketAddress

MS = 1_000_000
SECOND = 1_000 * MS
PEER = "candidate:1 1 UDP 2130706431 10.0.0.9 2000 typ host"

Query = Callable[[IceAgent], None]


class Session:
    """Two agents with one to three candidates each, and a network that delays packets and loses some. What it does depends on the seed."""

    def __init__(self, seed: int, query: Query) -> None:
        self._random, self._query, self.now = random.Random(seed), query, 0
        self._flying: list[tuple[int, int, int, SocketAddress, SocketAddress, bytes]] = []
        self.sent: list[tuple[int, int, bytes]] = []
        self.calls: list[list[int]] = [[], []]  # when handle_timeout was called
        self.selected = [0, 0]
        self.agents = [IceAgent(IceCreds(f"ufrag{side}", f"{side}" * 22), self._random.getrandbits(64)) for side in range(2)]
        self.agents[0].set_controlling(True)
        self.loss, self._delay = self._random.choice((0, 0, 20)), self._random.randrange(1, 60)
        known = self._random.randrange(3)  # 0: the second side learns the credentials later, when checks wait
        for side, (agent, peer) in enumerate(zip(self.agents, self.agents[::-1])):
            for number in range(self._random.randrange(1, 4)):
                line = self.asked(agent).add_local_candidate(Candidate.host(SocketAddress(f"10.{side}.0.{number + 1}", 5000)))
                self.asked(peer).add_remote_candidate(str(line))
            if side == 0 or known:
                self.asked(agent).set_remote_credentials(peer.local_credentials)
        for side in range(2):
            self.time_out(side)

    def asked(self, agent: IceAgent) -> IceAgent:
        """The agent, after queries that change nothing."""
        self._query(agent)
        return agent

    def time_out(self, side: int) -> None:
        """Calls `handle_timeout`, and sends what there is."""
        self.calls[side].append(self.now)
        self.asked(self.agents[side]).handle_timeout(self.now, self._random.randbytes(12))
        self.poll(side)

    def poll(self, side: int) -> None:
        """Sends the packets of a side, and takes its events."""
        while packet := self.asked(self.agents[side]).poll_transmit():
            self.sent.append((self.now, side, packet.contents))
            if self._random.randrange(100) >= self.loss:
                arrives = self.now + self._delay * MS + self._random.randrange(MS)
                heapq.heappush(self._flying, (arrives, len(self.sent), 1 - side, packet.source, packet.destination, packet.contents))
        while event := self.asked(self.agents[side]).poll_event():
            self.selected[side] += isinstance(event, NominatedSend)

    def play(self, until: int) -> None:
        """Plays up to a time: each agent is called when it says."""
        while True:
            due = [agent.poll_timeout() for agent in self.agents]
            times = [max(self.now, at) for at in due if at is not None] + [self._flying[0][0] for _ in self._flying[:1]]
            if not times or min(times) > until:
                break
            self.now = min(times)
            if self._flying and self._flying[0][0] == self.now:
                _, _, side, source, destination, contents = heapq.heappop(self._flying)
                self.asked(self.agents[side]).handle_packet(self.now, source, destination, contents)
                self.poll(side)
                continue
            for side, at in enumerate(due):
                if at is not None and at <= self.now:
                    self.time_out(side)
        self.now = until

    def introduce(self) -> None:
        """The second side learns the credentials of the first."""
        self.asked(self.agents[1]).set_remote_credentials(self.agents[0].local_credentials)


def none(agent: IceAgent) -> None:
    """No query."""


def some(seed: int) -> Query:
    """Up to three queries at each place."""
    own = random.Random(seed)

    def query(agent: IceAgent) -> None:
        found = {agent.poll_timeout() for _ in range(own.randrange(4))}
        assert len(found) < 2, found

    return query


def played(seed: int, query: Query) -> list[tuple[int, int, bytes]]:
    """What a session sends in its first 300 ms."""
    session = Session(seed, query)
    session.play(150 * MS)
    session.introduce()
    session.play(300 * MS)
    for agent in session.agents:
        agent.close()
    return session.sent


class Queries(unittest.TestCase):
    def test_further_queries_change_no_packet(self) -> None:
        for seed in range(2_000):
            self.assertEqual(played(seed, none), played(seed, some(seed)), seed)


def settled(seed: int) -> Session:
    """A session without loss after 60 s, when pairs without a response are gone."""
    session = Session(seed, none)
    assert not session.loss
    session.introduce()
    session.play(60 * SECOND)
    return session


class Waking(unittest.TestCase):
    def test_a_settled_agent_is_called_for_its_checks_only(self) -> None:
        for seed in (4, 11, 17):  # with one pair, three and nine
            session = settled(seed)
            calls, sent = [len(side) for side in session.calls], len(session.sent)
            session.play(360 * SECOND)
            requests = [0, 0]
            for _, side, contents in session.sent[sent:]:
                requests[side] += contents[:2] == b"\0\1"
            self.assertEqual([len(side) - before for side, before in zip(session.calls, calls)], requests)
            for agent, own in zip(session.agents, requests):
                self.assertLessEqual(own, len(agent.pairs) * (300 * SECOND // agent.settings.max_rto + 2))
                agent.close()

    def test_an_agent_without_the_peers_credentials_is_not_called(self) -> None:
        agent = IceAgent(IceCreds("ufrag", "p" * 22))
        agent.add_local_candidate(Candidate.host(SocketAddress("10.0.0.1", 5000)))
        self.assertIsNone(agent.poll_timeout())
        agent.handle_timeout(SECOND, bytes(12))
        agent.add_remote_candidate(PEER)
        self.assertEqual(len(list(agent.pairs)), 1)
        self.assertIsNone(agent.poll_timeout())
        agent.set_remote_credentials(IceCreds("peer", "q" * 22))
        self.assertEqual(agent.poll_timeout(), SECOND + 5 * MS)
        agent.close()

    def test_an_early_request_calls_nobody_before_the_credentials(self) -> None:
        peer, agent = (IceAgent(IceCreds(f"ufrag{side}", f"{side}" * 22)) for side in range(2))
        peer.set_remote_credentials(agent.local_credentials)
        for number, side in enumerate((peer, agent)):
            side.add_local_candidate(Candidate.host(SocketAddress(f"10.0.0.{number}", 5000)))
        peer.add_remote_candidate("candidate:1 1 UDP 2130706431 10.0.0.1 5000 typ host")
        for side in (peer, agent):
            side.handle_timeout(SECOND, bytes(12))
        check = peer.poll_transmit()
        assert check
        self.assertTrue(agent.handle_packet(SECOND + 20 * MS, check.source, check.destination, check.contents))
        self.assertEqual((agent.early_requests, agent.poll_timeout()), (1, None))
        agent.set_remote_credentials(peer.local_credentials)
        self.assertEqual(agent.poll_timeout(), SECOND + 5 * MS)
        agent.handle_timeout(SECOND + 20 * MS, bytes(12))
        self.assertEqual(agent.early_requests, 0)
        due = agent.poll_timeout()
        assert due is not None
        self.assertLessEqual(due, SECOND + 20 * MS)
        for side in (peer, agent):
            side.close()

    def test_the_original_connects_too(self) -> None:
        session = Session(7, none)
        for agent in session.agents:
            agent.set_settings(dataclasses.replace(agent.settings, profile=Profile.ORIGINAL))
        session.introduce()
        session.play(2 * SECOND)
        self.assertGreater(min(session.selected), 0)
        for agent in session.agents:
            agent.close()


if __name__ == "__main__":
    unittest.main()
