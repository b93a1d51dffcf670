"""Tests that no agent is called without work: once it knows the peer, a `handle_timeout` call that sends nothing comes one pacing interval
after the call before, or later, unless a packet, a candidate or credentials came in between. And none comes before it knows the peer."""

import unittest
from collections.abc import Callable
from typing import Any

from lab import scenario
from lab.clock import BEGINNING, MILLISECOND, SECOND
from lab.endpoint import Endpoint
from lab.session import Session

TA = 50 * MILLISECOND  # RFC 8445, section 14.2


class Calls:
    """Counts the calls of an endpoint that send nothing, and how many of them came too soon."""

    def __init__(self, session: Session, side: str) -> None:
        self.times: list[int] = []
        self.idle, self.sooner = 0, list[int]()
        self._session, self._side, self._came = session, side, True
        endpoint: Any = session.endpoints[side]
        for name in ("_take_datagram", "take_signal", "_add"):
            setattr(endpoint, name, self._noted(getattr(endpoint, name)))
        endpoint._handle_timeout = self._counted(endpoint._handle_timeout)

    def _noted(self, call: Callable[..., None]) -> Callable[..., None]:
        def noted(*arguments: Any) -> None:
            self._came = True
            call(*arguments)

        return noted

    def _counted(self, call: Callable[[], None]) -> Callable[[], None]:
        def counted() -> None:
            now, sent = self._session.clock.now, self._session._sent[self._side][0]
            call()
            if self._session._sent[self._side][0] == sent:
                self.idle += 1
                if self.times and not self._came and now - self.times[-1] < TA:
                    self.sooner.append((now - BEGINNING) // MILLISECOND)
            self.times.append(now)
            self._came = False

        return counted


class Waking(unittest.TestCase):
    def test_no_agent_is_called_without_work(self) -> None:
        for name in scenario.names():
            for seed in range(2):
                session = Session(scenario.load(name), seed)
                calls = [Calls(session, side) for side in session.endpoints]
                session.run()
                for counted in calls:
                    self.assertGreater(len(counted.times), 0, (name, seed))
                    self.assertEqual(counted.sooner, [], (name, seed))

    def test_a_session_with_one_path_needs_a_call_for_each_check(self) -> None:
        """RFC 7675: one check in each interval, here of 2.9 s."""
        session = Session(scenario.load("same_lan", ("settle_s=120", "seconds=180", "a.stun=false", "b.stun=false", *(
            f"{side}.{what}" for side in "ab" for what in ("max_rto_ms=2900", "retransmits=11")))), 1)
        calls = [Calls(session, side) for side in session.endpoints]
        session.run()
        for counted in calls:
            late = [at for at in counted.times if at > BEGINNING + 60 * SECOND]
            self.assertLessEqual(len(late), (session.clock.now - BEGINNING - 60 * SECOND) // (2900 * MILLISECOND) + 1)

    def test_who_does_not_know_the_peer_is_not_called(self) -> None:
        """B's credentials come 30 s after its candidates: A has pairs, and B's requests wait."""
        session = Session(scenario.load("same_lan", ("signaling.credentials_late_ms=30000", "seconds=60")), 1)
        endpoint: Endpoint = session.endpoints["a"]
        calls = Calls(session, "a")
        seen: list[tuple[int, int]] = []
        session.clock.at(BEGINNING + 29 * SECOND, lambda: seen.append((len(calls.times), len(endpoint.agent.pairs))))
        session.run()
        self.assertEqual([at > 0 for _, at in seen], [True])
        self.assertEqual([count for count, _ in seen], [1])  # that which begins the session


if __name__ == "__main__":
    unittest.main()
