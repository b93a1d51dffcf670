"""Tests what docs/GUIDE.md says of an ICE restart after an outage or sleep of a minute, of one side or both: both agents are Disconnected
and stay so, and a restart that is signaled brings a path to both within 2 s, or pairs that one side forms again. Only with `Original`, an
agent that slept keeps its path, and its checks bring the peer's back."""

import unittest
from collections.abc import Callable
from typing import Any

from is_ice import IceConnectionState
from lab import scenario
from lab.clock import BEGINNING, SECOND
from lab.endpoint import Endpoint
from lab.session import Session

FROM_S, TO_S, RESTART_S, END_S = 8, 68, 70, 80
PROFILES = ("modern", "original")
DISCONNECTED = IceConnectionState.DISCONNECTED


def outage(session: Session) -> None:
    """A's link loses all packets for a minute, without a word. Its sockets stay."""
    def turn(is_on: bool) -> None:
        for interface in session.endpoints["a"].interfaces:
            interface.is_on = is_on

    session.clock.at(BEGINNING + FROM_S * SECOND, turn, False)
    session.clock.at(BEGINNING + TO_S * SECOND, turn, True)


def sleep(session: Session, side: str = "a") -> None:
    """A side's program does not run for a minute. When it wakes up it makes the `handle_timeout` call that is due."""
    endpoint: Any = session.endpoints[side]
    run: Callable[[int], None] = endpoint._timed_out
    asleep = False

    def timed_out(timeout: int) -> None:
        if not asleep:
            run(timeout)

    def fall() -> None:
        nonlocal asleep
        asleep = True

    def wake() -> None:
        nonlocal asleep
        asleep = False
        endpoint._handle_timeout()

    endpoint._timed_out = timed_out
    outage(session)  # what arrives meanwhile is lost
    session.clock.at(BEGINNING + FROM_S * SECOND, fall)
    session.clock.at(BEGINNING + TO_S * SECOND, wake)


def both_sleep(session: Session) -> None:
    """Neither program runs, as on two suspended machines."""
    sleep(session, "b")
    sleep(session)


class Found:
    """What is seen around the restart: the states just before it, and A's agent before and after the call."""

    def __init__(self, session: Session) -> None:
        self.states: dict[str, IceConnectionState] = {}
        self.shown: list[dict[str, Any]] = []
        self.session = session
        session.clock.at(BEGINNING + RESTART_S * SECOND - 1, self._note)
        session.clock.at(BEGINNING + RESTART_S * SECOND + 1, self._show)

    def _note(self) -> None:
        self.states = {side: e.agent.state for side, e in self.session.endpoints.items()}
        self._show()

    def _show(self) -> None:
        endpoint: Endpoint = self.session.endpoints["a"]
        agent = endpoint.agent
        self.shown.append({"pairs": agent.pairs, "remote": agent.remote_candidates(), "creds": agent.remote_credentials,
                           "role": agent.controlling, "local": agent.local_candidates(), "own": agent.local_credentials})


def played(name: str, profile: str, seed: int, happens: Callable[[Session], None], restarts: bool = True) -> Found:
    """Plays a session with both agents of this profile, in which this happens."""
    event = f'event=[{{ at_s = {RESTART_S}, side = "a", do = "restart" }}]' if restarts else "event=[]"
    changes = (f'a.profile="{profile}"', f'b.profile="{profile}"', f"seconds={END_S}", f"settle_s={END_S}", 'connects="sometimes"', event)
    session = Session(scenario.load(name, changes), seed)
    happens(session)
    found = Found(session)
    session.run()
    return found


def comes_back(profile: str, happens: Callable[[Session], None]) -> bool:
    """Whether both have a path again without a restart: unanswered checks are counted, and who slept sent none."""
    return profile == "original" and happens is not outage


HAPPENINGS: tuple[Callable[[Session], None], ...] = (outage, sleep, both_sleep)
CASES = [(name, profile, happens) for name in ("same_lan", "two_homes", "symmetric_one_side", "symmetric_both_relay")
         for profile in PROFILES for happens in HAPPENINGS]


class Restarts(unittest.TestCase):
    def test_a_restart_brings_a_path_within_2_s(self) -> None:
        for name, profile, happens in CASES:
            for seed in range(3):
                with self.subTest(scenario=name, profile=profile, happens=happens.__name__, seed=seed):
                    found = played(name, profile, seed, happens)
                    gone = {state is DISCONNECTED for state in found.states.values()}
                    self.assertEqual(gone, {not comes_back(profile, happens)})
                    for side, outcome in found.session.outcome.sides.items():
                        assert outcome.last is not None
                        self.assertLess(RESTART_S * SECOND, outcome.last, side)
                        self.assertLess(outcome.last, (RESTART_S + 2) * SECOND, side)
                    self.assertTrue(found.session.outcome.connected)

    def test_without_a_restart_there_is_none(self) -> None:
        for name, profile, happens in CASES:
            with self.subTest(scenario=name, profile=profile, happens=happens.__name__):
                found = played(name, profile, 0, happens, restarts=False)
                states = {e.agent.state for e in found.session.endpoints.values()}
                if comes_back(profile, happens):
                    self.assertTrue(all(state.is_connected() for state in states))
                else:
                    self.assertEqual(states, {DISCONNECTED})

    def test_pairs_that_one_side_forms_again_bring_a_path_within_2_s(self) -> None:
        for happens in HAPPENINGS:
            for side in "ab":
                changes = (f"seconds={END_S}", f"settle_s={END_S}", "event=[]")
                session = Session(scenario.load("two_homes", changes), 0)
                happens(session)
                endpoint = session.endpoints[side]

                def again(endpoint: Endpoint = endpoint) -> None:
                    self.assertIs(endpoint.agent.state, DISCONNECTED)
                    endpoint.agent.recreate_candidate_pairs()
                    endpoint.turn()

                session.clock.at(BEGINNING + RESTART_S * SECOND, again)
                session.run()
                for outcome in session.outcome.sides.values():
                    assert outcome.last is not None
                    self.assertTrue(RESTART_S * SECOND < outcome.last < (RESTART_S + 2) * SECOND, (happens.__name__, side, outcome.last))

    def test_what_the_call_clears_and_keeps(self) -> None:
        for profile in PROFILES:
            with self.subTest(profile=profile):
                before, after = played("two_homes", profile, 0, outage).shown
                self.assertNotEqual((before["remote"], before["creds"]), ([], None))
                self.assertEqual((list(after["pairs"]), list(after["remote"]), after["creds"]), ([], [], None))
                self.assertEqual((after["role"], len(after["local"])), (before["role"], len(before["local"])))
                self.assertNotEqual(after["own"], before["own"])
                for line in after["local"]:
                    self.assertIn(after["own"].ufrag, line)


if __name__ == "__main__":
    unittest.main()
