"""Tests that agents with `Modern` leave a selected path that dies, if another one works, and only then: not in an outage of the whole
network, under loss, or after a sleep; and when media goes on after a candidate was invalidated. In `path_dies` A's cable fails at 8 s, and
its mobile link works."""

import unittest
from collections.abc import Callable
from random import Random
from typing import Any

from is_ice import NominatedSend
from lab import scenario
from lab.clock import BEGINNING, MILLISECOND, SECOND, nanoseconds
from lab.session import Session, Trace
from lab.stun import message_of

FAILS_S = 8
NOTHING_FAILS = ("event=[]", "settle_s=60")
# The settings of a new agent of the library with `Modern`; those of `path_dies` are the original's.
MODERN = tuple(f"{side}.{what}" for side in "ab" for what in ("max_rto_ms=2900", "retransmits=11"))
# B is a lite agent with a public address.
LITE_SERVER = ("b.lite=true", 'b.interface=[{ name = "eth0", ip = "198.51.100.20", up = "home", down = "home" }]',
               'nat=[{ name = "mobile carrier", inner = "mobile", outside = "203.0.113.3" }]')
# A has two wires, of which the first is preferred, and a mobile link.
TWO_WIRES = ('[{ name = "eth0", ip = "192.0.2.10", up = "home", down = "home" }, '
             '{ name = "eth1", ip = "192.0.2.11", up = "home", down = "home" }, '
             '{ name = "lte", ip = "10.64.0.10", network = "mobile", up = "mobile", down = "mobile" }]')
# Both use IPv4 and IPv6, and A has a mobile link with IPv4, too.
WIRE = 'up = "home", down = "home"'
DUAL_STACK = (f'a.interface=[{{ name = "eth6", ip = "2001:db8:a::1", {WIRE} }}, {{ name = "eth4", ip = "192.0.2.10", {WIRE} }}, '
              '{ name = "lte", ip = "10.64.0.10", network = "mobile", up = "mobile", down = "mobile" }]',
              f'b.interface=[{{ name = "eth6", ip = "2001:db8:b::1", {WIRE} }}, {{ name = "eth4", ip = "198.51.100.40", {WIRE} }}]',
              'nat=[{ name = "mobile carrier", inner = "mobile", outside = "203.0.113.3" }]')
# Packets are lost only on A's links.
CLEAN_B = ('b.interface=[{ name = "wifi", ip = "192.168.1.20", network = "home B", up = "clean", down = "clean" }]',
           "link.clean.delay_ms=8", "link.clean.jitter_ms=4")
MOBILE, OUTSIDE = "10.64.0.10", "203.0.113.3"  # A's second address, and that of its NAT
# The other path is the quicker one.
QUICKER = ("link.home.delay_ms=60", "link.mobile.delay_ms=8")


def play(seed: int, changes: tuple[str, ...], happens: Callable[[Session, float], None] | None = None,
         since: float = FAILS_S) -> dict[str, list[float]]:
    """Plays a session with these changes, in which something happens. Returns when each side selected a path after that time, in seconds
    from then."""
    trace = Trace()
    session = Session(scenario.load("path_dies", (*changes, 'connects="sometimes"')), seed, trace)
    if happens is not None:
        happens(session, FAILS_S + Random(seed).uniform(0, 3))
    session.run()
    late = [(side, (at - BEGINNING) / SECOND - since) for at, side, event in trace.events if isinstance(event, NominatedSend)]
    return {side: [after for own, after in late if own == side and after > 0] for side in "ab"}


def loses(part: float) -> tuple[str, ...]:
    """This part of the packets is lost on each link."""
    return f"link.home.loss={part}", f"link.mobile.loss={part}"


def with_media(name: str, seed: int, changes: tuple[str, ...], since: float) -> dict[str, float]:
    """Plays a session in which A moves to its second address at this time. Returns how much later, in seconds, each side sends media on a
    path that leads there, and does so for the rest of 10 s."""
    session = Session(scenario.load(name, (*MODERN, *changes, "settle_s=30", 'connects="sometimes"')), seed)
    failed: dict[str, float] = {}

    def look() -> None:
        later = (session.clock.now - BEGINNING) / SECOND - since
        for side, endpoint in session.endpoints.items():
            path = endpoint.agent.media_addresses(session.clock.now)
            if path is None or (path[0].ip != MOBILE if side == "a" else path[1].ip != OUTSIDE):
                failed[side] = later
        if later < 10:
            session.clock.at(session.clock.now + 10 * MILLISECOND, look)

    session.clock.at(BEGINNING + nanoseconds(since * 1000) + MILLISECOND, look)
    session.run()
    return {side: failed.get(side, 0) for side in "ab"}


def outage(seconds: float) -> Callable[[Session, float], None]:
    """All packets from and to A are lost for some time."""
    def happens(session: Session, at: float) -> None:
        def turn(is_on: bool) -> None:
            for interface in session.endpoints["a"].interfaces:
                interface.is_on = is_on

        session.clock.at(BEGINNING + nanoseconds(at * 1000), turn, False)
        session.clock.at(BEGINNING + nanoseconds((at + seconds) * 1000), turn, True)

    return happens


def unplugged(seconds: float) -> Callable[[Session, float], None]:
    """All packets from and to A's cable are lost for some time."""
    def happens(session: Session, at: float) -> None:
        def turn(is_on: bool) -> None:
            session.endpoints["a"].interfaces[0].is_on = is_on

        session.clock.at(BEGINNING + nanoseconds(at * 1000), turn, False)
        session.clock.at(BEGINNING + nanoseconds((at + seconds) * 1000), turn, True)

    return happens


def both_unplugged(seconds: float) -> Callable[[Session, float], None]:
    """All packets from and to A's first two interfaces are lost; after some time those of the first one arrive again."""
    def happens(session: Session, at: float) -> None:
        def turn(is_on: bool) -> None:
            first, second, _ = session.endpoints["a"].interfaces
            first.is_on, second.is_on = is_on, False

        session.clock.at(BEGINNING + nanoseconds(at * 1000), turn, False)
        session.clock.at(BEGINNING + nanoseconds((at + seconds) * 1000), turn, True)

    return happens


def sleep(side: str, seconds: float) -> Callable[[Session, float], None]:
    """A side's program does not run for some time. Its timeouts and its packets wait; when it wakes up it handles the packets in their
    order, and then makes the `handle_timeout` call that is due."""
    def happens(session: Session, at: float) -> None:
        endpoint: Any = session.endpoints[side]
        timed_out, took = endpoint._timed_out, endpoint._take_datagram
        waiting: list[tuple[Any, ...]] | None = None

        def received(*packet: Any) -> None:
            if waiting is None:
                took(*packet)
            else:
                waiting.append(packet)

        def turn(is_awake: bool) -> None:
            nonlocal waiting
            held, waiting = waiting, None if is_awake else []
            if is_awake:
                for packet in held or []:
                    took(*packet)
                endpoint._handle_timeout()

        endpoint._timed_out = lambda timeout: timed_out(timeout) if waiting is None else None
        endpoint._take_datagram = received
        session.clock.at(BEGINNING + nanoseconds(at * 1000), turn, False)
        session.clock.at(BEGINNING + nanoseconds((at + seconds) * 1000), turn, True)

    return happens


class Leaving(unittest.TestCase):
    def assert_left(self, changes: tuple[str, ...], do: str, most: float) -> None:
        """The path of eth0 fails some time after 8 s, and both sides select the other one within this time, in seconds."""
        for seed in range(5):
            at = Random(seed).uniform(0, 3)
            event = f'event=[{{ at_s = {FAILS_S + at}, side = "a", do = "{do}", interface = "eth0" }}]'
            for side, (after,) in play(seed, (event, *changes)).items():
                self.assertLess(after - at, most, (seed, side))

    def test_a_path_that_dies_is_left_in_4_s(self) -> None:
        self.assert_left((), "silent", 4.2)
        self.assert_left(MODERN, "silent", 4.05)

    def test_one_that_works_in_one_direction_too(self) -> None:
        self.assert_left((), "mute", 4.3)
        self.assert_left(MODERN, "mute", 4.2)

    def test_under_loss_too(self) -> None:
        """If more than a third of the checks were lost before, the path is kept 2.2 s longer."""
        self.assert_left((*MODERN, "link.home.loss=0.1", "link.mobile.loss=0.1"), "silent", 6.7)

    def test_the_path_that_is_selected_then_is_nominated_at_once(self) -> None:
        for seed in range(20):
            at, trace = Random(seed).uniform(0, 3), Trace()
            event = f'event=[{{ at_s = {FAILS_S + at}, side = "a", do = "silent", interface = "eth0" }}]'
            Session(scenario.load("path_dies", (*MODERN, event, 'connects="sometimes"')), seed, trace).run()
            left = next(time for time, side, told in trace.events
                        if side == "a" and isinstance(told, NominatedSend) and told.source.ip == MOBILE)
            sent = next(d.time for d in trace.datagrams if d.side == "a" and d.time >= left and d.source.ip == MOBILE
                        and message_of(d.contents).use_candidate)
            self.assertLess(sent - left, 50 * MILLISECOND, seed)

    def test_media_goes_on_if_the_candidate_of_the_path_is_invalidated(self) -> None:
        """A sends on the other path at once. If it is controlling, B follows within a second, since A nominates it. If it is controlled, B
        leaves the old one as if it had died."""
        numbered = ("a.renomination=true", "b.renomination=true")
        for controlling in (True, False):
            roles = (f"a.controlling={controlling}".lower(), f"b.controlling={not controlling}".lower())
            for changes in ((), numbered):
                for seed in range(5):
                    at = FAILS_S + Random(seed).uniform(0, 3)
                    event = f'event=[{{ at_s = {at}, side = "a", do = "off", interface = "eth0" }}]'
                    later = with_media("path_dies", seed, (*roles, *changes, event), at)
                    self.assertLess(later["a"], 1, (controlling, changes, seed))
                    self.assertLess(later["b"], 1 if controlling else 4, (controlling, changes, seed))

    def test_so_it_does_on_a_new_address_without_a_restart(self) -> None:
        """A's only interface goes away, and another one comes. Its candidates are trickled."""
        for controlling in (True, False):
            roles = (f"a.controlling={controlling}".lower(), f"b.controlling={not controlling}".lower())
            for seed in range(5):
                at = FAILS_S + Random(seed).uniform(0, 3)
                events = ", ".join(f'{{ at_s = {at}, side = "a", do = "{do}", interface = "{name}" }}'
                                   for do, name in (("off", "wifi"), ("on", "lte")))
                later = with_media("change_of_network", seed, (*roles, f"event=[{events}]"), at)
                self.assertLess(later["a"], 1, (controlling, seed))
                self.assertLess(later["b"], 1.4 if controlling else 4, (controlling, seed))

    def test_in_the_first_seconds_too(self) -> None:
        """The checks of the present silence are not lost ones, nor are those that no NAT let through yet."""
        for seed in range(5):
            at = Random(seed).uniform(1, 4)
            event = f'event=[{{ at_s = {at}, side = "a", do = "silent", interface = "eth0" }}]'
            for side, times in play(seed, (event, *MODERN), since=at).items():
                self.assertLess(times[-1], 4.05, (seed, side))

    def test_a_path_that_both_left_comes_back(self) -> None:
        """Its pair is formed again with the next response on the other path, and its checks go on at most 3 s after one another."""
        for seed in range(5):
            at = Random(seed).uniform(0, 3)
            got = play(seed, (*MODERN, *NOTHING_FAILS), unplugged(5))
            for side in "ab":
                self.assertLess(got[side][0] - at, 4.05, (seed, side))
                self.assertEqual(len(got[side]), 2, (seed, side))
                self.assertLess(got[side][1] - at - 5, 3.5, (seed, side))

    def test_of_two_paths_that_were_left_the_first_comes_back(self) -> None:
        """Both fail together, and the second is left before a response arrives on the third. The first works again 10 s later."""
        changes = (*MODERN, *LITE_SERVER, *NOTHING_FAILS, "link.home.delay_ms=40", "link.home.jitter_ms=2", "link.mobile.delay_ms=20",
                   "link.mobile.jitter_ms=5", f"a.interface={TWO_WIRES}")
        for seed in range(5):
            at = Random(seed).uniform(0, 3)
            last = play(seed, changes, both_unplugged(10))["a"][-1]
            self.assertTrue(10 < last - at < 14, (seed, last - at))

    def test_two_paths_that_fail_at_once_are_left_in_5_s(self) -> None:
        """The second one is selected, though it is dead, and asks the third one along. The first takes 4 s, as if it fails alone, and
        eleven checks of the second one 1.1 s, if it gets every second check, with 50 ms from one to the next."""
        for controlling in (True, False):
            roles = (f"a.controlling={controlling}".lower(), f"b.controlling={not controlling}".lower())
            for seed in range(40):
                at = Random(seed).uniform(0, 3)
                for side, times in play(seed, (*MODERN, *NOTHING_FAILS, *DUAL_STACK, *roles), both_unplugged(60)).items():
                    self.assertLess(times[-1] - at, 5.1, (controlling, seed, side))

    def test_a_path_to_a_lite_peer_comes_back(self) -> None:
        """A lite peer sends no requests, so its responses have to suffice."""
        for seed in range(5):
            at = Random(seed).uniform(0, 3)
            left, back = play(seed, (*MODERN, *LITE_SERVER, *NOTHING_FAILS), unplugged(5))["a"]
            self.assertLess(left - at, 4.05, seed)
            self.assertLess(back - at - 5, 3.5, seed)

    def test_with_the_original_it_is_kept(self) -> None:
        for side, (after,) in play(1, ('a.profile="original"', 'b.profile="original"')).items():
            self.assertGreater(after, 20, side)

    def test_an_outage_of_the_whole_network_changes_nothing(self) -> None:
        for seconds in (0.5, 1, 2, 5, 15):
            for seed in range(3):
                with self.subTest(seconds=seconds, seed=seed):
                    self.assertEqual(play(seed, NOTHING_FAILS, outage(seconds)), {"a": [], "b": []})

    def test_nor_does_loss(self) -> None:
        for seed in range(200):
            self.assertEqual(play(seed, (*MODERN, *NOTHING_FAILS, "settle_s=20", *loses(0.1))), {"a": [], "b": []}, seed)

    def test_heavy_loss_changes_a_path_in_one_of_20_sessions_at_most(self) -> None:
        changes = sum(len(play(seed, (*MODERN, *NOTHING_FAILS, *CLEAN_B, *loses(0.3)))["a"]) for seed in range(40))
        self.assertLessEqual(changes, 0.05 * 40)

    def test_nor_do_a_hundred_paths_that_work(self) -> None:
        """Ten addresses a side, all of which reach each other, for two minutes."""
        sides: dict[str, Any] = {
            name: {"controlling": name == "a", "max_rto_ms": 2900.0, "retransmits": 11,
                   "interface": [{"name": f"eth{n}", "ip": f"{ip}.{n}", "up": "link", "down": "link"} for n in range(10)]}
            for name, ip in (("a", "192.0.2"), ("b", "198.51.101"))}
        for link in ({"delay_ms": 10.0, "jitter_ms": 2.0}, {"delay_ms": 200.0, "jitter_ms": 150.0}):
            trace = Trace()
            Session(scenario.scenario_of("hundred", {"seconds": 125, "settle_s": 124, "link": {"link": link}, **sides}), 1, trace).run()
            late = [at for at, _, event in trace.events if isinstance(event, NominatedSend) and at > BEGINNING + 5 * SECOND]
            self.assertEqual(late, [], link)

    def test_nor_a_sleep(self) -> None:
        for side in "ab":
            for seconds in (2, 15):
                for changes in ((), QUICKER):
                    with self.subTest(side=side, seconds=seconds, changes=changes):
                        self.assertEqual(play(0, (*NOTHING_FAILS, *changes), sleep(side, seconds)), {"a": [], "b": []})

    def test_nor_a_late_caller(self) -> None:
        for seed in range(3):
            self.assertEqual(play(seed, (*NOTHING_FAILS, "a.late_ms=1000", "b.late_ms=1000")), {"a": [], "b": []}, seed)

    def test_nor_do_round_trips_of_2_s(self) -> None:
        slow = tuple(f"link.{name}.delay_ms=490" for name in ("home", "mobile"))
        self.assertEqual(play(0, (*NOTHING_FAILS, *slow)), {"a": [], "b": []})


if __name__ == "__main__":
    unittest.main()
