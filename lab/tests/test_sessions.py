"""Tests that scenarios load, that sessions have the required outcomes and repeat, and that broken guarantees are detected."""

import os
import subprocess
import sys
import unittest
from typing import Any

from is_ice import NominatedSend, Protocol, SocketAddress
from lab import scenario
from lab.network import Datagram
from lab.guarantees import Broken, SideGuarantees, judge_roles
from lab.session import Session, Trace

HERE, THERE, ELSEWHERE = (SocketAddress(f"10.0.0.{n}", n) for n in (1, 2, 3))
# The headers of a check and its response, and a check with USE-CANDIDATE.
CHECK = bytes.fromhex("000100002112a442") + b"transaction1"
RESPONSE = bytes.fromhex("010100002112a442") + b"transaction1"
NOMINATING = bytes.fromhex("000100042112a442") + b"transaction2" + bytes.fromhex("00250000")


def datagram(side: str, source: SocketAddress, destination: SocketAddress, contents: bytes) -> Datagram:
    return Datagram(0, side, 0, source, destination, contents)


class Agent:
    """An agent with only what the guarantees need."""

    controlling = False


def guarantees(side: str = "a", tie_breaker: int = 1) -> SideGuarantees:
    return SideGuarantees(side, Agent(), tie_breaker, False, False)


class Scenarios(unittest.TestCase):
    def test_each_has_its_required_outcome(self) -> None:
        for name in scenario.names():
            for seed in range(3):
                with self.subTest(scenario=name, seed=seed):
                    outcome = Session(scenario.load(name), seed).run()
                    self.assertTrue(outcome.symmetric or not outcome.connected or not scenario.load(name).symmetric)

    def test_a_seed_repeats(self) -> None:
        lossy = scenario.load("lossy_mobile")
        self.assertEqual(Session(lossy, 5).run(), Session(lossy, 5, Trace()).run())
        self.assertNotEqual(Session(lossy, 5).run().first, Session(lossy, 6).run().first)

    def test_a_seed_repeats_in_another_process(self) -> None:
        """Python hashes texts otherwise in each process, unless PYTHONHASHSEED is set."""
        program = ("from lab import scenario; from lab.session import Session\n"
                   "print([Session(scenario.load('symmetric_relay_far'), seed).run() for seed in range(4, 6)])")
        printed = [subprocess.run([sys.executable, "-c", program], env={**os.environ, "PYTHONHASHSEED": str(n)}, capture_output=True,
                                  text=True, check=True).stdout for n in range(4)]
        self.assertEqual(set(printed), {printed[0]})

    def test_kinds_of_paths(self) -> None:
        for name, kind in (("same_lan", "host"), ("two_homes", "reflexive"), ("symmetric_both_relay", "relayed")):
            with self.subTest(scenario=name):
                self.assertEqual(Session(scenario.load(name), 1).run().sides["a"].kind, kind)

    def test_the_new_network_is_used_after_a_restart(self) -> None:
        path = Session(scenario.load("change_of_network"), 1).run().sides["a"].path
        assert path is not None
        self.assertEqual(path[0].ip, "10.64.0.10")

    def test_another_path_replaces_one_that_fails(self) -> None:
        outcome = Session(scenario.load("path_dies"), 1).run().sides["a"]
        assert outcome.path is not None and outcome.last is not None
        self.assertEqual(outcome.path[0].ip, "10.64.0.10")
        self.assertTrue(8 * 10**9 < outcome.last < 20 * 10**9)

    def test_errors_say_what_is_wrong(self) -> None:
        side = {"interface": [{"name": "x", "ip": "10.0.0.1"}]}
        sides: dict[str, Any] = {"a": side, "b": side}
        nat = {"name": "n", "inner": "i"}
        tables: tuple[tuple[dict[str, Any], str], ...] = (
            ({"a": side}, "side b has no interface"), ({**sides, "speed": 1}, "speed is not known"),
            ({**sides, "b": {**side, "profile": "odd"}}, "profile is modern or original"),
            ({**sides, "nat": [nat]}, "outside is missing"),
            ({**sides, "nat": [{**nat, "outside": "192.0.2.1", "mapping": "odd"}]}, "mapping is one of"))
        for table, word in tables:
            with self.assertRaises(scenario.BadScenario) as fault:
                scenario.scenario_of("x", table)
            self.assertIn(word, str(fault.exception))

    def test_a_scenario_like_another(self) -> None:
        own, other = scenario.load("two_links_renominated"), scenario.load("two_links_nat")
        self.assertEqual((own.link, own.nat, own.a.interface), (other.link, other.nat, other.a.interface))
        self.assertTrue(own.symmetric and own.a.renomination and own.b.renomination)
        self.assertFalse(other.symmetric or other.a.renomination or other.b.renomination)

    def test_a_change_of_a_setting(self) -> None:
        changed = scenario.load("two_homes", ("a.initial_rto_ms=100", "link.home.loss=0.5"))
        self.assertEqual((changed.a.initial_rto_ms, changed.link["home"].loss), (100, 0.5))

    def test_late_timeouts(self) -> None:
        punctual, late = (Session(scenario.load("same_lan", (f"a.late_ms={n}", f"b.late_ms={n}")), 1).run().first for n in (0, 20))
        assert punctual is not None and late is not None
        self.assertGreater(late, punctual)


class BrokenGuarantees(unittest.TestCase):
    def test_a_path_without_a_successful_check(self) -> None:
        side = guarantees()
        side.sent(datagram("a", HERE, THERE, CHECK))
        with self.assertRaises(Broken):
            side.told(NominatedSend(Protocol.UDP, HERE, THERE))

    def test_a_response_from_another_path(self) -> None:
        side = guarantees()
        side.sent(datagram("a", HERE, THERE, CHECK))
        self.assertRaises(Broken, side.took, datagram("b", THERE, HERE, RESPONSE), ELSEWHERE, HERE)

    def test_a_path_that_was_not_nominated(self) -> None:
        side = guarantees()
        side.sent(datagram("a", HERE, THERE, CHECK))
        side.took(datagram("b", THERE, HERE, RESPONSE), THERE, HERE)
        self.assertRaises(Broken, side.told, NominatedSend(Protocol.UDP, HERE, THERE))
        side.took(datagram("b", THERE, HERE, NOMINATING), THERE, HERE)
        side.told(NominatedSend(Protocol.UDP, HERE, THERE))
        side.cleared()
        self.assertRaises(Broken, side.told, NominatedSend(Protocol.UDP, HERE, THERE))

    def test_roles(self) -> None:
        greater, lesser = guarantees("a", 2), guarantees("b", 1)
        judge_roles(greater, lesser, False)
        self.assertRaises(Broken, judge_roles, greater, lesser, True)
        lesser.changes = 2
        self.assertRaises(Broken, judge_roles, greater, lesser, False)
        lesser.changes, greater.changes = 1, 1
        self.assertRaises(Broken, judge_roles, greater, lesser, False)


if __name__ == "__main__":
    unittest.main()
