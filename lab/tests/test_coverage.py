"""Tests what `lab/run coverage` prints, and on sessions that the model foresees what the agents do."""

import unittest
from dataclasses import replace

from is_ice import IceConnectionState, IceConnectionStateChange
from lab import scenario
from lab.coverage import CLAUSES, Covered, Play, gather, tables, verdicts_of
from lab.replay import replay
from lab.tests.stories import Story


class Sessions(unittest.TestCase):
    def test_the_model_foresees_what_the_agents_do(self) -> None:
        for name in scenario.names():
            with self.subTest(scenario=name):
                found = Play(0)((scenario.load(name), range(1)))
                assert isinstance(found, list)
                self.assertEqual(found[0].differences, ())
                compares = name != "lite_server"  # there a lite agent keeps its role, whatever the tie-breakers are
                self.assertEqual(found[0].connected and compares, found[0].verdicts["meet"].held)

    def test_how_long_a_session_goes_on(self) -> None:
        homes, hosts = scenario.load("two_homes"), scenario.load("many_hosts")
        found = [(s.settle_s, s.seconds) for play, made in ((Play(), homes), (Play(), hosts), (Play(1), hosts), (Play(30), homes))
                 for s in (play.prolonged(made),)]
        self.assertEqual(found, [(12, 40), (40, 80), (1, 20), (30, 60)])

    def test_a_difference_is_found(self) -> None:
        story = Story()
        story.timeout("a", 0)
        at = next(at for at, entry in enumerate(story.log.entries) if entry.call == "poll_timeout")
        story.log.entries[at] = replace(story.log.entries[at], returned=0)
        self.assertEqual(len(replay(story.log).differences), 1)

    def test_a_difference_of_states_is_found(self) -> None:
        story = Story()
        story.timeout("a", 0)
        assert story.log.entries[-1].call == "poll_event"
        story.log.entries[-1] = replace(story.log.entries[-1], returned=IceConnectionStateChange(IceConnectionState.CONNECTED))
        self.assertEqual(len(replay(story.log).differences), 1)


class Tables(unittest.TestCase):
    def test_the_tables(self) -> None:
        story = Story()
        story.deliver(story.timeout("a", 0), "b", 5)
        verdicts, _ = verdicts_of(story.log)
        self.assertEqual(set(verdicts), set(CLAUSES))
        told = gather([Covered("x", 0, True, verdicts), Covered("x", 1, False, verdicts)])["x"]
        covered = [told.shares[clause].covered for clause in ("meet", "nomination_accepted")]
        self.assertEqual((told.sessions, told.connected, *covered), (2, 1, 1, 0))
        self.assertEqual((told.shares["meet"].bound, told.shares["meet"].fact), ([5.0], [0.0]))
        self.assertIn("IsAskedOver.handed", tables([told]))


if __name__ == "__main__":
    unittest.main()
