"""Tests how long agents keep a path whose link failed, that a path which is kept too long is detected, and the table."""

import unittest
from dataclasses import replace

from is_ice import IceConnectionState, IceConnectionStateChange, NominatedSend, Protocol, Transmit
from lab.clock import BEGINNING, MILLISECOND, SECOND, nanoseconds
from lab.consent import (CUT_S, SPREAD_S, Cell, Departure, Figures, Found, at_random, cells, departures, fault_of, gather, play, table,
                         timeout)
from lab.log import Entry, Log
from lab.pool import Fault
from lab.tests.stories import A, B, message

CONSENT = timeout()
CONSENT_MS = CONSENT / MILLISECOND


def at(milliseconds: float) -> int:
    return BEGINNING + nanoseconds(milliseconds)


class Sessions(unittest.TestCase):
    def found(self, cell: Cell) -> dict[str, list[Departure]]:
        told = play((cell.scenario(), range(1)))
        assert isinstance(told, list), told
        return {side: [d for d in told[0].departures if d.side == side] for side in "ab"}

    def test_both_directions(self) -> None:
        for side, (left,) in self.found(Cell((1, 2), False, False)).items():
            self.assertTrue(26 * SECOND < left.at - left.answered <= CONSENT + 50 * MILLISECOND, side)

    def test_one_direction(self) -> None:
        # B gives the path up first. A, whose checks get no response, hears B until then, and keeps the path for 15 s more.
        found = self.found(Cell((1, 2), False, True))
        (a,), (b,) = found["a"], found["b"]
        self.assertLessEqual(b.at - b.answered, CONSENT + 50 * MILLISECOND)
        assert a.heard is not None
        self.assertTrue(15 * SECOND <= a.at - a.heard <= 15 * SECOND + 50 * MILLISECOND)
        self.assertTrue(38 * SECOND < a.at - a.answered < 45 * SECOND)

    def test_many_pairs(self) -> None:
        for all_work in (False, True):
            for side, left in self.found(Cell((9, 10), all_work, False)).items():
                self.assertTrue(all(d.at - d.answered <= CONSENT + 50 * MILLISECOND for d in left), side)

    def test_with_the_original_profile_a_path_is_kept_too_long(self) -> None:
        made = Cell((9, 10), False, False).scenario()
        a, b = (replace(made.side(side), profile="original") for side in "ab")
        told = play((replace(made, a=a, b=b, seconds=80, settle_s=80), range(1)))
        assert isinstance(told, Fault)
        self.assertIn("after the end of consent", told.text)

    def test_the_time_of_the_failure_is_random(self) -> None:
        made = Cell((1, 2), True, True).scenario()
        times = [at_random(made, seed).event[0].at_s for seed in range(5)]
        self.assertEqual((times, len(set(times))), ([at_random(made, seed).event[0].at_s for seed in range(5)], 5))
        self.assertTrue(all(CUT_S <= time <= CUT_S + SPREAD_S for time in times))
        self.assertEqual([(e.do, e.side, e.interface) for e in made.event], [("mute", "a", "eth9")])


class Departures(unittest.TestCase):
    def log(self, *more: Entry) -> Log:
        """A's check at 0 is answered at 10, when A selects its path. B checks the path at 20."""
        check, response, request = (message(kind, bytes([n] * 12), {}) for kind, n in (("request", 1), ("success", 1), ("request", 2)))
        entries = [Entry(at(0), "a", "poll_transmit", (), Transmit(Protocol.UDP, A, B, check)),
                   Entry(at(10), "a", "handle_packet", (at(10), B, A, response), True),
                   Entry(at(10), "a", "poll_event", (), NominatedSend(Protocol.UDP, A, B)),
                   Entry(at(20), "a", "handle_packet", (at(20), B, A, request), True)]
        return Log({}, [*entries, *more])

    def test_a_side_is_not_connected_any_more(self) -> None:
        lost = Entry(at(300), "a", "poll_event", (), IceConnectionStateChange(IceConnectionState.DISCONNECTED))
        self.assertEqual(departures(self.log(lost), at(100)), [Departure("a", at(300), at(0), at(20))])
        self.assertEqual(departures(self.log(lost), at(300)), [])
        again = Entry(at(400), "a", "poll_event", (), IceConnectionStateChange(IceConnectionState.DISCONNECTED))
        self.assertEqual(len(departures(self.log(lost, again), at(100))), 1)

    def test_another_path_is_selected(self) -> None:
        same, other = (Entry(at(300), "a", "poll_event", (), NominatedSend(Protocol.UDP, A, B._replace(port=port))) for port in (B.port, 9))
        self.assertEqual(departures(self.log(same), at(100)), [])
        self.assertEqual(departures(self.log(other), at(100)), [Departure("a", at(300), at(0), at(20))])

    def test_dropped_packets_do_not_count(self) -> None:
        log = self.log(Entry(at(300), "a", "poll_event", (), IceConnectionStateChange(IceConnectionState.CHECKING)))
        log.entries[3] = replace(log.entries[3], returned=False)
        self.assertEqual(departures(log, at(100)), [Departure("a", at(300), at(0), None)])

    def test_the_end_of_consent(self) -> None:
        late = CONSENT + 50 * MILLISECOND
        ends = [Departure("a", 0, at(0), heard).end for heard in (None, at(CONSENT_MS - 15_000), at(CONSENT_MS - 14_999))]
        self.assertEqual(ends, [at(0) + late, at(0) + late, at(1) + late])

    def test_faults(self) -> None:
        end = Departure("a", 0, at(0), None).end
        found = [Departure(side, end, at(0), None) for side in "ab"]
        self.assertIsNone(fault_of(found))
        self.assertEqual(fault_of(found[:1]), "b left no path")
        self.assertEqual(fault_of([found[0], replace(found[1], at=end + MILLISECOND)]),
                         f"b left a path {CONSENT_MS / 1000 + 0.051:.3f} s after its last answered check: "
                         "1.000 ms after the end of consent")


class Tables(unittest.TestCase):
    def test_columns(self) -> None:
        end = CONSENT_MS / 1000
        figures = Figures([Departure("a", at(20_000), at(0), None), Departure("a", at(40_000), at(0), at(25_000)),
                           Departure("b", at(CONSENT_MS), at(0), None)])
        self.assertEqual((figures.columns(), figures.columns("b")), (
            [f"{end:.2f} / 40.00", "40.05"], [f"{end:.2f} / {end:.2f}", f"{end + 0.05:.2f}"]))
        self.assertEqual((figures.after_heard("a"), figures.after_heard("b")), ("15.00 / 15.00", "-"))
        self.assertEqual(figures.margin(), 50 * MILLISECOND)

    def test_a_row_for_each_number_of_pairs(self) -> None:
        wanted = cells()
        told = [Found(cell.name, tuple(Departure(side, at(29_000), at(0), at(0)) for side in "ab")) for cell in wanted]
        lines = table(gather(wanted, told)).splitlines()
        self.assertEqual((len(wanted), len(lines), len({line.count("|") for line in lines})), (28, 2 + 14, 1))
        self.assertEqual([[cell.strip() for cell in line.split("|")[1:4]] for line in (lines[3], lines[-1])],
                         [["10", "1", "29.00 / 29.00"], ["100", "100", "29.00 / 29.00"]])


if __name__ == "__main__":
    unittest.main()
