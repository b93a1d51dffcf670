"""Tests sessions of agents with many host candidates, and the tables and curves of them."""

import unittest

from lab import hosts, plot
from lab.clock import MILLISECOND
from lab.hosts import DELAYS, GATHERED_MS, HOSTS, Cell, Found, cells, curves, filled, table
from lab.session import Outcome, Session, SideOutcome


def outcome(milliseconds: int | None) -> Outcome:
    first = None if milliseconds is None else (GATHERED_MS + milliseconds) * MILLISECOND
    return Outcome("x", 0, {side: SideOutcome(first) for side in "ab"}, None if first is None else 7)


class Sessions(unittest.TestCase):
    def time(self, hosts: int, profile: str, late: int = 0, delay: int = 20) -> float | None:
        first = Session(Cell(True, delay, 0, hosts, profile, late).scenario(), 0).run().first
        return None if first is None else first / MILLISECOND - GATHERED_MS

    def test_ten_hosts_connect_soon(self) -> None:
        # The second check, after 10 ms, is that of the server-reflexive candidates. The response comes after 50 ms, and brings A's next
        # timeout forward to 5 ms after the last one. There A nominates the pair. B receives that 20 ms later, and selects at once.
        for count in (5, 10, 20):
            time = self.time(count, "modern")
            assert time is not None
            self.assertTrue(70 <= time < 75, (count, time))

    def test_no_cell_without_loss_takes_17_ms_more_than_three_packets(self) -> None:
        """A check, its response, and the check that nominates: the limit in docs/SESSIONS.md."""
        for has_nat in (True, False):
            for delay in DELAYS:
                for count in HOSTS:
                    first = Session(Cell(has_nat, delay, 0, count, "modern").scenario(), 0).run().first
                    assert first is not None
                    self.assertLess(first / MILLISECOND - GATHERED_MS, 3 * delay + 17, (has_nat, delay, count))

    def test_a_peer_that_starts_later(self) -> None:
        # A's check of the server-reflexive candidate opens its NAT. B receives it 20 ms later, and checks its pair in the next two
        # timeouts, although that may be due 350 ms later.
        for late in (200, 1700, 5000, 9000):
            time = self.time(5, "modern", late)
            assert time is not None
            self.assertTrue(late < time < late + 250, (late, time))

    def test_with_the_original_profile_such_a_peer_waits_longer(self) -> None:
        # B's first check of A's server-reflexive candidate comes after 50 ms. The delays after it are 250, 500, 1000, 2000 and 3000 ms, so
        # the fifth check comes before A's first one and the sixth after 6.8 s. Its response comes 40 ms later.
        time = self.time(1, "original", 5000)
        assert time is not None
        self.assertTrue(6840 <= time < 6850, time)

    def test_with_the_original_profile_five_take_long_and_ten_never_connect(self) -> None:
        time = self.time(5, "original")
        assert time is not None
        self.assertGreater(time, 25 * 50)  # the pairs of host candidates come first
        self.assertIsNone(self.time(10, "original"))  # the hundred of them leave no room

    def test_both_profiles_have_the_same_networks(self) -> None:
        own, other = (Cell(False, 50, 10, 5, profile).scenario() for profile in ("modern", "original"))
        self.assertEqual((own.name, own.network, own.link, own.nat), (other.name, other.network, other.link, ()))
        made = [(s.a.profile, s.b.profile, len(s.a.interface), s.network["internet"]) for s in (own, other)]
        self.assertEqual(made, [("modern", "modern", 5, 50), ("original", "original", 5, 50)])


class Tables(unittest.TestCase):
    def test_columns(self) -> None:
        found = Found()
        self.assertEqual(found.columns(), ["never", "-"])
        for time in (150, 250, 950):
            found.add(outcome(time))
        self.assertEqual(found.columns(), ["250 / 950", "7"])
        found.add(outcome(None))
        self.assertEqual(found.columns(), ["250 / 950 (75 %)", "7"])

    def test_a_row_for_each_delay_loss_and_profile(self) -> None:
        found = {cell: Found() for cell in cells()}
        self.assertEqual(len(found), 192)
        lines = table(found, True).splitlines()
        self.assertEqual((len(lines), len({line.count("|") for line in lines})), (2 + 24, 1))
        self.assertEqual([word.strip() for word in lines[2].split("|")[1:5]], ["20", "0", "60", "modern"])

    def test_a_document_is_filled(self) -> None:
        text = "before\n\nNo NAT:\n\n| a |\n|---|\n|   |\n\nafter\n"
        self.assertEqual(filled(text, "No NAT", "| a |\n|---|\n| 1 |"), text.replace("|   |", "| 1 |"))
        self.assertRaises(ValueError, filled, text, "Other", "")

    def test_curves_end_where_no_session_connects(self) -> None:
        found = {cell: Found() for cell in cells()}
        for cell in found:
            if cell.profile == "modern" or cell.hosts < 10:
                found[cell].add(outcome(150))
        first, second, *_ = made = curves(found)
        self.assertEqual((len(made), first.points), (8, [(hosts, 0.15) for hosts in hosts.HOSTS]))
        self.assertEqual((second.points, second.label), ([(1, 0.15), (5, 0.15)], "20 ms, original, never with 10"))
        self.assertIn("never with 10", plot.svg("", "", "", made))


if __name__ == "__main__":
    unittest.main()
