"""Tests pictures: the height of a time, break marks, where labels are, and what a script does not deliver."""

import json
import re
import tempfile
import unittest
from pathlib import Path

from lab import bars, scenario, svg, theme
from lab.labels import Box, box_of
from lab.picture import Arrow, Picture, of_session
from lab.scale import CUT, ROW, Scale
from lab.script import BadScript, of_script
from lab.session import Session, Trace

MS = 10**6
SCRIPT = Path(__file__).resolve().parents[2] / "crates" / "ice_run" / "scripts" / "connect"
TEXT = re.compile(r'<text x="([\d.-]+)" y="([\d.-]+)" text-anchor="(\w+)" fill="[^"]*" font-size="11" paint-order[^>]*>([^<]*)<')


def check(number: int, start: int, end: int, lanes: str = "AB") -> Arrow:
    return Arrow(f"check {number}", "check", [(start, lanes[0]), (end, lanes[1])])


def boxes(drawn: str) -> list[tuple[str, Box]]:
    """Returns the texts between the lanes of a drawn picture, with their places."""
    return [(text, box_of(text, float(x), float(y) - 4, anchor)) for x, y, anchor, text in TEXT.findall(drawn)]


def traced(name: str, seed: int) -> Picture:
    chosen, trace = scenario.load(name), Trace()
    Session(chosen, seed, trace).run()
    return of_session(chosen, trace)


class Scales(unittest.TestCase):
    def test_time_is_linear_and_a_long_wait_is_cut(self) -> None:
        arrows = [check(1, 0, 20 * MS), check(2, 60 * MS, 70 * MS), check(3, 1070 * MS, 1090 * MS)]
        scale = Scale(Picture("", ["A", "B"], arrows), 0)
        self.assertAlmostEqual(scale.at(60 * MS) - scale.at(0), 3 * (scale.at(20 * MS) - scale.at(0)))
        self.assertEqual([(below - above, wait) for above, below, wait in scale.cuts], [(CUT, 1000 * MS)])

    def test_flags_of_a_lane_have_rows_of_their_own(self) -> None:
        flags = [(0, "A", "one"), (0, "A", "two"), (0, "A", "three"), (5 * MS, "A", "four"), (6 * MS, "B", "five")]
        scale = Scale(Picture("", ["A", "B"], flags=flags), 0)
        self.assertGreaterEqual(scale.at(5 * MS) - scale.at(0), 3 * ROW)


class Labels(unittest.TestCase):
    def overlaps(self, picture: Picture) -> list[tuple[str, str]]:
        texts = boxes(svg.draw(picture))
        self.assertGreaterEqual(len(texts), len(picture.arrows))
        return [(a, b) for n, (a, one) in enumerate(texts) for b, two in texts[:n] if one.overlaps(two)]

    def test_a_label_is_at_a_quarter_of_its_arrow(self) -> None:
        picture = Picture("", ["A", "B"], [check(1, 0, 40 * MS)])
        (_, box), = boxes(svg.draw(picture))
        left, right = svg.lanes_of(picture).values()
        self.assertAlmostEqual((box.left + box.right) / 2, left + (right - left) / 4, places=1)

    def test_no_label_is_over_another(self) -> None:
        crossing = [check(n, n * 3 * MS, n * 3 * MS + 30 * MS, "AB" if n % 2 else "BA") for n in range(30)]
        self.assertEqual(self.overlaps(Picture("", ["A", "B"], crossing)), [])
        self.assertEqual(self.overlaps(Picture("", ["A", "B"], [check(1, 0, 9 * MS), check(2, 0, 9 * MS)])), [])

    def test_no_label_is_over_another_in_any_scenario(self) -> None:
        for name in scenario.names():
            with self.subTest(scenario=name):
                self.assertEqual(self.overlaps(traced(name, 1)), [])

    def test_an_arrow_has_one_time(self) -> None:
        drawn = svg.draw(Picture("", ["A", "R", "B"], [Arrow("check 1", "check", [(0, "A"), (9 * MS, "R"), (30 * MS, "B")])]))
        self.assertEqual(re.findall(r">([\d.]+ ms)<", drawn), ["0.0 ms"])


class Executions(unittest.TestCase):
    def bows(self, *arrows: Arrow) -> int:
        return len(re.findall(r"<path d=\"M[^\"]* A5", svg.draw(Picture("", ["A", "wifi", "mobile", "B"], list(arrows)))))

    def test_an_arrow_has_a_bow_over_what_it_does_not_pass(self) -> None:
        by_mobile = Arrow("check 1", "check", [(0, "A"), (9 * MS, "mobile"), (30 * MS, "B")])
        by_both = Arrow("check 2", "check", [(0, "B"), (9 * MS, "mobile"), (20 * MS, "wifi"), (30 * MS, "A")])
        self.assertEqual((self.bows(by_mobile), self.bows(by_both)), (1, 0))


class Themes(unittest.TestCase):
    def test_pictures_are_as_wide_as_they_are_shown_and_have_a_title(self) -> None:
        folder = Path(__file__).resolve().parents[2] / "docs" / "sessions"
        for path in sorted(folder.glob("*.svg")):
            with self.subTest(picture=path.name):
                drawn = path.read_text(encoding="utf-8")
                self.assertLessEqual(int(re.findall(r'<svg [^>]*width="(\d+)"', drawn)[0]), theme.WIDTH)
                self.assertGreaterEqual(min(map(int, re.findall(r'font-size="(\d+)"', drawn))), theme.SIZE)
                self.assertRegex(drawn, "<title>[^<]+</title>")

    def test_each_color_of_a_text_has_another_one_in_dark_mode(self) -> None:
        words = {*svg.WORDS.values(), *svg.COLORS.values(), svg.LOST, svg.PALE, svg.UNDELIVERED}
        self.assertEqual(words - set(theme.DARK), set())


class Words(unittest.TestCase):
    def test_what_a_script_does_not_deliver_is_not_lost(self) -> None:
        drawn = svg.draw(of_script(SCRIPT, SCRIPT.with_name("connect.out")))
        self.assertIn(">not delivered<", drawn)
        self.assertNotIn("lost", drawn)
        self.assertIn(">check 3, USE-CANDIDATE<", drawn)
        self.assertIn(">discovered 10.0.0.2:2000<", drawn)

    def test_a_script_after_whose_lines_nothing_is_polled(self) -> None:
        """Each call prints its result alone, until a poll; then the picture has the packets that it returned, at its time."""
        calls = [dict(json.loads(line)) for line in SCRIPT.read_text(encoding="utf-8").splitlines() if line]
        lines = SCRIPT.with_name("connect.out").read_text(encoding="utf-8").splitlines()
        first = next(place for place, call in enumerate(calls) if call["call"] == "timeout")
        at = next(place for place, line in enumerate(lines) if line == "A timeout ok")
        sent, events = lines[at + 1], lines[at + 2:at + 4]
        calls[first]["polls"] = False
        waits = [{"call": "poll", "on": "A", "what": what} for what in ("transmit", "event", "event", "timeout", "event")]
        printed = ["A timeout ok"] + [line for polled in (sent, *events, lines[at + 4]) for line in ("A poll ok", polled)] + ["A poll none"]
        with tempfile.TemporaryDirectory() as folder:
            script, output = Path(folder) / "script", Path(folder) / "out"
            script.write_text("\n".join(json.dumps(call) for call in [*calls[:first + 1], *waits, *calls[first + 1:]]), encoding="utf-8")
            output.write_text("\n".join([*lines[:at], *printed, *lines[at + 5:]]), encoding="utf-8")
            drawn = of_script(script, output)
            plain = of_script(SCRIPT, SCRIPT.with_name("connect.out"))
            self.assertEqual((drawn.arrows, drawn.flags, drawn.states), (plain.arrows, plain.flags, plain.states))
            output.write_text("\n".join(lines[:at]), encoding="utf-8")
            self.assertRaisesRegex(BadScript, "calls, but the script has", of_script, script, output)
            output.write_text("A wake none\n", encoding="utf-8")
            self.assertRaisesRegex(BadScript, "not with the result of a call", of_script, script, output)
            output.write_text("\n".join(["A mtu ok"] * (len(calls) + len(waits))), encoding="utf-8")
            self.assertRaisesRegex(BadScript, "is not the output of", of_script, script, output)


class Bars(unittest.TestCase):
    def test_the_axis_is_logarithmic_and_includes_all(self) -> None:
        rows = [bars.Bar("slow", (5.0, 6.0, 9.0)), bars.Bar("none", None), bars.Bar("quick", (0.2, 0.3, 0.4))]
        self.assertEqual(bars.limits(rows), (0.1, 10.0))
        with tempfile.TemporaryDirectory() as folder:
            bars.write(path := Path(folder) / "bars.svg", "", "", bars.by_median(rows), own=True)
            drawn = path.read_text(encoding="utf-8")
        labels = [text for text in re.findall(r">([^<]+)<", drawn) if text in ("slow", "quick", "none", bars.NONE)]
        self.assertEqual(labels, ["quick", "slow", "none", bars.NONE])
        self.assertIn("5.00 / 6.00 / 9.00 s", drawn)


if __name__ == "__main__":
    unittest.main()
