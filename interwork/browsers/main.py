"""Runs the cases of the agent with browsers and with aiortc, and compares how they come out with what is expected.

Each browser runs by itself, and its sessions one after another, except for those that mostly wait. A case is too slow if the median of its
sessions, of at least four, is more than three times that in RESULTS.md. The last line is "N as expected, M not, K skipped"; the status is 0
if M is 0.
"""

from __future__ import annotations

import argparse
import asyncio
import collections
import importlib.metadata
import importlib.util
import re
import statistics
import sys
from dataclasses import dataclass, field
from pathlib import Path
from typing import Any

HERE = Path(__file__).resolve().parent
sys.path[:0] = [str(HERE), str(HERE.parent.parent / "python")]

BROWSERS = ("chromium", "firefox")
_AIORTC = "aiortc"
_SLOW = 3  # times the median of RESULTS.md
_NOISE = 150.0  # ms: no limit is less
_FEW = 4  # sessions: the median of fewer is not judged


@dataclass
class Row:
    """A case with its result. `skipped` says why it was not run."""

    subject: str
    name: str
    expected: str
    sessions: int = 0
    words: collections.Counter[str] = field(default_factory=collections.Counter)
    ms: dict[str, list[float]] = field(default_factory=lambda: collections.defaultdict(list))
    skipped: str = ""
    limits: dict[str, float] = field(default_factory=dict)  # the greatest median of each side, in ms

    @property
    def slow(self) -> list[str]:
        """The sides whose median is greater than their limit."""
        medians = {who: statistics.median(all_) for who, all_ in self.ms.items() if len(all_) >= _FEW}
        return [f"{who} more than {self.limits[who]:.0f} ms" for who, ms in medians.items() if ms > self.limits.get(who, ms)]

    @property
    def good(self) -> int:
        """How many sessions came out as expected."""
        return sum(count for word, count in self.words.items() if word in self.expected.split(" or "))

    @property
    def verdict(self) -> str:
        """As expected, not, or skipped."""
        if self.skipped:
            return f"skipped: {self.skipped}"
        if self.good == self.sessions and not self.slow:
            return "as expected"
        return ", ".join(["NOT as expected", *self.slow])

    def cells(self) -> list[str]:
        """The row of a table."""
        came = ", ".join(f"{count} {word}" for word, count in self.words.most_common()) or "-"
        times = ", ".join(f"{who} {statistics.median(all_):.0f}" for who, all_ in self.ms.items()) or "-"
        count = "-" if self.skipped else f"{self.good} of {self.sessions}"
        return [self.subject, self.name, self.expected, count, came, times, self.verdict]


HEAD = ["with", "case", "expected", "sessions", "came out", "median ms", "verdict"]


def read_limits(text: str) -> dict[tuple[str, str], dict[str, float]]:
    """Returns the limits that follow from such a table, by the first word of the subject and the case."""
    rows = [[cell.strip() for cell in line.strip("|").split("|")] for line in text.splitlines() if line.startswith("| ")]
    medians = {(cells[0].split(" ")[0], cells[1]): re.findall(r"([a-z][a-z ]*) (\d+)", cells[5])
               for cells in rows if len(cells) == len(HEAD)}
    return {case: {who: max(_SLOW * float(ms), _NOISE) for who, ms in found} for case, found in medians.items()}


def _has(module: str) -> bool:
    return importlib.util.find_spec(module) is not None


class Run:
    """Runs cases, and keeps their rows."""

    def __init__(self, options: argparse.Namespace) -> None:
        self.options = options
        self.rows: list[Row] = []
        self.limits = {} if options.busy else read_limits((HERE / "RESULTS.md").read_text())

    def _is_chosen(self, case: Any) -> bool:
        patterns = self.options.case
        return not patterns or any(pattern in case.name for pattern in patterns)

    def _count(self, case: Any) -> int:
        most: int = case.quick if self.options.quick else case.sessions
        return min(self.options.sessions or most, most)

    def _row(self, subject: str, case: Any, skipped: str = "") -> Row:
        limits = self.limits.get((subject.split(" ")[0], case.name), {})
        row = Row(subject, case.name, " or ".join(case.expected), self._count(case), skipped=skipped, limits=limits)
        self.rows.append(row)
        return row

    def _why_not(self, case: Any) -> str:
        import relays
        import session
        if case.aiortc and not _has(_AIORTC):
            return "python3-aiortc is not installed"
        if case.relays and (why := relays.why_not()):
            return why
        if not self._count(case):
            return "too long for --quick"
        versions = (False, True) if case.both else (case.ipv6,)
        if not case.aiortc and None in map(session.local_address, versions):
            return "the machine has no address of this IP version"
        return ""

    async def _one(self, browser: Any, case: Any, number: int, row: Row) -> None:
        try:
            outcome = await asyncio.wait_for(case.play(browser, number), 150)
        except Exception as error:
            row.words[f"error {error!r}"[:120]] += 1
            return
        row.words[outcome.word] += 1
        for who, ms in outcome.ms.items():
            row.ms[who].append(ms)

    async def _play(self, browser: Any, case: Any, row: Row) -> None:
        sessions = [self._one(browser, case, number, row) for number in range(row.sessions)]
        if case.waits:
            await asyncio.gather(*sessions)
        else:
            for one in sessions:
                await one
        self._print(row)

    def _print(self, row: Row) -> None:
        print(" | ".join(row.cells()), flush=True)

    async def _cases(self, subject: str, browser: Any, cases: list[Any]) -> None:
        waiting = []
        for case in cases:
            reason = self._why_not(case)
            row = self._row(subject, case, reason)
            if reason:
                self._print(row)
            elif case.waits:
                waiting.append(self._play(browser, case, row))
            else:
                await self._play(browser, case, row)
        await asyncio.gather(*waiting)

    async def browser(self, name: str) -> None:
        """Runs the cases with a browser: one without mDNS names, one with them, and one whose page captures sound."""
        import cases
        kind = getattr(importlib.import_module(name), name.capitalize())
        chosen = [case for case in cases.WITH_BROWSER if self._is_chosen(case) and case.only in ("", name)]
        if missing := kind.missing():
            for case in chosen:
                self._print(self._row(name, case, f"{missing} is not installed"))
            return
        for mdns, capture in ((False, False), (True, False), (False, True)):
            part = [case for case in chosen if (case.mdns, case.capture) == (mdns, capture)]
            if not part:
                continue
            try:
                async with kind(mdns, capture=capture) as browser:
                    await self._cases(browser.version, browser, part)
            except Exception as error:
                print(f"{name}: {error!r}", flush=True)
                for case in part:
                    if not any(row.name == case.name and row.subject.lower().startswith(name) for row in self.rows):
                        self._row(name, case)  # its sessions did not run, so it is not as expected

    async def aiortc(self) -> None:
        """Runs the cases of aiortc with itself."""
        import cases
        subject = f"aiortc {importlib.metadata.version(_AIORTC)}" if _has(_AIORTC) else _AIORTC
        await self._cases(subject, None, [case for case in cases.AIORTC_WITH_ITSELF if self._is_chosen(case)])

    def write(self, path: str) -> None:
        """Writes the rows as a Markdown table."""
        lines = ["| " + " | ".join(HEAD) + " |", "|" + "---|" * len(HEAD)]
        lines += ["| " + " | ".join(row.cells()) + " |" for row in self.rows]
        Path(path).write_text("\n".join(lines) + "\n")

    def end(self) -> int:
        """Prints the last line, and returns the status."""
        skipped = sum(bool(row.skipped) for row in self.rows)
        good = sum(row.verdict == "as expected" for row in self.rows)
        missed = len(self.rows) - skipped - good
        print(f"{good} as expected, {missed} not, {skipped} skipped")
        return 1 if missed else 0


def _options() -> argparse.Namespace:
    parser = argparse.ArgumentParser(prog="run", description=__doc__)
    parser.add_argument("--quick", action="store_true", help="two sessions a case, and none that takes long")
    parser.add_argument("--busy", action="store_true", help="times are not judged: the machine does other work")
    parser.add_argument("-w", "--with", dest="subjects", action="append", choices=[*BROWSERS, _AIORTC], help="only with this one")
    parser.add_argument("-n", "--sessions", type=int, help="at most so many sessions a case")
    parser.add_argument("--table", metavar="FILE", help="write a Markdown table too")
    parser.add_argument("case", nargs="*", help="part of the name of a case; without it all cases run")
    return parser.parse_args()


async def main() -> int:
    """Runs what is chosen and installed."""
    options = _options()
    run = Run(options)
    subjects = options.subjects or [_AIORTC, *BROWSERS]
    print(" | ".join(HEAD), flush=True)
    try:
        for subject in subjects:
            await (run.aiortc() if subject == _AIORTC else run.browser(subject))
    finally:
        import relays
        relays.stop()
    if options.table:
        run.write(options.table)
    return run.end()


if __name__ == "__main__":
    sys.exit(asyncio.run(main()))
