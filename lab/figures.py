"""Statistics of many sessions: a table, and CSV."""

from __future__ import annotations

import csv
import math
from collections import Counter
from collections.abc import Iterable, Sequence
from dataclasses import dataclass, field
from typing import IO

from .clock import MILLISECOND
from .scenario import SIDES
from .session import Outcome


@dataclass
class Figures:
    """The statistics of one scenario, or of one setting of it. Times are milliseconds."""

    label: str
    sessions: int = 0
    connected: int = 0
    symmetric: int = 0
    role_changes: int = 0
    first: list[float] = field(default_factory=list)  # when both had selected a pair
    last: list[float] = field(default_factory=list)
    lost: list[float] = field(default_factory=list)  # when side A disconnected
    left: list[float] = field(default_factory=list)  # when its state left Connected or Completed
    packets: dict[str, list[int]] = field(default_factory=lambda: {side: [] for side in SIDES})
    bytes: dict[str, list[int]] = field(default_factory=lambda: {side: [] for side in SIDES})
    kinds: Counter[str] = field(default_factory=Counter)

    def add(self, outcome: Outcome) -> None:
        """Adds a session."""
        self.sessions += 1
        self.connected += outcome.connected
        self.symmetric += outcome.symmetric
        self.role_changes += any(side.role_changes for side in outcome.sides.values())
        for times, time in ((self.first, outcome.first), (self.last, outcome.last), (self.lost, outcome.sides["a"].lost_at),
                            (self.left, outcome.sides["a"].left_at)):
            if time is not None:
                times.append(time / MILLISECOND)
        for name, side in outcome.sides.items():
            self.packets[name].append(side.packets)
            self.bytes[name].append(side.bytes)
        if outcome.connected:
            self.kinds["/".join(sorted({side.kind for side in outcome.sides.values()}))] += 1


def quantile(values: Sequence[float], share: float) -> float | None:
    """Returns a quantile: the least value that this share of the values does not exceed."""
    if not values:
        return None
    ordered = sorted(values)
    return ordered[max(0, math.ceil(share * len(ordered) - 1e-9) - 1)]


def gather(outcomes: Iterable[Outcome], into: dict[str, Figures] | None = None) -> dict[str, Figures]:
    """Collects statistics by scenario."""
    figures = {} if into is None else into
    for outcome in outcomes:
        figures.setdefault(outcome.scenario, Figures(outcome.scenario)).add(outcome)
    return figures


COLUMNS = ("scenario", "sessions", "connected %", "symmetric %", "first: median ms", "95 %", "99 %", "last: median ms", "95 %", "99 %",
           "packets A", "packets B", "bytes A", "bytes B", "role changed %", "paths")


def row(f: Figures) -> list[str]:
    """Returns a row of the table. Packets and bytes are medians of a side, up to its last selected pair."""
    def share(count: int) -> str:
        return f"{100 * count / f.sessions:.1f}" if f.sessions else "-"

    def told(values: Sequence[float], at: float) -> str:
        value = quantile(values, at)
        return "-" if value is None else f"{value:.0f}"

    times = [told(values, at) for values in (f.first, f.last) for at in (0.5, 0.95, 0.99)]
    work = [told(values[side], 0.5) for values in (f.packets, f.bytes) for side in SIDES]
    kinds = ", ".join(f"{kind} {100 * count / f.connected:.0f} %" for kind, count in f.kinds.most_common()) or "-"
    return [f.label, str(f.sessions), share(f.connected), share(f.symmetric), *times, *work, share(f.role_changes), kinds]


def table(figures: Iterable[Figures]) -> str:
    """Returns a Markdown table."""
    return aligned([list(COLUMNS), *(row(f) for f in figures)])


def aligned(rows: Sequence[Sequence[str]]) -> str:
    """Returns a Markdown table of rows, the first of which is the head."""
    widths = [max(len(r[i]) for r in rows) for i in range(len(rows[0]))]
    lines = ["| " + " | ".join(cell.ljust(width) for cell, width in zip(r, widths)) + " |" for r in rows]
    lines.insert(1, "|" + "|".join("-" * (width + 2) for width in widths) + "|")
    return "\n".join(lines)


CSV_COLUMNS = ("scenario", "seed", "connected", "symmetric", "seconds", *(
    f"{side}_{what}" for side in SIDES
    for what in ("first_ns", "last_ns", "packets", "bytes", "kind", "controlling", "role_changes", "lost_ns")))


def write_csv(outcomes: Iterable[Outcome], stream: IO[str]) -> Iterable[Outcome]:
    """Writes a row for each session, and passes the session on."""
    writer = csv.writer(stream, lineterminator="\n")
    writer.writerow(CSV_COLUMNS)
    for o in outcomes:
        cells: list[object] = [o.scenario, o.seed, int(o.connected), int(o.symmetric), f"{o.seconds:.3f}"]
        for side in SIDES:
            s = o.sides[side]
            cells += [s.first, s.last, s.packets, s.bytes, s.kind, int(s.controlling), s.role_changes, s.lost_at]
        writer.writerow("" if cell is None else cell for cell in cells)
        yield o
