"""Measures how long agents behind NATs take by either profile, also if the peer starts later."""

from __future__ import annotations

from pathlib import Path

from .figures import aligned, quantile
from .hosts import PROFILES, Cell, Found, filled, measure

# One-way delay in ms, loss in %, and host candidates of each side.
Situation = tuple[int, int, int]
# How much later than the other side the controlling one starts, in ms, and which situations are measured then.
LATE: dict[int, tuple[Situation, ...]] = {
    0: ((20, 0, 1), (20, 0, 5), (20, 0, 20), (100, 0, 1), (100, 0, 20), (300, 0, 1), (300, 0, 20), (50, 10, 5), (20, 30, 1), (20, 30, 5),
        (50, 30, 1), (50, 30, 5), (100, 30, 1), (100, 30, 10), (300, 30, 1), (300, 30, 5)),
    **{late: ((20, 0, 1), (20, 0, 5), (20, 0, 20), (100, 0, 5), (50, 30, 1), (50, 30, 5)) for late in (200, 1700, 5000, 9000)},
}
TITLE = "Median, 95th percentile and worst in ms, and packets"


def cells() -> list[Cell]:
    """Returns all cells."""
    return [Cell(True, *situation, profile, late) for late, situations in LATE.items() for situation in situations for profile in PROFILES]


def told(found: Found) -> str:
    """Returns the text of a cell: the median, the 95th percentile and the worst time, and the median of the packets."""
    times, packets = [quantile(found.times, share) for share in (0.5, 0.95, 1.0)], quantile(found.packets, 0.5)
    if packets is None:
        return "never"
    share = f" ({100 * len(found.times) / found.sessions:.0f} %)" if len(found.times) < found.sessions else ""
    return " / ".join(f"{time:.0f}" for time in times if time is not None) + f"{share}, {packets:.0f}"


def table(found: dict[Cell, Found]) -> str:
    """Returns the table: a row for each situation, and a column for each profile."""
    rows = [["later s", "delay ms", "loss %", "hosts", *PROFILES]]
    for late, situations in LATE.items():
        for situation in situations:
            texts = [told(found[Cell(True, *situation, profile, late)]) for profile in PROFILES]
            rows.append([f"{late / 1000:g}", *(str(number) for number in situation), *texts])
    return aligned(rows)


def run(count: int, seed: int, processes: int, quiet: bool, document: Path | None) -> None:
    """Runs the sessions of all cells, and prints the table or puts it into a document."""
    made = table(measure(cells(), count, seed, processes, quiet))
    if document is None:
        print(f"{TITLE}:\n\n{made}")
    else:
        document.write_text(filled(document.read_text(encoding="utf-8"), TITLE, made), encoding="utf-8")
