"""Plots quantiles as dots on a logarithmic axis, by matplotlib if that is installed, else as plain SVG."""

from __future__ import annotations

import math
from collections.abc import Callable, Sequence
from dataclasses import dataclass
from pathlib import Path

from .figures import quantile
from .theme import WIDTH, picture, text as _text

# The shares of sessions of the three dots of a row.
SHARES = (0.5, 0.95, 0.99)
NAMES = ("median", "95 %", "99 %")
COLOR = "#08519c"
ROW, TOP, BOTTOM = 22, 64, 46
# About the width of a letter, and of the figures beside a row.
LETTER, FIGURES = 6.5, 160
NONE = "never"


@dataclass(frozen=True)
class Bar:
    """A row of dots: the median, the 95th and the 99th percentile in seconds, or None if no session has such a time."""

    label: str
    quantiles: Sequence[float] | None


def quantiles(milliseconds: Sequence[float]) -> tuple[float, ...] | None:
    """Returns the quantiles of a row, in seconds, or None if there are no times."""
    values = [quantile(milliseconds, share) for share in SHARES]
    return tuple(value / 1000 for value in values if value is not None) or None


def write(path: Path, title: str, x: str, bars: Sequence[Bar], own: bool = False) -> None:
    """Writes a plot. It is plain SVG if `own` is true or matplotlib is not installed."""
    if not own:
        try:
            _write_by_matplotlib(path, title, x, bars)
            return
        except ImportError:
            pass
    if path.suffix != ".svg":
        raise ValueError(f"{path}: without matplotlib a plot has to be .svg")
    path.write_text(svg(title, x, bars), encoding="utf-8")


def _write_by_matplotlib(path: Path, title: str, x: str, bars: Sequence[Bar]) -> None:
    import matplotlib

    matplotlib.use("Agg")
    matplotlib.rcParams["svg.hashsalt"] = "lab"
    from matplotlib import pyplot

    figure, axes = pyplot.subplots(figsize=(10, 0.32 * len(bars) + 1.4))
    known = [(n, bar.quantiles) for n, bar in enumerate(bars) if bar.quantiles]
    axes.hlines([n for n, _ in known], [q[0] for _, q in known], [q[-1] for _, q in known], color=COLOR, alpha=0.5)
    for part, marker in enumerate("o|d"):
        axes.scatter([q[part] for _, q in known], [n for n, _ in known], color=COLOR, marker=marker, label=NAMES[part])
    axes.set_yticks(range(len(bars)), [bar.label if bar.quantiles else f"{bar.label}: {NONE}" for bar in bars])
    axes.set(title=title, xlabel=x, xscale="log")
    axes.invert_yaxis()
    axes.grid(axis="x", which="both", alpha=0.3)
    axes.legend(loc="lower right", fontsize="small")
    figure.savefig(path, bbox_inches="tight", metadata={"Date": None} if path.suffix == ".svg" else None)
    pyplot.close(figure)


def by_median(bars: Sequence[Bar]) -> list[Bar]:
    """Returns the bars in order, the least median first, and those without times at the end."""
    return sorted(bars, key=lambda bar: (bar.quantiles is None, bar.quantiles))


# ---- plain SVG

def limits(bars: Sequence[Bar]) -> tuple[float, float]:
    """Returns the ends of the axis: marks, the lower one below every median."""
    known = [value for bar in bars for value in bar.quantiles or ()] or [1.0]
    low, high = min(known) / 1.5, max(known)
    return max(mark for mark in _marks(low / 10, low) if mark <= low), min(mark for mark in _marks(high, high * 10) if mark >= high)


def _marks(low: float, high: float) -> list[float]:
    """Returns the marks 1, 2, 5, 10, 20 .. from about the one to about the other."""
    powers = range(math.floor(math.log10(low)) - 1, math.ceil(math.log10(high)) + 2)
    return [step * 10.0 ** power for power in powers for step in (1, 2, 5)]


def svg(title: str, x: str, bars: Sequence[Bar]) -> str:
    """Returns a plot whose rows have their figures at the right."""
    low, high = limits(bars)
    left = 20 + LETTER * max((len(bar.label) for bar in bars), default=1)
    right, bottom = WIDTH - FIGURES, TOP + ROW * len(bars)

    def at(value: float) -> float:
        return left + (right - left) * math.log(value / low) / math.log(high / low)

    lines, free = [], 0.0
    for mark in (m for m in _marks(low, high) if low * 0.999 <= m <= high * 1.001):
        lines.append(f'<line x1="{at(mark):.1f}" y1="{TOP - 6}" x2="{at(mark):.1f}" y2="{bottom}" stroke="#e0e0e0"/>')
        if at(mark) > free:
            lines.append(_text(at(mark), bottom + 16, f"{mark:g}", "middle"))
            free = at(mark) + LETTER * len(f"{mark:g}") + 6
    lines.append(_text((left + right) / 2, bottom + 36, x, "middle"))
    lines += _legend(20)
    lines.append(_text(right + 12, TOP - 12, " / ".join(NAMES), "start"))
    for row, bar in enumerate(bars):
        lines += _row(bar, TOP + ROW * (row + 0.5), left, right, at)
    return picture(title, bottom + BOTTOM, lines)


def _row(bar: Bar, y: float, left: float, right: float, at: Callable[[float], float]) -> list[str]:
    lines = [_text(left - 8, y + 4, bar.label, "end")]
    if bar.quantiles is None:
        return [*lines, _text(left + 8, y + 4, NONE, "start", "#222222", 'font-style="italic"')]
    places = [at(value) for value in bar.quantiles]
    lines.append(f'<line x1="{places[0]:.1f}" y1="{y}" x2="{places[-1]:.1f}" y2="{y}" stroke="{COLOR}" stroke-opacity="0.5"/>')
    lines += [line for number, place in reversed(list(enumerate(places))) for line in [_dot(number, place, y)]]
    figures = " / ".join(f"{value:.2f}" for value in bar.quantiles)
    return [*lines, _text(right + 12, y + 4, f"{figures} s", "start")]


def _dot(number: int, x: float, y: float) -> str:
    """Draws a quantile: the median as a full dot, the next one as a stroke, the last one as a ring."""
    if number == 1:
        return f'<line x1="{x:.1f}" y1="{y - 6}" x2="{x:.1f}" y2="{y + 6}" stroke="{COLOR}" stroke-width="2.5"/>'
    fill = COLOR if number == 0 else "#ffffff"
    return f'<circle cx="{x:.1f}" cy="{y}" r="4.5" fill="{fill}" stroke="{COLOR}" stroke-width="1.5"/>'


def _legend(left: float) -> list[str]:
    lines, x = [], left
    for number, name in enumerate(("median", "95th percentile", "99th percentile")):
        lines += [_dot(number, x + 6, TOP - 18), _text(x + 17, TOP - 14, name, "start")]
        x += 36 + LETTER * len(name)
    return lines
