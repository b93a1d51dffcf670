"""Plots by matplotlib if that is installed, else as plain SVG."""

from __future__ import annotations

from collections.abc import Sequence
from dataclasses import dataclass
from pathlib import Path

from .theme import WIDTH, picture, text as _text

COLORS = ("#1f77b4", "#d62728", "#2ca02c", "#9467bd", "#ff7f0e", "#17becf", "#8c564b", "#e377c2", "#7f7f7f", "#bcbd22",
          "#393b79", "#637939", "#843c39", "#7b4173")
HEIGHT = 440
LEFT, TOP, BOTTOM = 56, 40, 48
# About the width of a letter of the legend.
LETTER = 6.5


@dataclass(frozen=True)
class Curve:
    """A curve, with its points from left to right. `dashed` distinguishes it from another one of its color."""

    label: str
    points: Sequence[tuple[float, float]]
    dashed: bool = False
    color: str | None = None


def share_over_time(label: str, times: Sequence[float], sessions: int, end: float, color: str | None = None) -> Curve:
    """Returns the curve over seconds of the share of sessions, in per cent, whose time (in milliseconds) has passed."""
    points = [(0.0, 0.0)]
    for count, time in enumerate(sorted(times), 1):
        points += [(time / 1000, points[-1][1]), (time / 1000, 100 * count / sessions)]
    points.append((end, points[-1][1]))
    return Curve(label, [p for p in points if p[0] <= end], color=color)


def write(path: Path, title: str, x: str, y: str, curves: Sequence[Curve], own: bool = False) -> None:
    """Writes a plot. It is plain SVG if `own` is true or matplotlib is not installed."""
    curves = [Curve(c.label, c.points, c.dashed or n >= len(COLORS), c.color or COLORS[n % len(COLORS)]) for n, c in enumerate(curves)]
    if not own:
        try:
            _write_by_matplotlib(path, title, x, y, curves)
            return
        except ImportError:
            pass
    if path.suffix != ".svg":
        raise ValueError(f"{path}: without matplotlib a plot has to be .svg")
    path.write_text(svg(title, x, y, curves), encoding="utf-8")


def _write_by_matplotlib(path: Path, title: str, x: str, y: str, curves: Sequence[Curve]) -> None:
    import matplotlib

    matplotlib.use("Agg")
    matplotlib.rcParams["svg.hashsalt"] = "lab"
    from matplotlib import pyplot

    figure, axes = pyplot.subplots(figsize=(WIDTH / 100, HEIGHT / 100))
    for curve in curves:
        axes.plot(*zip(*curve.points), label=curve.label, color=curve.color, linestyle="--" if curve.dashed else "-")
    axes.set(title=title, xlabel=x, ylabel=y)
    axes.set_xlim(left=0)
    axes.set_ylim(bottom=0)
    axes.grid(alpha=0.3)
    axes.legend(loc="center left", bbox_to_anchor=(1.01, 0.5), fontsize="small", frameon=False)
    figure.savefig(path, bbox_inches="tight", metadata={"Date": None} if path.suffix == ".svg" else None)
    pyplot.close(figure)


# ---- plain SVG

def ticks(top: float) -> list[float]:
    """Returns five to ten round numbers from 0 to about this one."""
    if top <= 0:
        return [0.0, 1.0]
    step = 1.0
    while step * 10 < top:
        step *= 10
    while step * 5 > top:
        step /= 10
    for factor in (1, 2, 5, 10):
        if top / (step * factor) <= 8:
            step *= factor
            break
    return [n * step for n in range(int(top / step + 1e-9) + 1)]


def svg(title: str, x: str, y: str, curves: Sequence[Curve]) -> str:
    """Returns a plot that starts at 0, with its legend at the right."""
    right = max((p[0] for c in curves for p in c.points), default=1.0) or 1.0
    top = max((p[1] for c in curves for p in c.points), default=1.0) or 1.0
    high = max(HEIGHT - TOP - BOTTOM, 18 * len(curves) + 10)
    wide = WIDTH - LEFT - 46 - LETTER * max((len(c.label) for c in curves), default=0)

    def at(px: float, py: float) -> tuple[float, float]:
        return LEFT + wide * px / right, TOP + high * (1 - py / (top * 1.03))

    lines = []
    for tick in ticks(right):
        px, _ = at(tick, 0)
        lines.append(_line(px, TOP, px, TOP + high, "#e0e0e0"))
        lines.append(_text(px, TOP + high + 18, f"{tick:g}", "middle"))
    for tick in ticks(top):
        _, py = at(0, tick)
        lines.append(_line(LEFT, py, LEFT + wide, py, "#e0e0e0"))
        lines.append(_text(LEFT - 8, py + 4, f"{tick:g}", "end"))
    lines.append(f'<rect x="{LEFT}" y="{TOP}" width="{wide:.1f}" height="{high}" fill="none" stroke="#555555"/>')
    lines.append(_text(LEFT + wide / 2, TOP + high + 38, x, "middle"))
    lines.append(_text(0, 0, y, "middle", "#222222", f'transform="translate(16 {TOP + high / 2:g}) rotate(-90)"'))
    for number, curve in enumerate(curves):
        lines += _curve(curve, [at(*point) for point in curve.points], LEFT + wide + 12, number)
    return picture(title, TOP + high + BOTTOM, lines)


def _curve(curve: Curve, points: Sequence[tuple[float, float]], px: float, number: int) -> list[str]:
    dash = ' stroke-dasharray="6 4"' if curve.dashed else ""
    path = " ".join(f"{px:.1f},{py:.1f}" for px, py in _thinned(points))
    py = TOP + 10 + 18 * number
    return [f'<polyline points="{path}" fill="none" stroke="{curve.color}" stroke-width="1.8"{dash}/>',
            f'<line x1="{px:.1f}" y1="{py}" x2="{px + 22:.1f}" y2="{py}" stroke="{curve.color}" stroke-width="2.4"{dash}/>',
            _text(px + 28, py + 4, curve.label, "start")]


def _thinned(points: Sequence[tuple[float, float]]) -> list[tuple[float, float]]:
    kept: list[tuple[float, float]] = []
    for n, point in enumerate(points):
        is_last = n == len(points) - 1
        if not kept or is_last or abs(point[0] - kept[-1][0]) + abs(point[1] - kept[-1][1]) >= 0.7:
            kept.append(point)
    return kept


def _line(x1: float, y1: float, x2: float, y2: float, color: str) -> str:
    return f'<line x1="{x1:.1f}" y1="{y1:.1f}" x2="{x2:.1f}" y2="{y2:.1f}" stroke="{color}"/>'
