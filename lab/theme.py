"""What all pictures share: their width, their title, and their colors, of which each has another one in dark mode."""

from __future__ import annotations

import re
from collections.abc import Sequence
from xml.sax.saxutils import escape

# As wide as GitHub shows a picture of a document: a wider one is made smaller, with its text.
WIDTH = 830
# The least size of a text.
SIZE = 11
# A color of a picture, and the same one on a dark ground.
DARK = {
    "#ffffff": "#0d1117", "#222222": "#e6edf3", "#555555": "#b1bac4", "#666666": "#a5aeb8", "#999999": "#6e7681", "#bdbdbd": "#8b949e",
    "#e0e0e0": "#30363d", "#1f77b4": "#58a6ff", "#6a3d9a": "#bc8cff", "#2c8a2c": "#56d364", "#d62728": "#ff7b72", "#8a5a00": "#e3b341",
    "#2b7a1f": "#7ee787", "#1b8a3a": "#3fb950", "#08519c": "#79c0ff", "#2ca02c": "#56d364", "#9467bd": "#bc8cff", "#8c564b": "#c49c94",
    "#9ecae1": "#2f6da3", "#2171b5": "#58a6ff", "#08306b": "#cae8ff", "#fdae6b": "#a5531f", "#d94801": "#ff8c42", "#7f2704": "#ffd2a8",
    "#a1d99b": "#2f7d3b", "#238b45": "#56d364", "#00441b": "#c6f6cf", "#7f7f7f": "#a5aeb8", "#393b79": "#a5a8ee", "#637939": "#b5cf6b",
    "#843c39": "#e7969c", "#7b4173": "#de9ed6",
}


def _style(body: str) -> str:
    """Returns the rules of dark mode for the colors that the picture has."""
    used = sorted({(name, color) for name, color in re.findall(r'(fill|stroke)="(#\w{6})"', body) if color in DARK})
    rules = "".join(f'[{name}="{color}"]{{{name}:{DARK[color]}}}' for name, color in used)
    return f"<style>@media (prefers-color-scheme:dark){{{rules}}}</style>"


def picture(title: str, height: float, lines: Sequence[str]) -> str:
    """Returns a picture with its title on its ground."""
    ground = f'<rect width="{WIDTH}" height="{height:.0f}" fill="#ffffff"/>'
    body = "\n".join([ground, text(WIDTH / 2, 24, title, "middle", "#222222", 'font-size="15" font-weight="bold"'), *lines])
    return (f'<svg xmlns="http://www.w3.org/2000/svg" width="{WIDTH}" height="{height:.0f}" viewBox="0 0 {WIDTH} {height:.0f}" '
            f'font-family="sans-serif" font-size="{SIZE}" role="img">\n<title>{escape(title)}</title>\n{_style(body)}\n{body}\n</svg>\n')


def text(x: float, y: float, words: str, anchor: str, color: str = "#222222", more: str = "") -> str:
    """Returns a text whose base line is at y."""
    return f'<text x="{x:.1f}" y="{y:.1f}" text-anchor="{anchor}" fill="{color}"{" " * bool(more)}{more}>{escape(words)}</text>'
