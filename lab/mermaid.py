"""Writes a picture as a Mermaid sequence diagram."""

from __future__ import annotations

from .picture import Arrow, Picture
from .svg import time_text


def text_of(picture: Picture) -> str:
    """Returns the diagram: packets in the order of their arrival, those that do not arrive at their end."""
    names = {lane: f"L{n}" for n, lane in enumerate(picture.lanes)}
    lines = ["sequenceDiagram", *(f"  participant {name} as {lane}" for lane, name in names.items())]
    happenings: list[tuple[int, int, str]] = []
    for arrow in picture.arrows:
        happenings += [(time, 0, line) for time, line in _legs(arrow, names)]
    for time, lane, text in picture.flags:
        happenings.append((time, 1, f"  Note over {names[lane]}: {time_text(time)} {_clean(text)}"))
    lines += [line for _, _, line in sorted(happenings, key=lambda h: h[:2])]
    return "\n".join(lines) + "\n"


def _legs(arrow: Arrow, names: dict[str, str]) -> list[tuple[int, str]]:
    legs = []
    for (_, here), (time, there) in zip(arrow.stops, arrow.stops[1:]):
        legs.append((time, f"  {names[here]}->>{names[there]}: {_clean(arrow.text)}"))
    if arrow.is_cut:
        time, here = arrow.stops[-1]
        legs.append((time, f"  {names[here]}-x{names[arrow.toward or here]}: {_clean(arrow.text)} ({_clean(arrow.end)})"))
    return legs


def _clean(text: str) -> str:
    return text.replace(";", ",").replace("#", "")
