"""Places the texts of arrows: each label at a quarter of its arrow, and no text over another."""

from __future__ import annotations

from dataclasses import dataclass

Point = tuple[float, float]

# Half the height of a label, about the width of its letters, and the space beside a lane.
HALF = 6.5
LETTER = 6.3
ASIDE = 9.0
# How much lower than the end of its arrow a text may be, or higher, the best first.
ASIDES = (0.0, 7.0, -7.0, 11.0, -11.0, 16.0, -16.0, 22.0, -22.0, 29.0, -29.0, 36.0, -36.0, 43.0, -43.0)
# How far over or under its arrow a label may be, if it is free nowhere on it.
BESIDES = (-9.0, 9.0, -15.0, 15.0, -22.0, 22.0, -29.0, 29.0, -36.0, 36.0)
# Where a label may be: as a share of the arrow, the best first.
SHARES = (0.25, 0.30, 0.20, 0.36, 0.14, 0.42, 0.48, 0.55, 0.62, 0.70, 0.78, 0.86)


@dataclass(frozen=True)
class Box:
    """The space of a text."""

    left: float
    top: float
    right: float
    bottom: float

    def overlaps(self, other: Box) -> bool:
        """Returns whether two texts overlap."""
        return self.left < other.right and other.left < self.right and self.top < other.bottom and other.top < self.bottom

    def is_crossed(self, a: Point, b: Point) -> bool:
        """Returns whether a line that goes from left to right, or back, passes through the text."""
        left, right = max(self.left, min(a[0], b[0])), min(self.right, max(a[0], b[0]))
        if left >= right:
            return False
        heights = [_height(a, b, x) for x in (left, right)]
        return min(heights) < self.bottom and max(heights) > self.top


def box_of(text: str, x: float, y: float, anchor: str = "middle") -> Box:
    """Returns the space of a text whose middle is at this height."""
    width = LETTER * len(text)
    left = x - width * {"start": 0.0, "middle": 0.5, "end": 1.0}[anchor]
    return Box(left, y - HALF, left + width, y + HALF)


def _height(a: Point, b: Point, x: float) -> float:
    return a[1] if a[0] == b[0] else a[1] + (b[1] - a[1]) * (x - a[0]) / (b[0] - a[0])


def _on(points: list[Point], x: float) -> float:
    for a, b in zip(points, points[1:]):
        if min(a[0], b[0]) <= x <= max(a[0], b[0]):
            return _height(a, b, x)
    return points[-1][1]


class Labels:
    """The texts between the lanes. `lines` are the points of all arrows."""

    def __init__(self, lines: list[list[Point]]) -> None:
        self._lines = lines
        self.boxes: list[Box] = []

    def place_end(self, text: str, x: float, points: list[Point], anchor: str) -> float:
        """Returns the height of the text at the end of an arrow: next to it, or a little lower or higher."""
        boxes = [box_of(text, x, points[-1][1] + aside, anchor) for aside in ASIDES]
        chosen = self._best(boxes, points)
        self.boxes.append(chosen)
        return chosen.top + HALF

    def place(self, text: str, points: list[Point]) -> Point:
        """Returns the middle of the label of an arrow: the first free place, if possible one that no other arrow crosses."""
        places = {box_of(text, *place): place for place in (self._at(text, points, share) for share in SHARES)}
        chosen = self._best(list(places), points)
        if self._is_taken(chosen):  # then over or under its arrow
            places = {box_of(text, x, y + aside): (x, y + aside) for aside in BESIDES for x, y in places.values()}
            chosen = next((box for box in places if not self._is_taken(box)), chosen)
            places.setdefault(chosen, ((chosen.left + chosen.right) / 2, chosen.top + HALF))
        self.boxes.append(chosen)
        return places[chosen]

    def _best(self, boxes: list[Box], points: list[Point]) -> Box:
        free = [box for box in boxes if not self._is_taken(box)]
        clear = [box for box in free if not self._is_crossed(box, points)]
        return (clear or free or boxes)[0]

    def _is_taken(self, box: Box) -> bool:
        return any(box.overlaps(other) for other in self.boxes)

    def _at(self, text: str, points: list[Point], share: float) -> Point:
        """Returns the place at this share of the arrow, but not over the lane of its sender."""
        start, end = points[0][0], points[-1][0]
        aside = LETTER * len(text) / 2 + ASIDE
        x = start + (end - start) * share
        x = max(x, start + aside) if end >= start else min(x, start - aside)
        return x, _on(points, x)

    def _is_crossed(self, box: Box, own: list[Point]) -> bool:
        return any(box.is_crossed(a, b) for line in self._lines if line is not own for a, b in zip(line, line[1:]))
