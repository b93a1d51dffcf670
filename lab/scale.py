"""Maps the times of a picture to heights: linear, except that long waits are cut and crowded times have room."""

from __future__ import annotations

from .picture import Picture, wrapped

# A row of text, and the space above the first time.
ROW = 14
HEAD = 14.0
# Pixels for each millisecond; the longest wait that is drawn in full; the height of a longer one, which has a break mark.
PER_MS = 1.0
FULL = 80.0
CUT = 44.0
# The least distance of two different times.
LEAST = 4.0


class Scale:
    """The height of each time at which something happens, and the waits that are cut."""

    def __init__(self, picture: Picture, top: float) -> None:
        self.rows = _rows(picture)
        times = {time for arrow in picture.arrows for time, _ in arrow.stops} | {s[0] for s in picture.states}
        self.times = sorted(times | {time for time, _ in self.rows}) or [0]
        self.cuts: list[tuple[float, float, int]] = []  # from this height to this one, and the nanoseconds between
        self._heights: dict[int, float] = {}
        self._free: dict[str, float] = {}  # the height up to which a lane has text
        before = None
        for time in self.times:
            self._place(time, before, top + HEAD)
            before = time
        self.bottom = max([self._heights[self.times[-1]], *self._free.values()]) + 14

    def _place(self, time: int, before: int | None, top: float) -> None:
        lanes = [lane for at, lane in self.rows if at == time]
        free = max((self._free.get(lane, 0.0) for lane in lanes), default=0.0)
        if before is None:
            height = top
        else:
            above, linear = self._heights[before], (time - before) / 1e6 * PER_MS
            is_cut = linear > FULL
            height = max(above + max(LEAST, CUT if is_cut else linear), free)
            if is_cut:
                self.cuts.append((above, height, time - before))
        self._heights[time] = height
        for lane in lanes:
            self._free[lane] = height + ROW * self.rows[time, lane]

    def at(self, time: int) -> float:
        """Returns the height of a time."""
        return self._heights[time]


def _rows(picture: Picture) -> dict[tuple[int, str], int]:
    """Returns how many rows of text a lane has at a time: the time itself, at which it sends a packet, and its flags."""
    rows: dict[tuple[int, str], int] = {}
    for time, lane, text in picture.flags:
        rows[time, lane] = rows.get((time, lane), 1) + len(wrapped(text))
    for arrow in picture.arrows:
        rows.setdefault(arrow.stops[0], 1)
    return rows
