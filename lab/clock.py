"""Simulated time: a queue of scheduled calls."""

from __future__ import annotations

import heapq
from collections.abc import Callable
from typing import Any

SECOND = 1_000_000_000
MILLISECOND = 1_000_000

# Time starts at 60 s, so that a nominated pair is due at a time above 0: 60 s before.
BEGINNING = 60 * SECOND


def nanoseconds(milliseconds: float) -> int:
    """Converts a duration of a scenario to nanoseconds."""
    return round(milliseconds * MILLISECOND)


class Clock:
    """Makes scheduled calls in the order of their times; calls of the same time in the order in which they were scheduled."""

    def __init__(self) -> None:
        self.now = BEGINNING
        self._queue: list[tuple[int, int, Callable[..., None], tuple[Any, ...]]] = []
        self._count = 0

    def at(self, time: int, act: Callable[..., None], *arguments: Any) -> None:
        """Schedules a call for this time, or for now if that is past."""
        self._count += 1
        heapq.heappush(self._queue, (max(time, self.now), self._count, act, arguments))

    def step(self, until: int) -> bool:
        """Makes the next call before this time. Returns False if there is none."""
        if not self._queue or self._queue[0][0] >= until:
            return False
        self.now, _, act, arguments = heapq.heappop(self._queue)
        act(*arguments)
        return True
