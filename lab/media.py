"""Media between the sides of a session, once both have a path."""

from __future__ import annotations

from collections.abc import Callable

from .clock import SECOND, Clock, nanoseconds
from .guarantees import Broken, Path
from .relaying import RelayedEndpoint
from .scenario import SIDES, Scenario

ARRIVING = 2 * SECOND  # for the datagram that was sent last


class Media:
    """Each side sends numbered datagrams on its selected path, as often and as long as the scenario says."""

    def __init__(self, scenario: Scenario, clock: Clock, endpoints: dict[str, RelayedEndpoint], path: Callable[[str], Path | None]) -> None:
        self._every, self._length = nanoseconds(scenario.media_ms), nanoseconds(scenario.media_s * 1000)
        self._clock, self._endpoints, self._path, self._most = clock, endpoints, path, scenario.media_loss
        self._end: int | None = None
        self.sent = {side: 0 for side in SIDES}

    def begin(self) -> None:
        """Begins, if both sides have a path and it has not begun before."""
        if self._end is None and all(self._path(side) for side in SIDES):
            self._end = self._clock.now + self._length
            for side in SIDES:
                self._clock.at(self._clock.now + self._every, self._send, side)

    @property
    def is_over(self) -> bool:
        """Whether everything was sent, and had time to arrive."""
        return self._end is not None and self._clock.now >= self._end + ARRIVING

    @property
    def heard(self) -> dict[str, int]:
        """How many of the datagrams of each side arrived."""
        return {side: len({datagram.number for datagram in self._endpoints[other].heard}) for side, other in zip(SIDES, SIDES[::-1])}

    def judge(self) -> None:
        """Raises Broken if more was lost than the scenario allows."""
        for side in SIDES:
            sent, heard = self.sent[side], self.heard[side]
            if sent == 0 or sent - heard > self._most * sent:
                raise Broken(f"{heard} of the {sent} datagrams of {side} arrived")

    def _send(self, side: str) -> None:
        now, path = self._clock.now, self._path(side)
        if self._end is None or now >= self._end:
            return
        if path is not None:
            self._endpoints[side].say(self.sent[side], path)
            self.sent[side] += 1
        self._clock.at(now + self._every, self._send, side)
