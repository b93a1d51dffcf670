"""One direction of a link: it delays, duplicates, reorders and loses packets."""

from __future__ import annotations

from dataclasses import dataclass
from random import Random

from .clock import BEGINNING, nanoseconds

NEVER = 1 << 63


@dataclass(frozen=True)
class LinkSettings:
    """The settings of a link. Times are milliseconds; probabilities are from 0 to 1."""

    delay_ms: float = 5.0
    jitter_ms: float = 0.0  # added, uniformly from 0 to this
    loss: float = 0.0  # the probability for each packet, independently
    burst_every_s: float = 0.0  # mean time between two bursts, in which every packet is lost; 0: no bursts
    burst_ms: float = 200.0  # mean length of a burst
    duplicate: float = 0.0
    reorder: float = 0.0  # the probability that a packet is delayed and overtaken
    reorder_ms: float = 20.0  # by how much
    rate_kbit: float = 0.0  # 0: unlimited
    queue_ms: float = 200.0  # a packet that would be queued longer is lost


class Link:
    """One direction of a link. It keeps packets in order, except for those that it reorders."""

    def __init__(self, settings: LinkSettings, random: Random) -> None:
        self.settings = settings
        self._random = random
        self._is_bursting = False
        self._turns = self._later(BEGINNING, settings.burst_every_s * 1000)  # the next start or end of a burst
        self._free = 0  # when the previous packet is sent completely
        self._last = 0  # when the previous packet arrives

    def carry(self, now: int, size: int) -> list[int]:
        """Returns the times at which a packet of this size arrives: none if it is lost, two if it is duplicated."""
        if self._is_lost(now):
            return []
        gone = self._sent(now, size)
        if gone is None:
            return []
        arrivals = [self._arrival(gone)]
        if self.settings.duplicate and self._random.random() < self.settings.duplicate:
            arrivals.append(self._arrival(gone))
        return arrivals

    def _later(self, time: int, mean_ms: float) -> int:
        return time + nanoseconds(self._random.expovariate(1 / mean_ms)) if mean_ms else NEVER

    def _is_lost(self, now: int) -> bool:
        s = self.settings
        while self._turns <= now:
            self._is_bursting = not self._is_bursting
            self._turns = self._later(self._turns, s.burst_ms if self._is_bursting else s.burst_every_s * 1000)
        return self._is_bursting or (bool(s.loss) and self._random.random() < s.loss)

    def _sent(self, now: int, size: int) -> int | None:
        s = self.settings
        if not s.rate_kbit:
            return now
        begun = max(now, self._free)
        if begun - now > nanoseconds(s.queue_ms):
            return None
        self._free = begun + nanoseconds(size * 8 / s.rate_kbit)
        return self._free

    def _arrival(self, gone: int) -> int:
        s = self.settings
        arrival = gone + nanoseconds(s.delay_ms)
        if s.jitter_ms:
            arrival += nanoseconds(self._random.random() * s.jitter_ms)
        if s.reorder and self._random.random() < s.reorder:
            return arrival + nanoseconds(s.reorder_ms)
        self._last = max(self._last, arrival)
        return self._last
