"""The signaling channel between the endpoints: it keeps order, loses nothing and has a delay."""

from __future__ import annotations

from collections.abc import Callable
from dataclasses import dataclass
from random import Random

from is_ice import IceCreds

from .clock import BEGINNING, Clock, nanoseconds
from .scenario import SignalingSettings


@dataclass(frozen=True)
class Signal:
    """A signaling message. `generation` counts ICE restarts; `gone` are candidates that were removed."""

    generation: int
    creds: IceCreds | None = None
    lines: tuple[str, ...] = ()
    gone: tuple[str, ...] = ()


class Channel:
    """One direction of signaling."""

    def __init__(self, settings: SignalingSettings, clock: Clock, random: Random, late_ms: float = 0.0) -> None:
        """Creates a channel. With `late_ms` nothing arrives until this long after the candidates of the other direction."""
        self._settings, self._clock, self._random = settings, clock, random
        self._last = BEGINNING + nanoseconds(settings.candidates_ms + late_ms) if late_ms else 0
        self.take: Callable[[Signal], None] = lambda signal: None

    def tell(self, signal: Signal, extra: int = 0) -> None:
        """Sends a message. With `extra` delay it may be overtaken."""
        delay = self._settings.delay_ms + self._random.random() * self._settings.jitter_ms
        held = BEGINNING + nanoseconds(self._settings.candidates_ms) if signal.lines else 0
        arrival = max(self._clock.now + nanoseconds(delay), held, self._last)
        if not extra:
            self._last = arrival
        self._clock.at(arrival + extra, self._deliver, signal)

    def _deliver(self, signal: Signal) -> None:
        self.take(signal)
