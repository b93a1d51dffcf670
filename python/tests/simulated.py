"""An event loop whose time is simulated: a test of 30 s takes as long as what happens in them.

Datagrams over loopback arrive at once, so time passes only when nothing is left to do.
"""

from __future__ import annotations

import asyncio
import logging
import selectors
from collections.abc import Coroutine
from types import SimpleNamespace
from typing import Any, TypeVar
from unittest import mock

T = TypeVar("T")


class _Selector(selectors.DefaultSelector):
    """Waits for nothing: where another one waits, its time passes."""

    passed = 0.0

    def select(self, timeout: float | None = None) -> Any:
        ready = super().select(0)
        if not ready and timeout is None:
            raise RuntimeError("nothing will ever happen")
        self.passed += 0 if ready or timeout is None else timeout
        return ready


class _Loop(asyncio.SelectorEventLoop):
    def __init__(self) -> None:
        self._clock = _Selector()
        super().__init__(self._clock)

    def time(self) -> float:
        return self._clock.passed


class Lines(logging.Handler):
    """What the logger `is_ice` says, each line with the time in seconds at which it does."""

    def __init__(self) -> None:
        super().__init__()
        self.all: list[tuple[float, str]] = []

    def emit(self, record: logging.LogRecord) -> None:
        self.all.append((asyncio.get_running_loop().time(), record.getMessage()))

    def of(self, ufrag: str) -> list[tuple[float, str]]:
        """The lines of an agent, without its username fragment."""
        return [(when, line.removeprefix(f"{ufrag}: ")) for when, line in self.all if line.startswith(f"{ufrag}: ")]

    def first(self, ufrag: str, words: str) -> tuple[float, str]:
        """The first line of an agent that has these words. AssertionError if there is none."""
        for when, line in self.of(ufrag):
            if words in line:
                return when, line
        raise AssertionError(f"no line has {words!r}: {self.of(ufrag)}")


def run(played: Coroutine[Any, Any, T]) -> tuple[T, Lines]:
    """Runs a coroutine in simulated time. Returns its result, and the lines of the log."""
    loop, lines, logger = _Loop(), Lines(), logging.getLogger("is_ice")
    level = logger.level
    logger.addHandler(lines)
    logger.setLevel(logging.INFO)
    clock = SimpleNamespace(monotonic_ns=lambda: round(loop.time() * 1e9))
    try:
        with mock.patch("is_ice.loop.time", clock):
            return loop.run_until_complete(played), lines
    finally:
        logger.removeHandler(lines)
        logger.setLevel(level)
        loop.close()
