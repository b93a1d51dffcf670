"""Runs many sessions in several processes, with a progress bar."""

from __future__ import annotations

import multiprocessing
import sys
import time
from collections.abc import Callable, Iterable, Iterator
from dataclasses import dataclass
from typing import TypeVar

from .guarantees import Broken
from .scenario import Scenario
from .session import Outcome, Session

# The number of sessions that a process takes at once.
PORTION = 20


@dataclass(frozen=True)
class Fault:
    """A session in which a guarantee did not hold."""

    scenario: str
    seed: int
    text: str


Portion = tuple[Scenario, range]
# What is found of a session.
F = TypeVar("F")


def play(portion: Portion) -> list[Outcome] | Fault:
    """Runs a portion of sessions, up to the first broken guarantee."""
    scenario, seeds = portion
    outcomes = []
    for seed in seeds:
        try:
            outcomes.append(Session(scenario, seed).run())
        except Broken as broken:
            return Fault(scenario.name, seed, str(broken))
    return outcomes


def portions(scenarios: Iterable[Scenario], count: int, seed: int) -> list[Portion]:
    """Divides `count` sessions of each scenario, with seeds from `seed` on, into portions that alternate between the scenarios."""
    parts = [range(first, min(first + PORTION, seed + count)) for first in range(seed, seed + count, PORTION)]
    return [(scenario, part) for part in parts for scenario in scenarios]


def run(scenarios: list[Scenario], count: int, seed: int = 0, processes: int = 1, quiet: bool = False) -> Iterator[Outcome]:
    """Returns the outcomes in any order. Raises Broken, with scenario and seed, at the first broken guarantee."""
    return run_by(play, scenarios, count, seed, processes, quiet)


def run_by(player: Callable[[Portion], list[F] | Fault], scenarios: list[Scenario], count: int, seed: int = 0, processes: int = 1,
           quiet: bool = False) -> Iterator[F]:
    """Returns what a player finds in each session, as `run`."""
    work = portions(scenarios, count, seed)
    bar = Bar(count * len(scenarios), quiet)
    for result in _results(player, work, processes):
        if isinstance(result, Fault):
            bar.end()
            raise Broken(f"{result.scenario}, seed {result.seed}: {result.text}")
        bar.add(len(result))
        yield from result
    bar.end()


def _results(player: Callable[[Portion], list[F] | Fault], work: list[Portion], processes: int) -> Iterator[list[F] | Fault]:
    if processes <= 1:
        yield from map(player, work)
        return
    with multiprocessing.get_context("spawn").Pool(processes) as pool:
        yield from pool.imap(player, work)


class Bar:
    """A progress bar on standard error if that is a terminal, else a line from time to time."""

    WIDTH = 40
    EVERY = 20.0  # seconds between lines without a terminal

    def __init__(self, total: int, quiet: bool) -> None:
        self._total, self._quiet = total, quiet
        self._done, self._begun, self._shown = 0, time.monotonic(), time.monotonic()
        self._is_terminal = sys.stderr.isatty()

    def add(self, count: int) -> None:
        """Counts completed sessions."""
        self._done += count
        if self._quiet or time.monotonic() - self._shown < (0.1 if self._is_terminal else self.EVERY):
            return
        self._shown = time.monotonic()
        text = self._text()
        print(f"\r{text}" if self._is_terminal else text, end="" if self._is_terminal else "\n", file=sys.stderr, flush=True)

    def end(self) -> None:
        """Ends the line of the bar."""
        if not self._quiet and self._is_terminal:
            print(f"\r{self._text()}", file=sys.stderr)

    def _text(self) -> str:
        share = self._done / self._total if self._total else 1.0
        full = round(share * self.WIDTH)
        spent = time.monotonic() - self._begun
        left = spent / share - spent if share else 0.0
        return f"[{'#' * full}{'.' * (self.WIDTH - full)}] {self._done}/{self._total}  {spent:.0f} s, {left:.0f} s to go "
