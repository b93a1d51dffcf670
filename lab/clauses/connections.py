"""Rounds of one of two agents that suffice for its pair on a path, and what the network delivers in them (`Connections`, `Connects`)."""

from __future__ import annotations

from bisect import bisect_left
from collections.abc import Iterator, Mapping
from typing import Protocol

from ..pairs import Pair, Path
from .execution import Execution, Lacks, Round, entries_of, fewest, is_in_round, lacks, part_of
from .accepted_nominations import ALL, Network
from .progress import is_in_line, is_lasting, nominations_ahead, suffices
from .selections import are_kept, checks_in
from .served import is_served, served_rounds_reach
from .staying import may_end_in_rounds
from .verdict import C, C_co


# ---- rounds that suffice

def selections_of(x: Execution, side: str, part: range) -> int:
    """Returns how many calls of the side select a path (`selections_of`)."""
    found = x.selections(side)
    return bisect_left(found, part.stop) - bisect_left(found, part.start)


def side_rounds_reach(x: Execution, side: str, is_early: bool, first: int, second: int, later: int, end: int) -> bool:
    """Whether rounds suffice, each nomination that the side may send at once included (`SideRoundsReach`). They begin with the entries
    `first` and `second`, and so many more, and end at an entry. `is_early`: the pair is due before the first one."""
    start, following = x.state(first, side), x.state(second, side)
    all_ahead = nominations_ahead(start, selections_of(x, side, range(first, end)))
    ahead = nominations_ahead(following, selections_of(x, side, range(second, end)))
    return suffices(0, int(is_early), start, following, x.state(end, side), later, all_ahead, ahead)


def has_rounds_for(x: Execution, side: str, pair: Pair, rounds: list[Round], last: int) -> Lacks:
    """The rounds up to the entry `last` suffice for this pair, which is due by the first one."""
    first = rounds[0]
    agent = x.state(first.moment, side)
    by = min(pair.due_at(first.now, agent.timing), first.now)
    return lacks(line=is_in_line(first.now, by, agent, pair), kept=are_kept(x, side, by, rounds),
                 lasting=all(is_lasting(r.now, agent, pair) for r in rounds[1:]),
                 enough=side_rounds_reach(x, side, by < first.now, first.moment, first.behind.stop, len(rounds) - 1, last)
                 or not served_rounds_reach(x, side, pair.number, by, rounds))


def has_rounds(x: Execution, side: str, path: Path, rounds: list[Round], last: int) -> Lacks:
    """The side has rounds up to the entry `last` that suffice for a pair on the path (`HasRounds`)."""
    if not rounds:
        return ["rounds"]
    pairs = x.state(rounds[0].moment, side).on(path)
    return fewest([has_rounds_for(x, side, p, rounds, last) for p in pairs], ["on"])


class Rows:
    """The search for rounds of a side that begin as late as possible."""

    def __init__(self, x: Execution, side: str) -> None:
        self.x, self.side, self.timeouts = x, side, x.timeouts[side]
        self._lines: dict[int, list[Path]] = {}
        self._served: dict[int, list[Path]] = {}

    def latest(self, end: int, path: Path | None = None) -> tuple[int, Path] | None:
        """Returns the latest `handle_timeout` call from which rounds up to `end` suffice for a pair on the path or any; its path too."""
        stop = bisect_left(self.timeouts, end)
        others = self.x.calls_besides(self.side, is_in_round)
        before = bisect_left(others, end)
        for place in range(stop - 1, bisect_left(self.timeouts, others[before - 1] if before else 0) - 1, -1):
            lines = self.lines(place) if self._may_suffice(place, stop, end) else self._served_lines(place)
            if (found := self._path_at(place, end, [line for line in lines if path in (None, line)])) is not None:
                return self.timeouts[place], found
        return None

    def _may_suffice(self, place: int, stop: int, end: int) -> bool:
        """Whether there are enough rounds, if the pair is due before the first one."""
        later = stop - place - 1
        return side_rounds_reach(self.x, self.side, True, self.timeouts[place], self.timeouts[place + 1] if later else end, later, end)

    def _served_lines(self, place: int) -> list[Path]:
        """Returns the paths of the pairs on which a request was served, and for which fewer rounds may suffice."""
        if place not in self._served:
            moment = self.timeouts[place]
            agent, now = self.x.state(moment, self.side), self.x.now(moment)
            due = [p for p in agent.pairs if p.requests and p.due_at(now, agent.timing) < now]
            self._served[place] = sorted({agent.path(p) for p in due if not is_served(agent, p)})
        return self._served[place]

    def _path_at(self, place: int, end: int, lines: list[Path]) -> Path | None:
        rounds = self.x.rounds(self.side, self.timeouts[place], end) if lines else []
        fits = (p for p in lines if not has_rounds(self.x, self.side, p, rounds, end)
                and not may_end_in_rounds(self.x, self.side, p, rounds))
        return next(fits, None)

    def lines(self, place: int) -> list[Path]:
        """Returns the paths of the pairs that are due by a `handle_timeout` call, by its place among them."""
        if place not in self._lines:
            moment = self.timeouts[place]
            agent, now = self.x.state(moment, self.side), self.x.now(moment)
            self._lines[place] = sorted({agent.path(p) for p in agent.pairs if p.due_at(now, agent.timing) <= now})
        return self._lines[place]

    def longest(self, end: int, path: Path, floor: int) -> tuple[int, Path]:
        """Returns the first such call, from `floor` on, before which the side has a pair on the path: to show what is missing."""
        return next((at for at in self.timeouts if floor <= at < end and self.x.state(at, self.side).on(path)), end), path


# ---- deliveries in rounds

def succeeds_in(x: Execution, side: str, path: Path, rounds: list[Round]) -> bool:
    """Whether the side accepts a success response on the path after one of the `handle_timeout` calls (`Succeeds`)."""
    return any(x.steps[at].entry.given[1:3] == path[::-1] for at in part_of(x.successes(side), entries_of(rounds)))


def is_active(x: Execution, side: str, path: Path, rounds: list[Round]) -> bool:
    """Whether the side sends a check on the path in the rounds, or accepts a success response on it."""
    return checks_in(x, side, path, rounds) or succeeds_in(x, side, path, rounds)


def delivers(n: Network, side: str, path: Path, over: Path, rounds: list[Round], part: range) -> Lacks:
    """If the side is active on the path, a check of the segment arrives as the path `over`, and its responses are back (`Delivers`)."""
    if not is_active(n.x, side, path, rounds):
        return []
    return n.exists(side, part, lambda h: h.path == path and h.over == over, ALL, True)


# ---- choices by their last call

class Proposing(Protocol[C_co]):
    """A search for choices of one side that end with a `handle_timeout` call."""

    def at(self, moment: int) -> Iterator[C_co]: ...

    def whole(self, moment: int) -> Iterator[C_co]: ...


def by_last_call(x: Execution, searches: Mapping[str, Proposing[C]]) -> Iterator[C]:
    """Proposes choices by the time of the last `handle_timeout` call; at the end some that show what is missing."""
    moments = sorted((at, side) for side in searches for at in x.timeouts[side])
    for moment, side in moments:
        yield from searches[side].at(moment)
    for moment, side in {side: (at, side) for at, side in moments}.values():
        yield from searches[side].whole(moment)
