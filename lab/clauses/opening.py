"""Rounds of a controlling agent without a valid pair, as `rounds` and `both` of `World::run` have them, and the search for them."""

from __future__ import annotations

from bisect import bisect_left, bisect_right
from collections.abc import Callable, Iterator, Sequence
from dataclasses import dataclass

from ..model import Agent
from ..pairs import Pair, Path
from .execution import Execution, Lacks, Round, any_in, is_between, is_in_round
from .progress import awaits, checks_for, is_unanswered, suffices
from .selections import are_kept, suffice_for_pair
from .served import least_served
from .staying import may_end_in_rounds


def rounds_of(x: Execution, side: str, first: int, count: int) -> list[Round]:
    """Returns so many rounds of a side. Nothing follows the last `handle_timeout` call."""
    row = x.timeouts[side]
    last = row[min(bisect_left(row, first) + count, len(row)) - 1]
    return x.rounds(side, first, last + 1)


def pair_of(agent: Agent, number: int) -> Pair:
    """Returns the pair with this number."""
    return next(p for p in agent.pairs if p.number == number)


def waits(x: Execution, side: str, pair: int, rounds: list[Round]) -> dict[str, bool | Lacks]:
    """Returns what has to hold of the pair and of the rounds, whatever the network does."""
    now, agent = rounds[0].now, x.state(rounds[0].moment, side)
    own = pair_of(agent, pair)
    by = min(own.due_at(now, agent.timing), now)
    return {"Awaits": awaits(now, by, agent, own), "IsUnanswered": is_unanswered(agent, own), "AreKept": are_kept(x, side, by, rounds),
            "enough": suffice_for_pair(x, side, by, rounds, pair),
            "MayEndInRounds": not may_end_in_rounds(x, side, agent.path(own), rounds)}


# ---- the search

def most_rounds(x: Execution, side: str, place: int, is_allowed: Callable[[str], bool]) -> int:
    """Returns how many rounds there are, from the side's `handle_timeout` call at this place on, before a call that is not allowed."""
    row, calls = x.timeouts[side], x.calls_besides(side, is_allowed)
    at = bisect_left(calls, row[place])
    return bisect_left(row, calls[at] if at < len(calls) else len(x)) - place


def controlling_calls(x: Execution, sides: Sequence[str]) -> Iterator[tuple[int, str, Pair, int]]:
    """Finds the place of each `handle_timeout` call of a controlling side without a valid pair, with each pair that is due by then, and
    when it is due."""
    for side in sides:
        for place, first in enumerate(x.timeouts[side]):
            agent, now = x.state(first, side), x.now(first)
            if agent.controlling and not any(p.is_valid for p in agent.pairs):
                yield from ((place, side, p, due) for p in agent.pairs if (due := p.due_at(now, agent.timing)) <= now)


def rounds_end(x: Execution, side: str, place: int, count: int, until: int) -> int:
    """Returns the end of so many rounds, from the side's `handle_timeout` call at this place on: the next such call, unless the execution
    ends before: after the last one, or at the entry `until`, if this is later."""
    row = x.timeouts[side]
    following = row[place + count] if place + count < len(row) else len(x)
    return min(following, max(row[place + count - 1] + 1, until))


def least_later(x: Execution, side: str, place: int) -> int:
    """Returns a number of rounds after the first one, which is at this place: fewer do not suffice."""
    row = x.timeouts[side]
    first = x.state(row[place], side)
    if len(first.pairs) <= 1 or place + 1 == len(row):
        return 0
    second = x.state(row[place + 1], side)
    return max(0, min(checks_for(first.modern, 2 * len(first.pairs)) - 2, checks_for(second.modern, 2 * len(second.pairs)) - 1))


class Counts:
    """The search for the least number of rounds that suffice for a pair of a side, from one of its `handle_timeout` calls on.

    The execution ends after the last of these calls, or at the entry `until`, if this is later."""

    def __init__(self, x: Execution, side: str) -> None:
        self.x, self.side, self.timeouts = x, side, x.timeouts[side]
        self._open: dict[tuple[int, bool, int], int | None] = {}
        self._dues: dict[int, list[int]] = {}

    def least(self, place: int, by: int, pair: int, until: int = 0) -> int | None:
        """Returns the least number for this pair, which is due by a time, from the call at this place among them."""
        key = place, by < self.x.now(self.timeouts[place]), until
        if key not in self._open:
            self._open[key] = self._least_open(*key)
        found = [self._open[key], self.least_polled(place, by, until), self.least_served(place, pair)]
        return min((count for count in found if count is not None), default=None)

    def least_served(self, place: int, pair: int) -> int | None:
        """Returns the least number if a request was served on the pair (`SufficesForServed`)."""
        most = most_rounds(self.x, self.side, place, is_in_round)
        return least_served(self.x, self.side, pair, self.timeouts[place:place + most]) if most else None

    def due_by(self, place: int, by: int) -> int:
        """Returns how many pairs are due by a time, computed at the call at this place (`due_by`)."""
        if place not in self._dues:
            agent, now = self._agent(place), self.x.now(self.timeouts[place])
            self._dues[place] = sorted(p.due_at(now, agent.timing) for p in agent.pairs)
        return bisect_right(self._dues[place], by)

    def rounds_for_due(self, place: int, by: int) -> int:
        """Returns how many rounds, at least one, from the call at this place on suffice for the pairs that are due by a time."""
        return max(checks_for(self._agent(place).modern, self.due_by(place, by)), 1)

    def _agent(self, place: int) -> Agent:
        return self.x.state(self.timeouts[place], self.side)

    def least_polled(self, place: int, by: int, until: int = 0) -> int | None:
        """Returns the least number in which the side only polls (`SufficeForDue`)."""
        found = [1] if len(self._agent(place).pairs) <= 1 else []
        if by < self.x.now(self.timeouts[place]):
            found.append(self.rounds_for_due(place, by))
        if place + 1 < len(self.timeouts):
            found.append(1 + self.rounds_for_due(place + 1, by))
        return min((count for count in found if self._is_polled(place, count, until)), default=None)

    def _is_polled(self, place: int, count: int, until: int) -> bool:
        if len(self.timeouts) < place + count:
            return False
        part = range(self.timeouts[place], rounds_end(self.x, self.side, place, count, until))
        return not any_in(self.x.calls_besides(self.side, is_between), part)

    def _least_open(self, place: int, is_early: bool, until: int) -> int | None:
        first = self._agent(place)
        for later in range(least_later(self.x, self.side, place), most_rounds(self.x, self.side, place, is_in_round)):
            last = self.x.state(rounds_end(self.x, self.side, place, later + 1, until), self.side)
            second = self._agent(place + 1) if later else last
            if suffices(0, int(is_early), first, second, last, later):
                return later + 1
        return None


@dataclass(frozen=True)
class Proposal:
    """A `handle_timeout` call by its index, a pair by its number, the pair's path, and how many rounds suffice; None: none do.

    `last`: the index of the last round's `handle_timeout` call; of the first one's, if none suffice."""

    first: int
    pair: int
    path: Path
    count: int | None
    last: int


def proposals(x: Execution, side: str, path: Path | None = None) -> Iterator[Proposal]:
    """Proposes such calls with such pairs, on the path or on any."""
    counts, row = Counts(x, side), x.timeouts[side]
    for place, _, pair, due in controlling_calls(x, (side,)):
        own = x.state(row[place], side).path(pair)
        if path in (None, own):
            count = counts.least(place, due, pair.number)
            yield Proposal(row[place], pair.number, own, count, row[place + (count or 1) - 1])
