"""What a checker finds in a session."""

from __future__ import annotations

from collections.abc import Callable, Iterable, Sequence
from dataclasses import dataclass
from typing import TypeVar

from .execution import Execution, Lacks, Round

C = TypeVar("C")
C_co = TypeVar("C_co", covariant=True)


@dataclass(frozen=True)
class Verdict:
    """What a checker found. `since` and `bound` are times; the conclusion was due by `bound`. `failed`: preconditions, or "" if all held.

    `fact`: when what the clause concludes came to be; None: it did not. `rounds`: how many rounds of one side the choice has. `count`: the
    number of checks that the clause bounds, and `limit` its bound, where the session came closest to that."""

    failed: str = ""
    since: int | None = None
    bound: int | None = None
    fact: int | None = None
    rounds: int = 0
    count: int = 0
    limit: int | None = None

    @property
    def held(self) -> bool:
        """Whether all preconditions held."""
        return not self.failed

    @property
    def is_broken(self) -> bool:
        """Whether they held, and the conclusion was not true by its bound."""
        return self.held and (self.bound is None or self.fact is None or self.fact > self.bound)


def over(rounds: Sequence[Round], fact: int | None) -> Verdict:
    """Returns the verdict on rounds: what the clause concludes is due in the last one."""
    return Verdict("", rounds[0].now, rounds[-1].now, fact, len(rounds))


def first_that_holds(choices: Iterable[C], lacking: Callable[[C], Lacks], verdict: Callable[[C], Verdict], otherwise: str) -> Verdict:
    """Returns the verdict of the first choice that lacks nothing; or what the choice lacks that lacks least."""
    least: Lacks | None = None
    for choice in choices:
        missing = lacking(choice)
        if not missing:
            return verdict(choice)
        if least is None or len(missing) < len(least):
            least = missing
    return Verdict(", ".join(least) if least is not None else otherwise)


def best_of_all(choices: Iterable[C], lacking: Callable[[C], Lacks], verdict: Callable[[C], Verdict], otherwise: str,
                is_better: Callable[[Verdict, Verdict], bool]) -> Verdict:
    """Returns the same; but of all choices that lack nothing one whose conclusion did not come true, if there is one, else the best one."""
    held: Verdict | None = None
    least: Lacks | None = None
    for choice in choices:
        missing = lacking(choice)
        if missing:
            least = missing if least is None or len(missing) < len(least) else least
            continue
        found = verdict(choice)
        if found.is_broken:
            return found
        held = found if held is None or is_better(found, held) else held
    return held or Verdict(", ".join(least) if least is not None else otherwise)


def first_of_all(choices: Iterable[C], lacking: Callable[[C], Lacks], verdict: Callable[[C], Verdict], otherwise: str) -> Verdict:
    """Returns the same; of those that came true the first."""
    return best_of_all(choices, lacking, verdict, otherwise, lambda found, held: False)


def closest_of_all(choices: Iterable[C], lacking: Callable[[C], Lacks], verdict: Callable[[C], Verdict], otherwise: str) -> Verdict:
    """Returns the same; of those that came true the one whose number of checks is closest to its bound."""
    return best_of_all(choices, lacking, verdict, otherwise,
                       lambda found, held: found.count * (held.limit or 0) > held.count * (found.limit or 0))


def counted(since: int, until: int, count: int, limit: int) -> Verdict:
    """Returns the verdict on a number of checks in a span of time."""
    return Verdict("", since, until, until if count <= limit else None, 0, count, limit)


def first_in(indices: list[int], part: range) -> int | None:
    """Returns the first of the sorted indices that is in the range."""
    return next((at for at in indices if at in part), None)


def selects(x: Execution, side: str, part: range) -> int | None:
    """Returns when the side first selects a path in the segment (`SelectsPath`)."""
    at = first_in(x.selections(side), part)
    return None if at is None else x.time(at)
