"""The theorem `valid_have_consented` (`ValidHaveConsented`): each valid pair of an agent that is never lite has the time at which its
last check that got a response was sent."""

from __future__ import annotations

from collections.abc import Iterator
from dataclasses import dataclass

from ..pairs import Pair
from ..scenario import SIDES
from .execution import Execution, Lacks, any_in, lacks
from .fair import is_new_agent
from .seen import walk
from .verdict import Verdict, first_of_all


@dataclass(frozen=True)
class Choice:
    """The side, an entry of it, and its valid pairs after that, with what the log shows of their checks."""

    side: str
    at: int
    valid: tuple[Pair, ...]


def is_never_lite(x: Execution, side: str, at: int) -> bool:
    """Whether no call of the side made it lite up to this entry (`AreNeverLite`)."""
    calls = x.indices(("lite", side), lambda s: s.entry.side == side and s.entry.call == "set_ice_lite" and bool(s.entry.given[0]))
    return not any_in(calls, range(at + 1))


def lacking(x: Execution, c: Choice) -> Lacks:
    """Returns the preconditions that do not hold."""
    return lacks(IsFresh=is_new_agent(x.state(0, c.side)), AreNeverLite=is_never_lite(x, c.side, c.at), is_valid=bool(c.valid))


def choices(x: Execution) -> Iterator[Choice]:
    """Proposes each entry that changes the pairs."""
    for side in SIDES:
        for step, seen in walk(x, side):
            agent = step.after[side]
            if agent.pairs is not step.before[side].pairs:
                yield Choice(side, step.at, tuple(p for p in seen.pairs(agent) if p.is_valid))


def find(x: Execution) -> Verdict:
    """Returns the first such entry, or one after which a valid pair has no such time."""

    def verdict(c: Choice) -> Verdict:
        time = x.time(c.at)
        return Verdict("", time, time, time if all(p.consented is not None for p in c.valid) else None)

    return first_of_all(choices(x), lambda c: lacking(x, c), verdict, "is_valid")
