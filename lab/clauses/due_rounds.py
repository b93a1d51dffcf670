"""`run`, clause `due_rounds` (`DueRoundsSelect`): the same as `rounds` of `run`, for a pair that is due by the first `handle_timeout`
call of the rounds, maybe not before it."""

from __future__ import annotations

from collections.abc import Iterator

from ..scenario import SIDES
from .execution import Execution, Lacks, is_in_round, lacks
from .opening import controlling_calls, most_rounds
from .progress import suffices_from_due
from .single import Choice, are_in_round, are_passing, by_end, due_of, end_of, shared, verdict_of
from .verdict import Verdict, first_that_holds


def lacking(x: Execution, c: Choice) -> Lacks:
    """Returns the preconditions that do not hold."""
    rounds, by = c.rounds(x), min(due_of(x, c), x.now(c.first))  # so `by` is no later than the first call
    first = lacks(between=are_in_round(x, c.side, rounds[0]))
    later = are_passing(x, c.side, by, rounds[1:])
    states = x.state(c.first, c.side), x.state(rounds[0].behind.stop, c.side), x.state(c.end, c.side)
    return lacks(**shared(x, c, by), first=first, IsPassing=later, SufficesFromDue=suffices_from_due(*states, len(rounds) - 1))


# ---- the search

def least_count(x: Execution, side: str, place: int) -> int | None:
    """Returns how many rounds suffice at least, from the `handle_timeout` call at this place among the side's on."""
    row, first = x.timeouts[side], x.state(x.timeouts[side][place], side)
    for later in range(most_rounds(x, side, place, is_in_round)):
        last = x.state(row[place + later] + 1, side)
        if suffices_from_due(first, x.state(row[place + 1], side) if later else last, last, later):
            return later + 1
    return None


def choices(x: Execution) -> Iterator[Choice]:
    """Proposes choices by the beginning of the rounds."""
    counts: dict[tuple[str, int], int | None] = {}
    for place, side, pair, _ in controlling_calls(x, SIDES):
        if (side, place) not in counts:
            counts[side, place] = least_count(x, side, place)
        first = x.timeouts[side][place]
        if (end := end_of(x, side, x.state(first, side).path(pair), place, counts[side, place] or 1)) is not None:
            yield Choice(side, pair.number, first, end)


def find(x: Execution) -> Verdict:
    """Returns the earliest bound."""
    return first_that_holds(by_end(x, choices(x)), lambda c: lacking(x, c), lambda c: verdict_of(x, c), "Awaits.there")
