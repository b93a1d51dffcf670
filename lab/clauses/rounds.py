"""`run`, clause `rounds` (`OpenRoundsSelect`): a pair of a controlling agent is due before rounds that suffice for it, in which its
checks are answered. Then a path is selected in one of them."""

from __future__ import annotations

from collections.abc import Iterator

from ..scenario import SIDES
from .execution import Execution, Lacks, is_between, is_in_round, lacks
from .opening import Counts, controlling_calls, most_rounds
from .progress import are_open_enough, checks_for
from .single import Choice, are_enough, are_passing, by_end, due_of, end_of, shared, verdict_of
from .verdict import Verdict, first_that_holds


def lacking(x: Execution, c: Choice) -> Lacks:
    """Returns the preconditions that do not hold."""
    rounds, by = c.rounds(x), min(due_of(x, c), x.now(c.first))
    return lacks(**shared(x, c, by), IsPassing=are_passing(x, c.side, by, rounds), OpenRoundsSuffice=are_enough(x, c.side, by, rounds))


# ---- the search

def least_count(x: Execution, counts: Counts, place: int, due: int) -> int | None:
    """Returns how many rounds suffice at least, from the `handle_timeout` call at this place among the side's on."""
    side, row = counts.side, counts.timeouts
    first, plain = x.state(row[place], side), counts.rounds_for_due(place, due)
    found = [plain] if plain <= most_rounds(x, side, place, is_between) else []
    for count in range(max(checks_for(first.modern, 2 * len(first.pairs)) - 1, 1), most_rounds(x, side, place, is_in_round) + 1):
        if are_open_enough(first, x.state(row[place + count - 1] + 1, side), count):
            found.append(count)
            break
    return min(found, default=None)


def choices(x: Execution) -> Iterator[Choice]:
    """Proposes choices by the beginning of the rounds."""
    counts = {side: Counts(x, side) for side in SIDES}
    for place, side, pair, due in controlling_calls(x, SIDES):
        first = x.timeouts[side][place]
        path, count = x.state(first, side).path(pair), least_count(x, counts[side], place, due)
        if (end := end_of(x, side, path, place, count or 1)) is not None:
            yield Choice(side, pair.number, first, end)


def find(x: Execution) -> Verdict:
    """Returns the earliest bound."""
    return first_that_holds(by_end(x, choices(x)), lambda c: lacking(x, c), lambda c: verdict_of(x, c), "Awaits.there")
