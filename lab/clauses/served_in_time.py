"""`World::run`, clause `in_time`, of pairs on which a request was served (`ServedRoundsReach`): with the profile `Modern` 2 * m rounds
suffice then in either role, if fewer than m of them check other pairs before, however many pairs there are."""

from __future__ import annotations

from collections.abc import Iterator

from ..pairs import Pair
from .connections import succeeds_in
from .execution import Execution, Lacks, Round, fewest, lacks
from .fair import are_new_agents
from .in_time import Choice, checked_at, delay, served_choices, verdict_of
from .progress import is_in_line, is_lasting
from .selections import are_kept
from .served import served_rounds_reach
from .staying import may_end_in_rounds
from .verdict import Verdict, first_that_holds


# ---- the preconditions

def has_rounds_for(x: Execution, side: str, pair: Pair, rounds: list[Round]) -> Lacks:
    """The rounds suffice so for this pair (`HasRounds`)."""
    now, agent = rounds[0].now, x.state(rounds[0].moment, side)
    by = min(pair.due_at(now, agent.timing), now)
    return lacks(line=is_in_line(now, by, agent, pair), kept=are_kept(x, side, by, rounds),
                 lasting=all(is_lasting(r.now, agent, pair) for r in rounds[1:]),
                 enough=served_rounds_reach(x, side, pair.number, by, rounds))


def lacking(x: Execution, c: Choice) -> Lacks:
    """Returns the preconditions that do not hold. Without a check there may be a reason: a success response, or a pair that may be gone."""
    rounds = c.rounds(x)
    pairs = x.state(c.first, c.side).on(c.path)
    is_checked = checked_at(x, c) is not None
    return lacks(IsNewlyCreated=are_new_agents(x), has=fewest([has_rounds_for(x, c.side, p, rounds) for p in pairs], ["on"]),
                 punctual=delay(x, c.side, rounds) is not None,
                 Succeeds=is_checked or not succeeds_in(x, c.side, c.path, rounds),
                 MayEndInRounds=is_checked or not may_end_in_rounds(x, c.side, c.path, rounds))


# ---- the search

def choices(x: Execution) -> Iterator[Choice]:
    """Proposes each such pair that is due before a `handle_timeout`, with the fewest rounds, by the end of the rounds."""
    yield from sorted(served_choices(x), key=lambda c: c.end)


def find(x: Execution) -> Verdict:
    """Returns the rounds that end first."""
    return first_that_holds(choices(x), lambda c: lacking(x, c), lambda c: verdict_of(x, c), "IsServed")
