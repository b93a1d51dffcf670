"""The theorem `urgent_are_reached` (`RoundsReachUrgent`): with the profile `Modern` a pair is urgent in 2 * m rounds. Then it is
checked in one of them, or m of them check the selected pair, or urgent pairs whose turn comes before."""

from __future__ import annotations

from collections.abc import Iterator

from ..scenario import SIDES
from .connections import succeeds_in
from .execution import Execution, Lacks, Round, is_in_round, lacks
from .opening import most_rounds, pair_of
from .reached_in_turn import MOST_DELAYS, Choice, in_rounds, reached_by, unless_reached
from .served import is_overtaken
from .verdict import Verdict, first_of_all, over


# ---- the preconditions

def puts_urgent_first(x: Execution, side: str, number: int, r: Round) -> Lacks:
    """The `handle_timeout` call selects no path, urgent pairs are checked first, and the pair is urgent (`PutsUrgentFirst`)."""
    old = x.state(r.moment, side)
    return lacks(rule=old.modern, quiet=not x.steps[r.moment].selected,
                 urgent=all(p.is_urgent for p in old.pairs if p.number == number))


def lacking(x: Execution, c: Choice) -> Lacks:
    """Returns the preconditions that do not hold."""
    rounds, agent = c.rounds(x), x.state(c.first, c.side)
    path = agent.path(pair_of(agent, c.pair))
    unanswered = [r for place, r in enumerate(rounds) if not succeeds_in(x, c.side, path, rounds[:place])]
    urgent: Lacks = next((missing for r in unanswered if (missing := puts_urgent_first(x, c.side, c.pair, r))), [])
    return lacks(**in_rounds(x, c), PutsUrgentFirst=urgent, enough=2 * c.delays <= len(rounds), **unless_reached(x, c, reached_at(x, c)))


# ---- the conclusion

def reached_at(x: Execution, c: Choice) -> int | None:
    """Returns when a check is sent on the pair's path, or so many rounds have checked other pairs before it."""
    return reached_by(x, c, lambda r: is_overtaken(x, c.side, c.pair, r), lambda _: False)


# ---- the search

def choices(x: Execution) -> Iterator[Choice]:
    """Proposes each urgent pair that is due at a `handle_timeout`, with the fewest rounds for each number of them that check others."""
    for side in SIDES:
        row = x.timeouts[side]
        for place, first in enumerate(row):
            agent, now = x.state(first, side), x.now(first)
            waiting = [p.number for p in agent.pairs if p.is_urgent and p.due_at(now, agent.timing) < now]
            most = most_rounds(x, side, place, is_in_round) if waiting else 0
            for delays in range(1, min(MOST_DELAYS, most // 2) + 1):
                yield from (Choice(side, number, first, row[place + 2 * delays - 1] + 1, delays) for number in waiting)


def find(x: Execution) -> Verdict:
    """Returns the first such choice, or one in which neither came true."""
    return first_of_all(choices(x), lambda c: lacking(x, c), lambda c: over(c.rounds(x), reached_at(x, c)), "line.there")
