"""The theorem `reached_in_kind` (`RoundsReachInKind`): kinds take turns in 2 * k * (n + m) rounds and urgent pairs go first, for k kinds of
pairs and n other pairs of a pair's kind. Then a pair that is due is checked in one of them, or m of them check urgent pairs."""

from __future__ import annotations

from collections.abc import Iterator
from dataclasses import replace

from ..scenario import SIDES
from .execution import Execution, Lacks, Round, is_in_round, lacks
from .opening import most_rounds, pair_of
from .reached_in_turn import (
    MOST_CALLS, MOST_DELAYS, Choice, has_path, in_rounds, kind_in, kinds_at, kinds_of, reached_by, takes_turns, unless_reached)
from .verdict import Verdict, first_of_all, over

# While a side has more pairs, no choices are proposed: the search would take too long.
MOST_PAIRS = 30


# ---- the preconditions

def others_in(x: Execution, c: Choice, rounds: list[Round]) -> set[int]:
    """Returns the numbers of the other pairs that exist when the rounds begin and have the pair's kind before one of their calls."""
    start = x.state(c.first, c.side)
    kind = kind_in(start, pair_of(start, c.pair))
    found = {p.number for r in rounds for agent in [x.state(r.moment, c.side)] for p in agent.pairs if kind_in(agent, p) == kind}
    return {number for number in found if number != c.pair and number < start.next_number}


def goes_among(x: Execution, side: str, kind: int, number: int, r: Round) -> Lacks:
    """Kinds take turns at the `handle_timeout` call, and urgent pairs go first (`TakesTurnsAmong`)."""
    return lacks(turns=takes_turns(x, side, kind, number, r), urgent=x.state(r.moment, side).modern)


def lacking(x: Execution, c: Choice) -> Lacks:
    """Returns the preconditions that do not hold."""
    rounds, agent = c.rounds(x), x.state(c.first, c.side)
    kind = kind_in(agent, pair_of(agent, c.pair))
    turns: Lacks = next((missing for r in rounds if (missing := goes_among(x, c.side, kind, c.pair, r))), [])
    return lacks(**in_rounds(x, c), TakesTurnsAmong=turns,
                 enough=2 * len(kinds_of(x, c.side, rounds)) * (len(others_in(x, c, rounds)) + c.delays) <= len(rounds),
                 **unless_reached(x, c, reached_at(x, c)))


# ---- the conclusion

def is_held_up(x: Execution, side: str, number: int, r: Round) -> bool:
    """Whether the call checks another pair, which goes before all kinds (`IsHeldUp`)."""
    agent, step = x.state(r.moment, side), x.steps[r.moment]
    return any(p.number != number and agent.goes_first(p) and step.checks(side, agent.path(p)) for p in agent.pairs)


def reached_at(x: Execution, c: Choice) -> int | None:
    """Returns when a check is sent on the pair's path, or so many rounds have checked urgent pairs, or the agent has a path."""
    return reached_by(x, c, lambda r: is_held_up(x, c.side, c.pair, r), has_path)


# ---- the search

def spans(x: Execution, side: str, place: int, pair: int) -> Iterator[Choice]:
    """Returns for each number of delays the fewest rounds that suffice, from the side's `handle_timeout` call at this place on."""
    row, kinds, delays = x.timeouts[side], set[int](), 1
    c = Choice(side, pair, row[place], row[place] + 1, delays)
    for later in range(most_rounds(x, side, place, is_in_round)):
        moment = row[place + later]
        if delays > MOST_DELAYS or not x.state(moment + 1, side).modern:
            return
        kinds |= kinds_at(x, side, moment)
        c = replace(c, end=moment + 1, delays=delays)
        if 2 * len(kinds) * delays <= later + 1 and 2 * len(kinds) * (len(others_in(x, c, c.rounds(x))) + delays) <= later + 1:
            yield c
            delays += 1


def choices(x: Execution) -> Iterator[Choice]:
    """Proposes each pair that is due before one of a side's first `handle_timeout` calls, at which it has no path, with such rounds. The
    side has few pairs then."""
    for side in SIDES:
        row = x.timeouts[side]
        for place, first in enumerate(row[:MOST_CALLS]):
            agent, now = x.state(first, side), x.now(first)
            if not has_path(agent) and len(agent.pairs) <= MOST_PAIRS:
                for p in agent.pairs:
                    if p.due_at(now, agent.timing) < now:
                        yield from spans(x, side, place, p.number)


def find(x: Execution) -> Verdict:
    """Returns the first such choice, or one in which neither came true."""
    return first_of_all(choices(x), lambda c: lacking(x, c), lambda c: over(c.rounds(x), reached_at(x, c)), "TakesTurnsAmong")
