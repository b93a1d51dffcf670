"""The theorem `served_are_checked_soon` (`RoundsReachServed`): with the profile `Modern`, after a request on a path without a valid
pair, in 2 * m rounds a check is sent on that path, or m of them check the selected pair, or urgent pairs whose turn comes before."""

from __future__ import annotations

from collections.abc import Iterator

from ..scenario import SIDES
from .execution import Execution, Lacks, Round, is_in_round, lacks
from .opening import most_rounds, pair_of
from .reached_in_turn import MOST_DELAYS, Choice, in_rounds, unless_reached
from .served import is_served
from .urgent_are_reached import reached_at
from .verdict import Verdict, first_of_all, over


# ---- the preconditions

def select_none(x: Execution, rounds: list[Round]) -> bool:
    """Whether no `handle_timeout` call of the rounds selects a path."""
    return not any(x.steps[r.moment].selected for r in rounds)


def waiting(x: Execution, c: Choice) -> dict[str, bool | Lacks]:
    """Returns what is required of the pair and of the rounds, whatever is answered (`IsServedInRounds`)."""
    rounds, agent = c.rounds(x), x.state(c.first, c.side)
    return {**in_rounds(x, c), "IsServed": is_served(agent, pair_of(agent, c.pair)), "quiet": select_none(x, rounds),
            "enough": 2 * c.delays <= len(rounds)}


def lacking(x: Execution, c: Choice) -> Lacks:
    """Returns the preconditions that do not hold."""
    return lacks(**waiting(x, c), **unless_reached(x, c, reached_at(x, c)))


# ---- the search

def choices(x: Execution) -> Iterator[Choice]:
    """Proposes each such pair that is due at a `handle_timeout`, with the fewest rounds for each number of them that check others."""
    for side in SIDES:
        row = x.timeouts[side]
        for place, first in enumerate(row):
            agent, now = x.state(first, side), x.now(first)
            found = [p.number for p in agent.pairs if not is_served(agent, p) and p.due_at(now, agent.timing) < now]
            most = most_rounds(x, side, place, is_in_round) if found else 0
            for delays in range(1, min(MOST_DELAYS, most // 2) + 1):
                yield from (Choice(side, number, first, row[place + 2 * delays - 1] + 1, delays) for number in found)


def find(x: Execution) -> Verdict:
    """Returns the first such choice, or one in which neither came true."""
    return first_of_all(choices(x), lambda c: lacking(x, c), lambda c: over(c.rounds(x), reached_at(x, c)), "IsServed")
