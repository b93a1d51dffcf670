"""`run`, clause `in_time` (`RoundsReachInTime`): one agent has k rounds after the first one that suffice for a pair, and its caller is
punctual. Then it sends a check on the pair's path by k times the pacing interval and the caller's delay after the first round begins,
as in `in_time` of `World::run`, whatever the other agent is."""

from __future__ import annotations

from .connections import has_rounds, succeeds_in
from .execution import Execution, Lacks, lacks
from .fair import is_new_agent
from .in_time import Choice, checked_at, choices, delay, verdict_of
from .staying import may_end_in_rounds
from .verdict import Verdict, first_that_holds


def lacking(x: Execution, c: Choice) -> Lacks:
    """Returns the preconditions that do not hold. Without a check there may be a reason: a success response, or a pair that may be gone."""
    rounds = c.rounds(x)
    is_checked = checked_at(x, c) is not None
    return lacks(IsFresh=is_new_agent(x.state(0, c.side)), has=has_rounds(x, c.side, c.path, rounds, c.end),
                 punctual=delay(x, c.side, rounds) is not None,
                 IsAnsweredIn=is_checked or not succeeds_in(x, c.side, c.path, rounds),
                 IsEndedIn=is_checked or not may_end_in_rounds(x, c.side, c.path, rounds))


def find(x: Execution) -> Verdict:
    """Returns the rounds that end first."""
    return first_that_holds(choices(x), lambda c: lacking(x, c), lambda c: verdict_of(x, c), "has.rounds")
