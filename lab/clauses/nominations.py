"""`run`, clause `nominations` (`NominationsSelect`): after a `handle_timeout` call that serves no early request, if a pair is valid and
nominated, the agent has selected a best pair."""

from __future__ import annotations

from collections.abc import Iterator

from ..scenario import SIDES
from .execution import Execution, Lacks, lacks
from .fair import is_new_agent
from .seen import walk
from .states_agree import Choice
from .successes import selects_top
from .verdict import Verdict, first_of_all


def lacking(x: Execution, c: Choice) -> Lacks:
    """Returns the preconditions that do not hold."""
    near, last = x.state(c.at, c.side), x.steps[c.at].after[c.side]
    return lacks(IsFresh=is_new_agent(x.state(0, c.side)), unqueued=near.request_at(x.now(c.at)) is None,
                 nominated=any(p.is_valid and p.is_nominated for p in last.pairs))


def choices(x: Execution) -> Iterator[Choice]:
    """Proposes each `handle_timeout` call."""
    for side in SIDES:
        yield from (Choice(side, step.at, seen.selected) for step, seen in walk(x, side) if step.is_timeout)


def find(x: Execution) -> Verdict:
    """Returns the first such call, or one after which the path is another one."""
    return first_of_all(choices(x), lambda c: lacking(x, c), lambda c: selects_top(x, c), "nominated")
