"""`run`, clause `successes` (`SuccessesSelectPaths`): after each success response that a controlling agent accepts it has selected a best
pair."""

from __future__ import annotations

from collections.abc import Iterator

from ..scenario import SIDES
from .execution import Execution, Lacks, brings_success, lacks
from .fair import is_new_agent
from .progress import has_selected
from .seen import walk
from .states_agree import Choice
from .verdict import Verdict, first_of_all


def lacking(x: Execution, c: Choice) -> Lacks:
    """Returns the preconditions that do not hold."""
    return lacks(IsFresh=is_new_agent(x.state(0, c.side)), controlling=x.steps[c.at].after[c.side].controlling)


def choices(x: Execution) -> Iterator[Choice]:
    """Proposes each success response that is accepted."""
    for side in SIDES:
        yield from (Choice(side, step.at, seen.selected) for step, seen in walk(x, side) if brings_success(step))


def selects_top(x: Execution, c: Choice) -> Verdict:
    """Whether the path is that of a best pair (`IsTopPath`)."""
    time, is_top = x.time(c.at), c.selected is not None and has_selected(x.steps[c.at].after[c.side], c.selected)
    return Verdict("", time, time, time if is_top else None)


def find(x: Execution) -> Verdict:
    """Returns the first such response, or one after which the path is another one."""
    return first_of_all(choices(x), lambda c: lacking(x, c), lambda c: selects_top(x, c), "BringsSuccess")
