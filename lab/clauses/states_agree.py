"""The theorem `states_agree` (`StatesAgree`): with the profile `Modern`, an agent that is never lite is Connected or Completed if and
only if the path that it selected last is that of a pair that is valid and nominated."""

from __future__ import annotations

from collections.abc import Iterator
from dataclasses import dataclass

from ..model import Agent
from ..pairs import Path
from ..replay import Step
from ..scenario import SIDES
from ..states import NEW
from .execution import Execution, Lacks, any_in, lacks
from .fair import is_new_agent
from .seen import walk
from .valid_have_consented import is_never_lite
from .verdict import Verdict, first_of_all


@dataclass(frozen=True)
class Choice:
    """The side, an entry of it, and the path that was selected last after that."""

    side: str
    at: int
    selected: Path | None


def is_modern_along(x: Execution, c: Choice) -> bool:
    """Whether the profile is `Modern` before each call since the session began (`IsModernAlong`)."""

    def passes(step: Step) -> bool:
        agent = step.before[c.side]
        return step.entry.side == c.side and agent.state is not NEW and not agent.modern

    return not any_in(x.indices(("original", c.side), passes), range(c.at + 1))


def lacking(x: Execution, c: Choice) -> Lacks:
    """Returns the preconditions that do not hold."""
    return lacks(IsFresh=is_new_agent(x.state(0, c.side)), AreNeverLite=is_never_lite(x, c.side, c.at), IsModernAlong=is_modern_along(x, c))


def choices(x: Execution) -> Iterator[Choice]:
    """Proposes each entry that changes the agent or selects a path."""
    for side in SIDES:
        for step, seen in walk(x, side):
            if step.after[side] is not step.before[side] or step.selected:
                yield Choice(side, step.at, seen.selected)


def is_live(agent: Agent, path: Path | None) -> bool:
    """Whether the path is that of a pair that is valid and nominated (`IsLive`)."""
    return any(p.is_valid and p.is_nominated and agent.path(p) == path for p in agent.pairs)


def find(x: Execution) -> Verdict:
    """Returns the first such entry, or one after which the state and the selected path do not agree (`IsAgreed`)."""

    def verdict(c: Choice) -> Verdict:
        time, agent = x.time(c.at), x.steps[c.at].after[c.side]
        return Verdict("", time, time, time if agent.state.is_connected() == is_live(agent, c.selected) else None)

    return first_of_all(choices(x), lambda c: lacking(x, c), verdict, "IsFresh")
