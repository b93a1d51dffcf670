"""The theorem `consent_holds` (`ConsentHolds`): after each `handle_timeout` call of a full agent that serves no early request each pair
has consent. With the profile `Original`, or without a response, that says nothing: so both are required here, too."""

from __future__ import annotations

from collections.abc import Iterator
from dataclasses import dataclass

from ..pairs import Pair
from ..scenario import SIDES
from .execution import Execution, Lacks, lacks
from .seen import is_maintained, walk
from .verdict import Verdict, first_of_all


@dataclass(frozen=True)
class Choice:
    """The side, its `handle_timeout` call, and its pairs after that, with what the log shows of their checks."""

    side: str
    moment: int
    pairs: tuple[Pair, ...]


def lacking(x: Execution, c: Choice) -> Lacks:
    """Returns the preconditions that do not hold."""
    agent = x.state(c.moment, c.side)
    return lacks(IsMaintained=is_maintained(agent, x.now(c.moment)), rule=agent.timing.consent is not None,
                 responded=any(p.consented is not None for p in c.pairs))


def choices(x: Execution) -> Iterator[Choice]:
    """Proposes each `handle_timeout` call."""
    for side in SIDES:
        for step, seen in walk(x, side):
            if step.is_timeout:
                yield Choice(side, step.at, seen.pairs(step.after[side]))


def have_consent(x: Execution, c: Choice) -> bool:
    """Whether each pair has consent."""
    consent = x.steps[c.moment].after[c.side].timing.consent
    return all(p.has_consent(x.now(c.moment), consent) for p in c.pairs)


def find(x: Execution) -> Verdict:
    """Returns the first such call, or one after which a pair has no consent."""

    def verdict(c: Choice) -> Verdict:
        time = x.time(c.moment)
        return Verdict("", time, time, time if have_consent(x, c) else None)

    return first_of_all(choices(x), lambda c: lacking(x, c), verdict, "IsMaintained.call")
