"""The theorem `connected_have_consent` (`ConnectedHaveConsent`): a full agent that is connected after a `handle_timeout` call that serves
no early request has consent on the path that it selected last."""

from __future__ import annotations

from collections.abc import Callable, Iterator
from dataclasses import dataclass

from ..pairs import Pair, Path
from ..replay import Step
from ..scenario import SIDES
from .execution import Execution, Lacks, lacks
from .fair import is_new_agent
from .seen import Seen, walk
from .verdict import Verdict, first_of_all


@dataclass(frozen=True)
class Choice:
    """The side, its `handle_timeout` call, the path that it selected last, and its eligible pairs on it, with what the log shows of their
    checks."""

    side: str
    moment: int
    selected: Path | None
    pairs: tuple[Pair, ...]


def lacking(x: Execution, c: Choice) -> Lacks:
    """Returns the preconditions that do not hold (`IsConnectedAfter`)."""
    near, last = x.state(c.moment, c.side), x.steps[c.moment].after[c.side]
    return lacks(IsFresh=is_new_agent(x.state(0, c.side)), unqueued=near.request_at(x.now(c.moment)) is None, full=not near.lite,
                 connected=last.state.is_connected())


def choices(x: Execution) -> Iterator[Choice]:
    """Proposes each `handle_timeout` call."""
    yield from choices_by(x, lambda side, step, seen: seen.selected)


def choices_by(x: Execution, selected: Callable[[str, Step, Seen], Path | None]) -> Iterator[Choice]:
    """Proposes each `handle_timeout` call, with the path that `selected` returns."""
    for side in SIDES:
        for step, seen in walk(x, side):
            if step.is_timeout:
                agent, path = step.after[side], selected(side, step, seen)
                pairs = (p for p in seen.pairs(agent) if agent.path(p) == path and agent.is_eligible(p))
                yield Choice(side, step.at, path, tuple(pairs))


def has_consent_on(x: Execution, c: Choice) -> bool:
    """Whether the path is that of an eligible pair with consent (`HasConsentOn`)."""
    consent = x.steps[c.moment].after[c.side].timing.consent
    return any(p.has_consent(x.now(c.moment), consent) for p in c.pairs)


def verdict_of(x: Execution, c: Choice) -> Verdict:
    """Whether it is so after the call."""
    time = x.time(c.moment)
    return Verdict("", time, time, time if has_consent_on(x, c) else None)


def find(x: Execution) -> Verdict:
    """Returns the first such call, or one after which the path has no consent."""
    return first_of_all(choices(x), lambda c: lacking(x, c), lambda c: verdict_of(x, c), "connected")
