"""The theorem `completed_nominations_are_selected` (`CompletedNominationsAreSelected`): of a path's nomination and a success response on
it the second one arrives. Then a controlled agent has selected a best pair in this very call; if it is the nomination, with the profile
`Modern`."""

from __future__ import annotations

from collections.abc import Iterator
from dataclasses import dataclass

from ..pairs import Path
from ..replay import Step
from ..scenario import SIDES
from ..stun import message_of
from .execution import Execution, Lacks, brings_success, lacks
from .fair import is_new_agent
from .progress import has_selected, is_alone
from .seen import success_path, walk
from .staying import may_end_in
from .verdict import Verdict, first_of_all


@dataclass(frozen=True)
class Choice:
    """The side, its path, the entry `start` at which the first of the two arrives, or None, and the entry `at` at which the second does.

    `is_asked`: the second is the nomination. `selected`: the path that was selected last after it."""

    side: str
    path: Path
    start: int | None
    at: int
    is_asked: bool
    selected: Path | None


def accepts_nomination(step: Step, side: str) -> Path | None:
    """Returns the path of the success response to a request with USE-CANDIDATE, if the call serves one (`AcceptsNomination`)."""
    if step.issued is None or step.issued.kind != "success":
        return None
    if step.is_timeout:
        request = step.before[side].request_at(step.entry.given[0])
        asks = request is not None and request.use_candidate
    else:
        asks = message_of(step.entry.given[3]).use_candidate
    return step.issued.path if asks else None


def lacking(x: Execution, c: Choice) -> Lacks:
    """Returns the preconditions that do not hold (`CompletesNomination`)."""
    near, last = x.state(c.at, c.side), x.steps[c.at].after[c.side]
    may_end = c.start is not None and may_end_in(x, c.side, c.path, range(c.start, c.at + 1))
    return lacks(IsFresh=is_new_agent(x.state(0, c.side)), modern=not c.is_asked or near.modern,
                 arrives=c.start is not None, controlled=not last.controlling, IsOnlyPair=is_alone(last, c.path), Ends=not may_end)


def choices(x: Execution) -> Iterator[Choice]:
    """Proposes each nomination that is accepted and each success response, with the latest one of the other kind before it."""
    for side in SIDES:
        asked: dict[Path, int] = {}
        answered: dict[Path, int] = {}
        for step, seen in walk(x, side):
            if (path := accepts_nomination(step, side)) is not None:
                yield Choice(side, path, answered.get(path), step.at, True, seen.selected)
                if not step.after[side].controlling:
                    asked[path] = step.at
            elif brings_success(step):
                path = success_path(step)
                yield Choice(side, path, asked.get(path), step.at, False, seen.selected)
                answered[path] = step.at


def find(x: Execution) -> Verdict:
    """Returns the first such entry, or one after which the path that was selected last is not that of a best pair."""

    def verdict(c: Choice) -> Verdict:
        assert c.start is not None
        is_true = c.selected is not None and has_selected(x.steps[c.at].after[c.side], c.selected)
        return Verdict("", x.time(c.start), x.time(c.at), x.time(c.at) if is_true else None)

    return first_of_all(choices(x), lambda c: lacking(x, c), verdict, "arrives")
