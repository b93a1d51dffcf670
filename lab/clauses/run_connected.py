"""`run`, clause `connected` (`PathsHaveConsent`): at each entry of the log that is a `handle_timeout` call as in the theorem
`connected_have_consent`, the path that was selected last has consent. Which path that is, is read backwards from the entry."""

from __future__ import annotations

from bisect import bisect_right
from collections.abc import Iterator

from ..pairs import Path
from . import connected_have_consent
from .connected_have_consent import Choice, choices_by, verdict_of
from .execution import Execution, Lacks
from .seen import CLEARING
from .verdict import Verdict, first_of_all


def last_selected(x: Execution, side: str, at: int) -> Path | None:
    """Returns the path that the side selected last up to this entry, if it did so since the last clear (`last_selected`)."""
    found = x.indices(("last selected", side), lambda s: s.entry.side == side and (bool(s.selected) or s.entry.call in CLEARING))
    place = bisect_right(found, at)
    paths = x.steps[found[place - 1]].selected if place else ()
    return paths[-1] if paths else None


def lacking(x: Execution, c: Choice) -> Lacks:
    """Returns the preconditions that do not hold (`IsConnectedAt`): they are those of the theorem."""
    return connected_have_consent.lacking(x, c)


def choices(x: Execution) -> Iterator[Choice]:
    """Proposes each `handle_timeout` call."""
    return choices_by(x, lambda side, step, seen: last_selected(x, side, step.at))


def find(x: Execution) -> Verdict:
    """Returns the first such call, or one after which the path has no consent."""
    return first_of_all(choices(x), lambda c: lacking(x, c), lambda c: verdict_of(x, c), "connected")
