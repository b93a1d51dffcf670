"""`World::run`, clause `nomination_accepted` (`AcceptedNominationsSelect`): the controlled agent is nominated a path, and its check on
it is answered. Then it selected a path by its next `handle_timeout` call that serves no early request."""

from __future__ import annotations

from collections.abc import Iterator
from dataclasses import dataclass

from ..pairs import Path, reversed_path
from ..replay import other
from ..scenario import SIDES
from .execution import Lacks, lacks
from .fair import are_new_agents
from .accepted_nominations import SUCCESS, Handed, Network, is_asked_over, is_controlled, is_exchanged_over, serves_no_request
from .progress import is_alone, is_top_selected
from .staying import may_end_in
from .verdict import Verdict, first_that_holds, selects


@dataclass(frozen=True)
class Choice:
    """The controlled side, its path, and the segment: from the entry `start` up to its `handle_timeout` call `moment`."""

    side: str
    path: Path
    start: int
    moment: int


def lacking(n: Network, c: Choice) -> Lacks:
    """Returns the preconditions that do not hold."""
    part, whole = range(c.start, c.moment), range(c.start, c.moment + 1)
    return lacks(
        IsNewlyCreated=are_new_agents(n.x),
        IsControlled=is_controlled(n.x, c.side, whole),
        IsAskedOver=is_asked_over(n, c.side, c.path, part),
        IsExchangedOver=is_exchanged_over(n, c.side, c.path, part),
        request_at=serves_no_request(n.x, c.side, c.moment),
        IsOnlyPair=is_alone(n.x.state(c.moment + 1, c.side), c.path),
        MayEndAt=not may_end_in(n.x, c.side, c.path, whole))


# ---- the search

def nominated_paths(n: Network, side: str) -> list[Path]:
    """Returns the reverse of each path on which a check of the other side arrives whose own path is nominated."""
    return sorted({reversed_path(h.over) for h in n.handed[other(side)] if h.nominates})


def reached_paths(n: Network, side: str) -> list[Path]:
    """Returns the same paths; or of all delivered checks, to show what is missing."""
    return nominated_paths(n, side) or sorted({reversed_path(h.over) for h in n.handed[other(side)]})


def latest_ask(n: Network, side: str, path: Path, end: int) -> int | None:
    """Returns when the latest check is sent that nominates the path to the side before an entry."""
    return max((h.sent for h in n.handed[other(side)] if _asks(h, path) and h.arrived < end), default=None)


def _asks(check: Handed, path: Path) -> bool:
    return check.is_handed and check.nominates and check.over == reversed_path(path)


def latest_exchange(n: Network, side: str, path: Path, end: int) -> int | None:
    """Returns when the latest check of the side on the path is sent that is answered before an entry."""
    return n.latest_sent(side, path, None, SUCCESS, False, end)


def choices(n: Network) -> Iterator[Choice]:
    """Proposes each `handle_timeout` call with each path, and the shortest segment; at the end some that show what is missing."""
    paths = {side: nominated_paths(n, side) for side in SIDES}
    moments = sorted((at, side) for side in SIDES for at in n.x.timeouts[side])
    for moment, side in moments:
        for path in paths[side]:
            ask, answer = latest_ask(n, side, path, moment), latest_exchange(n, side, path, moment)
            if ask is not None and answer is not None:
                yield Choice(side, path, min(ask, answer), moment)
    for moment, side in {side: (at, side) for at, side in moments}.values():
        for path in reached_paths(n, side):
            yield Choice(side, path, n.x.controlled_since(side, moment), moment)


def selected_by(n: Network, side: str, moment: int) -> int | None:
    """Returns when the side first selected a path, if the pair that it selected last is a greatest one after its `handle_timeout` call."""
    return selects(n.x, side, range(moment + 1)) if is_top_selected(n.x.state(moment + 1, side)) else None


def find(n: Network) -> Verdict:
    """Returns the earliest bound."""

    def verdict(c: Choice) -> Verdict:
        return Verdict("", n.x.time(c.start), n.x.time(c.moment), selected_by(n, c.side, c.moment))

    return first_that_holds(choices(n), lambda c: lacking(n, c), verdict, "IsAskedOver.handed")
