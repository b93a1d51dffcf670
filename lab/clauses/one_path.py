"""`World::run`, clause `one_path` (`OnePathIsSelected`): with renomination at both sides, and without numbers, the controlling one
nominates a path last, and a check of the controlled one on it is answered. Then both selected it last, by a `handle_timeout` call of the
controlled one that serves no early request."""

from __future__ import annotations

from bisect import bisect_left
from collections.abc import Callable, Iterator
from dataclasses import dataclass

from ..pairs import Path, reversed_path
from ..replay import Step, other
from ..scenario import SIDES
from ..stun import message_of
from .accepted_nominations import Handed, Network, is_controlled, is_exchanged_over, serves_no_request
from .execution import Execution, Lacks, any_in, fewest, lacks
from .fair import are_new_agents
from .nomination_accepted import latest_exchange
from .progress import is_alone
from .seen import CLEARING, walk
from .staying import may_end_in
from .verdict import Verdict, first_of_all


@dataclass(frozen=True)
class Choice:
    """The controlled side, its path, the path of the other one, and the segment: from the entry `start` up to its `handle_timeout` call
    `moment`."""

    side: str
    path: Path
    its: Path
    start: int
    moment: int


def renominate(x: Execution, part: range) -> bool:
    """Whether both sides have renomination after each entry (`Renominate`)."""
    without = x.indices(("plain",), lambda s: not all(agent.renominates for agent in s.after.values()))
    return not any_in(without, part)


def changes_path(x: Execution, side: str) -> list[int]:
    """Returns the indices at which the side selects a path or clears its pairs: not `KeepsSelected`."""
    return x.indices(("changes", side), lambda s: s.entry.side == side and (bool(s.selected) or s.entry.call in CLEARING))


def nominates_other(x: Execution, side: str, path: Path) -> list[int]:
    """Returns the indices at which another path is nominated to the side, or may be by an early request: not `NominatesNoOther`."""

    def passes(s: Step) -> bool:
        if s.entry.side != side:
            return False
        if s.is_timeout:
            return not serves_no_request(x, side, s.at)
        is_packet = s.entry.call == "handle_packet" and s.entry.given[1:3] != reversed_path(path)
        return is_packet and message_of(s.entry.given[3]).use_candidate

    return x.indices(("nominates other", side, path), passes)


def _is_its(h: Handed, c: Choice) -> bool:
    return h.path == c.its and h.over == reversed_path(c.path)


def check_that_nominates(n: Network, c: Choice, part: range, besides: Callable[[Handed], Lacks]) -> Lacks:
    """A check of the other side on its path is delivered on the reverse of this one, its pairs are nominated, and after that it selects no
    path (`IsNominated`). `besides` says what else is missing."""

    def missing(h: Handed) -> Lacks:
        stays = not any_in(changes_path(n.x, h.side), range(h.sent + 1, part.stop))
        return [*h.missing, *lacks(nominated=h.nominates, stays=stays), *besides(h)]

    found = [h for h in n.handed[other(c.side)] if _is_its(h, c) and h.sent in part and h.arrived in part]
    return fewest([missing(h) for h in found], ["handed"])


def is_nominated_last(n: Network, c: Choice, part: range) -> Lacks:
    """The other side nominates the path, and no other path is nominated after that (`IsNominatedLast`)."""
    others = nominates_other(n.x, c.side, c.path)
    return check_that_nominates(n, c, part, lambda h: lacks(last=not any_in(others, range(h.arrived + 1, part.stop))))


def is_segment(n: Network, c: Choice, whole: range) -> dict[str, bool | Lacks]:
    """Returns the parts of `IsControlledSegment`, and whether both have renomination."""
    return {"IsNewlyCreated": are_new_agents(n.x), "IsControlled": is_controlled(n.x, c.side, whole),
            "request_at": serves_no_request(n.x, c.side, c.moment), "IsOnlyPair": is_alone(n.x.state(c.moment + 1, c.side), c.path),
            "Renominate": renominate(n.x, whole)}


def lacking(n: Network, c: Choice) -> Lacks:
    """Returns the preconditions that do not hold."""
    part, whole = range(c.start, c.moment), range(c.start, c.moment + 1)
    return lacks(
        **is_segment(n, c, whole), unnumbered=not n.x.state(c.moment + 1, c.side).numbers, IsNominatedLast=is_nominated_last(n, c, part),
        IsExchangedOver=is_exchanged_over(n, c.side, c.path, part), MayEndAt=not may_end_in(n.x, c.side, c.path, whole))


# ---- the search and the conclusion

def choices(n: Network) -> Iterator[Choice]:
    """Proposes each `handle_timeout` call with the latest check before it that nominates a path, and the shortest segment."""
    for side in SIDES:
        nominating = [h for h in n.handed[other(side)] if h.nominates]  # by the time of delivery
        arrivals = [h.arrived for h in nominating]
        for moment in n.x.timeouts[side]:
            place = bisect_left(arrivals, moment)
            if place:
                check = nominating[place - 1]
                answer = latest_exchange(n, side, reversed_path(check.over), moment)
                yield Choice(side, reversed_path(check.over), check.path, min(check.sent, check.sent if answer is None else answer), moment)


def selected_after(x: Execution, side: str) -> list[tuple[int, Path | None]]:
    """Returns at which entries the path that the side selected last changes, and to what (`IsSelectedLast`)."""
    found: list[tuple[int, Path | None]] = [(-1, None)]
    for step, seen in walk(x, side):
        if seen.selected != found[-1][1]:
            found.append((step.at, seen.selected))
    return found


def find(n: Network, missing: Callable[[Network, Choice], Lacks] = lacking, first: str = "IsNominatedLast.handed") -> Verdict:
    """Returns the first such call, or one after which the sides selected other paths."""
    paths = {side: selected_after(n.x, side) for side in SIDES}

    def last(side: str, at: int) -> Path | None:
        return paths[side][bisect_left([index for index, _ in paths[side]], at + 1) - 1][1]

    def verdict(c: Choice) -> Verdict:
        time, both = n.x.time(c.moment), (last(other(c.side), c.moment), last(c.side, c.moment))
        return Verdict("", n.x.time(c.start), time, time if both == (c.its, c.path) else None)

    return first_of_all(choices(n), lambda c: missing(n, c), verdict, first)
