"""`World::run`, clause `both` (`BothSelect`): two new agents agree on roles, and the network delivers on one path of each. Then both
select a path: the controlling one once its check is answered, if it has not yet; the controlled one by a `handle_timeout` after its
rounds."""

from __future__ import annotations

from bisect import bisect_left
from collections.abc import Iterator
from dataclasses import dataclass

from ..pairs import Path, reversed_path
from ..replay import other
from ..scenario import SIDES
from .connections import Rows, by_last_call, delivers, has_rounds, is_active
from .execution import Execution, Lacks, Round, lacks
from .fair import is_fair_world
from .accepted_nominations import ALL, Network, serves_no_request
from .meet import is_meeting
from .opening import Proposal, pair_of, proposals, rounds_of, waits
from .progress import are_nominated_on, is_alone, is_top_selected
from .staying import may_end_in, may_end_in_rounds
from .verdict import Verdict, first_that_holds, selects


@dataclass(frozen=True)
class Choice:
    """The side that is controlled in the end, its path, and the path `its` of the other side. The log up to `opening` is the meeting;
    from there up to `start` the opening, which begins with `count` rounds for a pair of the other side; without a pair, that side has
    selected a path by then. Up to the `handle_timeout` call `moment` comes the last segment, with the first rounds of both sides."""

    side: str
    path: Path
    its: Path
    opening: int
    pair: int | None
    count: int
    start: int
    leads: int
    goes: int
    moment: int


# ---- the preconditions

def agree_on_roles(n: Network, part: range) -> Lacks:
    """The roles differ from the start, or a check of one side is delivered in the segment, and its 487 (`AgreeOnRoles`)."""
    if n.x.roles[0]:
        return []
    paths = [(side, path) for side in SIDES for path in sorted({h.path for h in n.handed[side] if h.arrived in part})]
    return [] if any(not is_meeting(n, side, path, part) for side, path in paths) else ["IsMeeting"]


def opens(n: Network, c: Choice, pair: int) -> Lacks:
    """The opening begins with rounds of the other side that suffice for a pair on `its`, and the network delivers (`Opens`)."""
    x, side = n.x, other(c.side)
    rounds, agent = rounds_of(x, side, c.opening, c.count), x.state(c.opening, side)
    delivered = delivers(n, side, c.its, reversed_path(c.path), rounds, range(c.opening, c.start))
    is_on = agent.path(pair_of(agent, pair)) == c.its
    return lacks(on=is_on, split=rounds[-1].moment < c.start, **waits(x, side, pair, rounds), delivers=delivered)


def starts(n: Network, c: Choice) -> dict[str, bool | Lacks]:
    """Returns what has to hold of the opening: it begins with such rounds, or the other side has selected a path by its end
    (`StartsToSelect`)."""
    if c.pair is not None:
        return {"Opens": opens(n, c, c.pair)}
    return {"Already": c.opening <= c.start and selects(n.x, other(c.side), range(c.start)) is not None}


def stay_nominated(x: Execution, side: str, its: Path, part: range) -> bool:
    """Whether the side's pairs on the path are nominated after each entry (`AreNominatedOn`)."""
    unnominated = x.indices(("unnominated", side, its), lambda s: not are_nominated_on(x.state(s.at + 1, side), its))
    return not any(at in part for at in unnominated)


def goes(n: Network, side: str, path: Path, over: Path, first: int, part: range) -> Lacks:
    """The side has rounds in the segment that suffice for a pair on the path, and the network delivers on it (`Goes`)."""
    rounds = n.x.rounds(side, first, part.stop)
    return lacks(rounds=has_rounds(n.x, side, path, rounds, part.stop), delivers=delivers(n, side, path, over, rounds, part))


def lacking(n: Network, c: Choice) -> Lacks:
    """Returns the preconditions that do not hold."""
    x, part, whole = n.x, range(c.start, c.moment), range(c.start, c.moment + 1)
    return lacks(
        IsFairWorld=is_fair_world(x),
        split=c.start <= min(c.leads, c.goes),
        AgreeOnRoles=agree_on_roles(n, range(c.opening)),
        controlled=not x.state(c.opening, c.side).controlling,
        **starts(n, c),
        AreNominatedOn=stay_nominated(x, other(c.side), c.its, part),
        leads=goes(n, other(c.side), c.its, reversed_path(c.path), c.leads, part),
        goes=goes(n, c.side, c.path, reversed_path(c.its), c.goes, part),
        request_at=serves_no_request(x, c.side, c.moment),
        IsOnlyPair=is_alone(x.state(c.moment + 1, c.side), c.path),
        MayEndAt=not may_end_in(x, c.side, c.path, whole),
        MayEndInRounds=not may_end_in_rounds(x, other(c.side), c.its, x.rounds(other(c.side), c.leads, c.moment)))


# ---- the search

@dataclass(frozen=True)
class Opening:
    """The first rounds of the controlling side, or none, and the first entry at which the last segment may begin."""

    first: int
    pair: int | None
    count: int
    end: int


class Search:
    """Proposes choices for one controlled side: in which the other side opens, or those in which it selected a path before."""

    def __init__(self, n: Network, side: str, opens: bool) -> None:
        self.n, self.side, self.peer = n, side, other(side)
        self.own, self.peers = Rows(n.x, side), Rows(n.x, self.peer)
        asks = {(reversed_path(h.over), h.path) for h in n.handed[self.peer]}
        self.ways = sorted(asks & {(h.path, reversed_path(h.over)) for h in n.handed[side]})
        self.openings = {way: self._opening(*way) for way in self.ways} if opens else dict.fromkeys(self.ways, self._selected())

    def _opening(self, path: Path, its: Path) -> Opening | None:
        """Returns the opening that ends first, or one that shows what is missing."""
        found = []
        for p in proposals(self.n.x, self.peer, its):
            rounds = rounds_of(self.n.x, self.peer, p.first, p.count or 1)
            back = self.n.first_back(self.peer, its, reversed_path(path), ALL, p.first)
            is_needed = is_active(self.n.x, self.peer, its, rounds)
            is_good = self._is_good(p, rounds) and (back is not None or not is_needed)
            end = max(p.last, back if back is not None and is_needed else 0) + 1
            found.append((not is_good, end, Opening(p.first, p.pair, p.count or 1, end)))
        return min(found, key=lambda f: f[:2])[2] if found else None

    def _selected(self) -> Opening | None:
        """Returns the opening that ends once roles are agreed on, and the controlling side selected a path."""
        x = self.n.x
        agreed = bisect_left(range(len(x)), True, key=lambda end: not agree_on_roles(self.n, range(end)))
        found = x.selections(self.peer)
        if agreed == len(x) or x.state(agreed, self.side).controlling or not found:
            return None
        return Opening(agreed, None, 0, max(agreed, found[0] + 1))

    def _is_good(self, p: Proposal, rounds: list[Round]) -> bool:
        agreed = not agree_on_roles(self.n, range(p.first)) and not self.n.x.state(p.first, self.side).controlling
        return agreed and not lacks(**waits(self.n.x, self.peer, p.pair, rounds))

    def at(self, moment: int) -> Iterator[Choice]:
        """Proposes the shortest last segment for each two paths, if both sides have rounds and the opening ended before."""
        for path, its in self.ways:
            opening = self.openings[path, its]
            ask = self.n.latest_sent(self.peer, its, reversed_path(path), ALL, True, moment)
            answer = self.n.latest_sent(self.side, path, reversed_path(its), ALL, True, moment)
            if opening is None or ask is None or answer is None or min(ask, answer) < opening.end:
                continue
            leads, own = self.peers.latest(moment, its), self.own.latest(moment, path)
            if leads is not None and own is not None and (start := min(ask, answer, leads[0], own[0])) >= opening.end:
                yield Choice(self.side, path, its, opening.first, opening.pair, opening.count, start, leads[0], own[0], moment)

    def whole(self, moment: int) -> Iterator[Choice]:
        """Proposes choices that show what is missing."""
        for path, its in self.ways:
            if (opening := self.openings[path, its]) is not None and opening.end <= moment:
                leads, _ = self.peers.latest(moment, its) or self.peers.longest(moment, its, opening.end)
                own, _ = self.own.latest(moment, path) or self.own.longest(moment, path, opening.end)
                yield Choice(self.side, path, its, opening.first, opening.pair, opening.count, opening.end, leads, own, moment)


def choices(n: Network) -> Iterator[Choice]:
    """Proposes choices by the time of the last `handle_timeout` call, first those with rounds in the opening; and some that show what is
    missing."""
    for opens_first in (True, False):
        yield from by_last_call(n.x, {side: Search(n, side, opens_first) for side in SIDES})


def both_selected_by(n: Network, c: Choice) -> int | None:
    """Returns when both sides had selected a path: the controlling one by the end of the opening, in it if it has rounds there; the other
    one by the last call."""
    leads, own = selects(n.x, other(c.side), range(0 if c.pair is None else c.opening, c.start)), selects(n.x, c.side, range(c.moment + 1))
    if leads is None or own is None or not is_top_selected(n.x.state(c.moment + 1, c.side)):
        return None
    return max(leads, own)


def find(n: Network) -> Verdict:
    """Returns the earliest bound."""

    def verdict(c: Choice) -> Verdict:
        count = max(c.count, len(n.x.rounds(other(c.side), c.leads, c.moment)), len(n.x.rounds(c.side, c.goes, c.moment)))
        return Verdict("", n.x.time(c.opening), n.x.time(c.moment), both_selected_by(n, c), count)

    return first_that_holds(choices(n), lambda c: lacking(n, c), verdict, "Opens.on")
