"""`World::run`, clause `connect` (`BothConnect`): each agent has rounds that suffice for a pair, and the network delivers in them. Then
the controlled agent selected a path by its next `handle_timeout` call that serves no early request."""

from __future__ import annotations

from collections.abc import Iterator
from dataclasses import dataclass

from ..pairs import Path
from ..replay import other
from ..scenario import SIDES
from .connections import Rows, by_last_call, has_rounds, succeeds_in
from .execution import Lacks, Round, lacks
from .fair import are_new_agents
from .nomination_accepted import latest_ask, latest_exchange, nominated_paths, reached_paths, selected_by
from .accepted_nominations import Network, is_asked_over, is_controlled, is_exchanged_over, serves_no_request
from .progress import is_alone
from .selections import checks_in
from .staying import may_end_in, may_end_in_rounds
from .verdict import Verdict, first_that_holds


@dataclass(frozen=True)
class Choice:
    """The controlled side and its path; the path `its` of the other side; the segment, from the entry `start` up to the `handle_timeout`
    call `moment`; and in it the first rounds of the two sides."""

    side: str
    path: Path
    its: Path
    start: int
    asking: int
    asked: int
    moment: int


def asks(n: Network, side: str, path: Path, its: Path, part: range, rounds: list[Round]) -> Lacks:
    """If the other side sends a check on `its` in its rounds, or accepts a success response on it, one nominates the path (`Asks`)."""
    over = is_asked_over(n, side, path, part)
    return lacks(asked=over if checks_in(n.x, other(side), its, rounds) else [],
                 early=over if succeeds_in(n.x, other(side), its, rounds) else [])


def is_answered(n: Network, side: str, path: Path, part: range, rounds: list[Round]) -> Lacks:
    """If the side sends a check on the path in its rounds, one is answered while it is pending (`IsAnswered`)."""
    return is_exchanged_over(n, side, path, part) if checks_in(n.x, side, path, rounds) else []


def lacking(n: Network, c: Choice) -> Lacks:
    """Returns the preconditions that do not hold."""
    part, whole = range(c.start, c.moment), range(c.start, c.moment + 1)
    asking, asked = n.x.rounds(other(c.side), c.asking, c.moment), n.x.rounds(c.side, c.asked, c.moment)
    return lacks(
        IsNewlyCreated=are_new_agents(n.x),
        split=c.start <= min(c.asking, c.asked),
        IsControlled=is_controlled(n.x, c.side, whole),
        asking=has_rounds(n.x, other(c.side), c.its, asking, c.moment),
        Asks=asks(n, c.side, c.path, c.its, part, asking),
        asked=has_rounds(n.x, c.side, c.path, asked, c.moment),
        IsAnswered=is_answered(n, c.side, c.path, part, asked),
        request_at=serves_no_request(n.x, c.side, c.moment),
        IsOnlyPair=is_alone(n.x.state(c.moment + 1, c.side), c.path),
        MayEndAt=not may_end_in(n.x, c.side, c.path, whole),
        MayEndInRounds=not may_end_in_rounds(n.x, other(c.side), c.its, asking))


# ---- the search

class Search:
    """Proposes choices for one controlled side."""

    def __init__(self, n: Network, side: str) -> None:
        self.n, self.side = n, side
        self.paths = nominated_paths(n, side)
        self.own, self.peers = Rows(n.x, side), Rows(n.x, other(side))

    def at(self, moment: int) -> Iterator[Choice]:
        """Proposes the shortest segment for each path, if both sides have rounds."""
        its = self.peers.latest(moment) if self.paths else None
        for path in self.paths if its is not None else ():
            asked = self.own.latest(moment, path)
            ask, answer = latest_ask(self.n, self.side, path, moment), latest_exchange(self.n, self.side, path, moment)
            if its is not None and asked is not None and ask is not None and answer is not None:
                yield Choice(self.side, path, its[1], min(its[0], asked[0], ask, answer), its[0], asked[0], moment)

    def whole(self, moment: int) -> Iterator[Choice]:
        """Proposes choices that show what is missing."""
        agent, start = self.n.x.state(moment, other(self.side)), self.n.x.controlled_since(self.side, moment)
        pair = next((p for p in agent.pairs if p.is_nominated), next(iter(agent.pairs), None))
        if pair is not None:
            asking, its = self.peers.latest(moment) or self.peers.longest(moment, agent.path(pair), start)
            for path in reached_paths(self.n, self.side):
                asked, _ = self.own.latest(moment, path) or self.own.longest(moment, path, start)
                yield Choice(self.side, path, its, start, asking, asked, moment)


def choices(n: Network) -> Iterator[Choice]:
    """Proposes choices by the time of the last `handle_timeout` call; at the end some that show what is missing."""
    return by_last_call(n.x, {side: Search(n, side) for side in SIDES})


def find(n: Network) -> Verdict:
    """Returns the earliest bound."""

    def verdict(c: Choice) -> Verdict:
        count = max(len(n.x.rounds(other(c.side), c.asking, c.moment)), len(n.x.rounds(c.side, c.asked, c.moment)))
        return Verdict("", n.x.time(c.start), n.x.time(c.moment), selected_by(n, c.side, c.moment), count)

    return first_that_holds(choices(n), lambda c: lacking(n, c), verdict, "IsAskedOver.handed")
