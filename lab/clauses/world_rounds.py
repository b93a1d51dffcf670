"""`World::run`, clause `rounds` (`DeliveredRoundsSelect`): a pair of the controlling agent is due in rounds that suffice for it, and the
network delivers if it is checked. Then the agent selects a path by then."""

from __future__ import annotations

from dataclasses import dataclass

from ..pairs import Path
from ..scenario import SIDES
from .execution import Lacks, any_in, lacks
from .fair import are_new_agents
from .accepted_nominations import SUCCESS, Network
from .opening import pair_of, proposals, rounds_of, waits
from .selections import checks_in, is_answered_in_time, is_controlling
from .verdict import Verdict, first_that_holds, selects


@dataclass(frozen=True)
class Choice:
    """The controlling side, the number of its pair, and the segment: from its first `handle_timeout` call up to the entry `end`. The
    rounds are so many, and end with the last one's `handle_timeout` call."""

    side: str
    pair: int
    first: int
    count: int
    end: int


def lacking(n: Network, c: Choice) -> Lacks:
    """Returns the preconditions that do not hold."""
    agent, part = n.x.state(c.first, c.side), range(c.first, c.end)
    rounds, path = rounds_of(n.x, c.side, c.first, c.count), agent.path(pair_of(agent, c.pair))
    answered = is_answered_in_time(n, c.side, path, part) if checks_in(n.x, c.side, path, rounds) else []
    return lacks(IsNewlyCreated=are_new_agents(n.x), split=rounds[-1].moment < c.end, controlling=agent.controlling,
                 IsControlling=is_controlling(n.x, c.side, part), IsAnsweredInTime=answered, **waits(n.x, c.side, c.pair, rounds))


# ---- the search

def first_answer(n: Network, side: str, path: Path, first: int) -> int | None:
    """Returns when the first success response comes back in time to a check that the side sends on the path from an entry on."""
    return n.first_back(side, path, None, SUCCESS, first)


def choices(n: Network) -> list[Choice]:
    """Proposes choices by their end: the last of the rounds, or the response. Those without enough rounds or a response come last."""
    found: list[tuple[bool, Choice]] = []
    for side in SIDES:
        for p in proposals(n.x, side):
            is_checked = any_in(n.x.checks(side, p.path), range(p.first, p.last + 1))
            answer = first_answer(n, side, p.path, p.first) if is_checked else None
            is_hopeless = p.count is None or (is_checked and answer is None)
            found.append((is_hopeless, Choice(side, p.pair, p.first, p.count or 1, max(answer or 0, p.last) + 1)))
    return [c for _, c in sorted(found, key=lambda f: (f[0], f[1].end, f[1].first, f[1].pair))]


def find(n: Network) -> Verdict:
    """Returns the earliest bound."""

    def verdict(c: Choice) -> Verdict:
        return Verdict("", n.x.time(c.first), n.x.time(c.end - 1), selects(n.x, c.side, range(c.first, c.end)), c.count)

    return first_that_holds(choices(n), lambda c: lacking(n, c), verdict, "Awaits.there")
