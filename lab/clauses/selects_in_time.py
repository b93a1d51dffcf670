"""`World::run`, clause `selects_in_time` (`SelectionsComeInTime`): a pair of the controlling side is due by the first of k + 1 rounds,
which suffice for it. The side may add candidates in them, and the other one may begin in its role. Its caller is punctual, and the network
answers a check on the pair's path within a round trip. Then the side selects a path in a round that begins at most k times the pacing
interval and the caller's delay, and a round trip, after the first one."""

from __future__ import annotations

from collections.abc import Callable, Iterator

from ..pairs import Path
from ..replay import other
from .accepted_nominations import SUCCESS, Network
from .executions_select_in_time import Choice, Search, by_first_call, first_call_that_holds, limit_of
from .execution import Execution, Lacks, Round, any_in, lacks
from .fair import are_new_agents
from .in_time import delay
from .opening import pair_of
from .progress import awaits, is_unanswered
from .selections import are_kept, makes_in_round, suffice_for_pair
from .staying import may_end_in_rounds
from .verdict import Verdict


# ---- the bound and the conclusion

def first_answer(n: Network, side: str, path: Path, first: int) -> int | None:
    """Returns when the first success response comes back in time to a check that the side sends on the path from an entry on. The other
    side is controlled once it received the check (`IsAnsweredBy`)."""
    backs = (n.back_at(h, SUCCESS, True) for h in n.handed[side]
             if h.path == path and h.sent >= first and not n.x.state(h.arrived + 1, other(side)).controlling)
    return min((at for at in backs if at is not None), default=None)


def trip(n: Network, c: Choice) -> int | None:
    """Returns the least round trip within which a check on the path is answered whenever one is sent (`AreAnsweredWithin`): its response is
    delivered in a round that begins so long after, or earlier. None: there is a check, and no response is delivered."""
    rounds, path = c.rounds(n.x), c.path(n.x)
    sent = [r.now for r in rounds if n.x.steps[r.moment].checks(c.side, path)]
    if not sent:
        return 0
    back = first_answer(n, c.side, path, c.first)
    place = next((place for place, r in enumerate(rounds) if back is not None and back in r.behind), None)
    return None if place is None else max(0, max(r.now for r in rounds[:place + 1]) - min(sent))


def limit(n: Network, c: Choice) -> int | None:
    """Returns by when a round begins in which a path is selected."""
    return limit_of(n.x, c, trip(n, c))


def selected_at(x: Execution, c: Choice) -> int | None:
    """Returns when the first round begins in which the side selects a path (`SelectsBy`)."""
    return min((r.now for r in c.rounds(x) if any_in(x.selections(c.side), r.behind)), default=None)


# ---- the preconditions

def lacking_with(n: Network, c: Choice, enough_for: Callable[[int, list[Round]], Lacks]) -> Lacks:
    """Returns the preconditions that do not hold, with rounds that are enough in this way for the pair, which is due by a time."""
    x, rounds, agent = n.x, c.rounds(n.x), n.x.state(c.first, c.side)
    enough, more = rounds[:c.count], rounds[c.count:]
    pair, now = pair_of(agent, c.pair), rounds[0].now
    by = min(pair.due_at(now, agent.timing), now)
    return lacks(IsNewlyCreated=are_new_agents(x), role=agent.controlling,
                 StaysControlling=x.is_controlling_in(c.side, range(c.first + 1, c.end + 1)), Awaits=awaits(now, by, agent, pair),
                 IsUnanswered=is_unanswered(agent, pair), AreKept=are_kept(x, c.side, by, enough),
                 enough=enough_for(by, enough), punctual=delay(x, c.side, enough) is not None,
                 MakesInRound=all(makes_in_round(x, c.side, r.behind) for r in more), AreAnsweredWithin=trip(n, c) is not None,
                 MayEndInRounds=not may_end_in_rounds(x, c.side, c.path(x), enough))


def lacking(n: Network, c: Choice) -> Lacks:
    """Returns the preconditions that do not hold."""
    return lacking_with(n, c, lambda by, rounds: suffice_for_pair(n.x, c.side, by, rounds, c.pair))


# ---- the search

class NetworkSearch(Search):
    """The search for choices: an answer is a success response that the network delivers."""

    def __init__(self, n: Network) -> None:
        super().__init__(n.x)
        self.n = n

    def answer(self, side: str, path: Path, first: int) -> int | None:
        """Returns at which entry the first answer comes to a check that is sent from a `handle_timeout` call on."""
        return first_answer(self.n, side, path, first)

    def limit(self, c: Choice) -> int | None:
        """Returns by when a round begins in which a path is selected."""
        return limit(self.n, c)


def choices(n: Network) -> Iterator[Choice]:
    """Proposes choices by the first `handle_timeout` call, of one call those with the earliest bound first."""
    return by_first_call(NetworkSearch(n).choices())


def verdict_of(n: Network, c: Choice) -> Verdict:
    """Returns the bound of a choice, and when a path was selected."""
    return Verdict("", n.x.time(c.first), limit(n, c), selected_at(n.x, c), c.count)


def find(n: Network) -> Verdict:
    """Returns what holds at the first call with a choice that lacks nothing."""
    return first_call_that_holds(choices(n), lambda c: lacking(n, c), lambda c: verdict_of(n, c))
