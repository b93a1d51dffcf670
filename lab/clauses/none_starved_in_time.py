"""`run`, clause `none_starved_in_time` (`SteadyRoundsReachInTime`): with limits on pairs and on what packets bring, k rounds after the
first one are enough for a pair that is due by it, whatever pairs packets add, and the caller is punctual. Then a check is sent on the
pair's path by k times the pacing interval and the caller's delay after the first round begins, once k rounds came or one begins later."""

from __future__ import annotations

from collections.abc import Iterator
from dataclasses import dataclass

from ..model import Agent
from ..pairs import Pair
from ..scenario import SIDES
from . import in_time
from .connections import Rows, selections_of, succeeds_in
from .execution import MAX, Execution, Lacks, Round, any_in, fewest, is_in_round, lacks
from .fair import is_new_agent
from .in_time import checked_at, delay, latest_deadline, pace
from .opening import most_rounds
from .progress import is_in_line, is_lasting, nominations_ahead
from .single import are_in_round, is_passing
from .verdict import Verdict, first_that_holds

ADDS = ("add_local_candidate", "add_remote_candidate")
FORMS = (*ADDS, "recreate_candidate_pairs")
SERVES = ("handle_packet", "handle_timeout")


@dataclass(frozen=True)
class Choice(in_time.Choice):
    """The side, the path and the segment, as in `in_time`. So many rounds after the first are to be enough."""

    many: int


# ---- the bound

def adds_none(call: str) -> bool:
    """Whether the call adds no candidate."""
    return call not in ADDS


def is_steady(call: str) -> bool:
    """Whether the call may come in rounds in which no candidate is added, `handle_timeout` aside (`is_steady`)."""
    return is_in_round(call) and adds_none(call)


def greatest_limit(x: Execution, side: str) -> int | None:
    """Returns the greatest limit on what packets bring, whenever a packet or a timeout comes (`IsLimited`). None: there is none once."""
    def greatest() -> list[int]:
        calls = x.indices(("serves", side), lambda s: s.entry.side == side and s.entry.call in SERVES)
        limits = {x.state(at, side).max_discovered for at in calls}
        return [] if None in limits else [max((limit for limit in limits if limit is not None), default=0)]

    return next(iter(x.kept(("greatest_limit", side), greatest)), None)


def pair_bound(x: Execution, side: str, first: int) -> int | None:
    """Returns as many pairs as the caller allows in rounds that begin with an entry (`bound_in`)."""
    most = greatest_limit(x, side)
    forms = x.indices(("forms", side), lambda s: s.entry.side == side and s.entry.call in FORMS)
    limits = x.kept(("pair_limits", side), lambda: [max((x.state(at, side).max_pairs for at in forms), default=0)])
    local, remote = (x.indices(("adds", side, call), lambda s: s.entry.side == side and s.entry.call == call) for call in ADDS)
    gathered, signaled = (sum(at < first for at in added) for added in (local, remote))
    return None if most is None else limits[0] + gathered * (most + signaled)


def least_rounds(is_modern: bool, retransmits: int, checks: int) -> int | None:
    """Returns the least number of rounds that are enough for so many checks: two for each pair that is there at first, one for each that
    there may be later, and one for each nomination that may be sent at once (`AreEnough`). None: no number is."""
    each = 2 if is_modern else 1
    needed, gained = (each * checks - 1) * retransmits, retransmits - each
    return None if gained <= 0 else max(0, -(-needed // gained))


def least_later(agent: Agent, is_early: bool, bound: int, selections: int) -> int | None:
    """Returns the least number of rounds after the first one that are enough (`AreEnoughLater`). `is_early`: the pair is due before it."""
    ahead = nominations_ahead(agent, selections)
    later = least_rounds(agent.modern, agent.timing.retransmits, 2 * bound + bound + ahead)
    early = least_rounds(agent.modern, agent.timing.retransmits, 2 * len(agent.pairs) + bound + ahead) if is_early else None
    found = [count for count in (later, None if early is None else max(0, early - 1)) if count is not None]
    return min(found, default=None)


def limit(x: Execution, c: Choice) -> int:
    """Returns by when the check is sent."""
    rounds = c.rounds(x)
    return rounds[0].now + c.many * (pace(x, c) + (delay(x, c.side, rounds) or 0))


# ---- the preconditions

def have_consent(x: Execution, side: str, rounds: list[Round]) -> bool:
    """Whether all pairs that are stored have consent at each `handle_timeout` call (`ConsentLastsIn`)."""
    return all(p.has_consent(r.now, agent.timing.consent) for r in rounds for agent in (x.state(r.moment, side),) for p in agent.pairs)


def are_steady(x: Execution, side: str, rounds: list[Round]) -> bool:
    """Whether no candidate is added in the rounds (`AreSteady`). What else may come in them is tested for each round."""
    return not any(any_in(x.calls_besides(side, adds_none), r.behind) for r in rounds)


def lacking_of(x: Execution, c: Choice, pair: Pair) -> Lacks:
    """Returns the preconditions that do not hold of this pair."""
    rounds, agent = c.rounds(x), x.state(c.first, c.side)
    start, later = rounds[0], rounds[1:]
    by = min(pair.due_at(start.now, agent.timing), start.now)  # so `by` is no later than the first call
    bound = pair_bound(x, c.side, c.first)
    needed = None if bound is None else least_later(agent, by < start.now, bound, selections_of(x, c.side, range(c.first, c.end)))
    passing: Lacks = next((missing for r in later if (missing := is_passing(x, c.side, by, r))), [])
    return lacks(line=is_in_line(start.now, by, agent, pair),
                 first=lacks(early=start.now < MAX, between=are_in_round(x, c.side, start)), IsPassing=passing,
                 lasting=all(is_lasting(r.now, agent, pair) for r in later), enough=needed is not None and needed <= c.many)


def lacking(x: Execution, c: Choice) -> Lacks:
    """Returns the preconditions that do not hold. Without a check there may be a reason: a success response."""
    rounds = c.rounds(x)
    of_pair = fewest([lacking_of(x, c, p) for p in x.state(c.first, c.side).on(c.path)], ["on"])
    is_long = c.many < len(rounds) or any(limit(x, c) < r.now for r in rounds[1:])
    return [*lacks(IsFresh=is_new_agent(x.state(0, c.side)), IsLimited=greatest_limit(x, c.side) is not None,
                   steady=are_steady(x, c.side, rounds), consents=have_consent(x, c.side, rounds)), *of_pair,
            *lacks(punctual=delay(x, c.side, rounds) is not None, long=is_long,
                   IsAnsweredIn=checked_at(x, c) is not None or not succeeds_in(x, c.side, c.path, rounds))]


# ---- the search

def may_be_long(x: Execution, side: str, place: int, most: int, least: int) -> bool:
    """Whether among so many rounds from the side's `handle_timeout` call at this place on there may be enough, or one that begins after the
    time of the bound, if at least so many after the first are enough."""
    row, at = x.timeouts[side], x.timeouts[side][place]
    return least < most or x.now(at) + least * x.state(at, side).advance < x.now(row[place + most - 1])


def segment(x: Execution, side: str, place: int, is_early: bool) -> tuple[int, int] | None:
    """Returns how many rounds after the first are enough, from the side's `handle_timeout` call at this place on, and the end of the
    shortest segment in which so many come, or one begins after the time of the bound. None: there is no such segment."""
    row, bound = x.timeouts[side], pair_bound(x, side, x.timeouts[side][place])
    start, most = x.state(row[place], side), most_rounds(x, side, place, is_steady)
    least = None if bound is None else least_later(start, is_early, bound, 0)
    if bound is None or least is None or not may_be_long(x, side, place, max(most, 1), least):
        return None
    late, begin = 0, x.now(row[place])
    for later in range(most):
        at = row[place + later]
        many = least_later(start, is_early, bound, selections_of(x, side, range(row[place], at + 1)))
        if later:
            before = row[place + later - 1]
            deadline = latest_deadline(x, side, Round(x.now(before), before, range(before + 1, at)))
            late = max(late, x.now(at) - deadline) if deadline is not None else late
        if many is not None and (many <= later or begin + many * (start.advance + late) < x.now(at)):
            return many, at + 1
    return None


def choices(x: Execution) -> Iterator[Choice]:
    """Proposes each `handle_timeout` call with the path of each pair that is due by then, if enough rounds follow; and the first such call
    of each side with one round, which shows what lacks."""
    for side in SIDES:
        rows = Rows(x, side)
        for place, first in enumerate(rows.timeouts):
            for is_early in (True, False) if rows.lines(place) else ():
                if (found := segment(x, side, place, is_early)) is not None:
                    yield from (Choice(side, path, first, found[1], found[0]) for path in rows.lines(place))
    for side in SIDES:
        rows = Rows(x, side)
        for place, first in enumerate(rows.timeouts):
            if rows.lines(place):
                yield Choice(side, next(iter(rows.lines(place))), first, first + 1, least_at(x, side, first))
                break


def least_at(x: Execution, side: str, first: int) -> int:
    """Returns the least number of rounds that are enough after the side's `handle_timeout` call at this entry, by which a pair is due."""
    bound = pair_bound(x, side, first)
    return 0 if bound is None else least_later(x.state(first, side), False, bound, 0) or 0


def verdict_of(x: Execution, c: Choice) -> Verdict:
    """Returns the bound of a choice, and when the check was sent."""
    return Verdict("", x.time(c.first), limit(x, c), checked_at(x, c), c.many + 1)


def find(x: Execution) -> Verdict:
    """Returns the first choice that lacks nothing."""
    return first_that_holds(choices(x), lambda c: lacking(x, c), lambda c: verdict_of(x, c), "line.there")
