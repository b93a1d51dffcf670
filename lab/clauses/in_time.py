"""`World::run`, clause `in_time` (`ChecksComeInTime`): a side has k rounds after the first one that suffice for a pair on a path, and its
caller is punctual. Then it sends a check on the path by k times the pacing interval and the caller's delay after the first round
begins."""

from __future__ import annotations

from bisect import bisect_left
from collections.abc import Iterator
from dataclasses import dataclass

from ..pairs import Path
from ..scenario import SIDES
from .connections import Rows, has_rounds, side_rounds_reach, succeeds_in
from .execution import Execution, Lacks, Round, is_in_round, lacks
from .fair import are_new_agents
from .opening import least_later, most_rounds
from .served import least_reaching
from .staying import may_end_in_rounds
from .verdict import Verdict, first_that_holds


@dataclass(frozen=True)
class Choice:
    """The side, its path, and the segment: its rounds from a `handle_timeout` call up to the entry `end`."""

    side: str
    path: Path
    first: int
    end: int

    def rounds(self, x: Execution) -> list[Round]:
        """Returns the rounds."""
        return x.rounds(self.side, self.first, self.end)


def pace(x: Execution, c: Choice) -> int:
    """Returns the greatest pacing interval in the rounds (`IsTimed`: `begins`, `keeps`)."""
    return max(x.state(at, c.side).advance for at in range(c.first, c.end + 1))


def lateness(x: Execution, side: str) -> list[int]:
    """Returns for each of the side's `handle_timeout` calls but the last how late the next one comes, after the latest time that
    `poll_timeout` returned between both. -1: it returned none."""
    def late(r: Round, following: Round) -> int:
        deadline = latest_deadline(x, side, r)
        return -1 if deadline is None else max(0, following.now - deadline)

    rounds = x.rounds(side, 0, len(x))
    return x.kept(("lateness", side), lambda: [late(r, following) for r, following in zip(rounds, rounds[1:])])


def latest_deadline(x: Execution, side: str, r: Round) -> int | None:
    """Returns the latest time that `poll_timeout` returned in the round, if one did."""
    polls = x.indices(("deadlines", side),
                      lambda s: s.entry.side == side and s.entry.call == "poll_timeout" and s.entry.returned is not None)
    inside = polls[bisect_left(polls, r.behind.start):bisect_left(polls, r.behind.stop)]
    return max((x.steps[at].entry.returned for at in inside), default=None)


def delay(x: Execution, side: str, rounds: list[Round]) -> int | None:
    """Returns how late the caller is at most: each later round begins so long after a time that `poll_timeout` returned in the round
    before, or earlier (`IsPunctual`). None: in one round `poll_timeout` returned no time."""
    if len(rounds) < 2:
        return 0
    first = bisect_left(x.timeouts[side], rounds[0].moment)
    found = lateness(x, side)[first:first + len(rounds) - 1]
    return None if min(found) < 0 else max(found)


def checked_at(x: Execution, c: Choice) -> int | None:
    """Returns the time of the first round that begins with a check on the path (`RoundChecks`)."""
    return next((x.time(r.moment) for r in c.rounds(x) if x.steps[r.moment].checks(c.side, c.path)), None)


def lacking(x: Execution, c: Choice) -> Lacks:
    """Returns the preconditions that do not hold. Without a check there may be a reason: a success response, or a pair that may be gone."""
    rounds = c.rounds(x)
    is_checked = checked_at(x, c) is not None
    return lacks(IsNewlyCreated=are_new_agents(x), has=has_rounds(x, c.side, c.path, rounds, c.end),
                 punctual=delay(x, c.side, rounds) is not None,
                 Succeeds=is_checked or not succeeds_in(x, c.side, c.path, rounds),
                 MayEndInRounds=is_checked or not may_end_in_rounds(x, c.side, c.path, rounds))


# ---- the search

def least_count(x: Execution, side: str, place: int, is_early: bool) -> int | None:
    """Returns how many rounds suffice at least for a pair that is due by the call at this place among the side's, or before it."""
    row = x.timeouts[side]
    for later in range(least_later(x, side, place), most_rounds(x, side, place, is_in_round)):
        end = row[place + later] + 1
        if side_rounds_reach(x, side, is_early, row[place], row[place + 1] if later else end, later, end):
            return later + 1
    return None


def choices(x: Execution) -> Iterator[Choice]:
    """Proposes each `handle_timeout` call with the path of each pair that is due by then, by the end of the rounds."""
    found = []
    for side in SIDES:
        rows = Rows(x, side)
        for place, first in enumerate(rows.timeouts):
            counts = {least_count(x, side, place, is_early) for is_early in (True, False)} if rows.lines(place) else ()
            lasts = {last for count in counts if count for last in rows.timeouts[place + count - 1:place + count + 1]}
            found += [Choice(side, path, first, last + 1) for last in lasts for path in rows.lines(place)]
    yield from sorted([*found, *served_choices(x)], key=lambda c: c.end)


def served_choices(x: Execution) -> Iterator[Choice]:
    """Proposes each `handle_timeout` call before which a pair is due on which a request was served, with the fewest rounds."""
    for side in SIDES:
        row = x.timeouts[side]
        for place, first in enumerate(row):
            agent, now = x.state(first, side), x.now(first)
            due = [p for p in agent.pairs if p.requests and p.due_at(now, agent.timing) < now]
            most = most_rounds(x, side, place, is_in_round) if due else 0
            counts = [(p, least_reaching(x, side, p.number, row[place:place + most])) for p in due if most]
            yield from (Choice(side, agent.path(p), first, row[place + count - 1] + 1) for p, count in counts if count is not None)


def verdict_of(x: Execution, c: Choice) -> Verdict:
    """Returns the bound of a choice, and when the check was sent."""
    rounds = c.rounds(x)
    each = pace(x, c) + (delay(x, c.side, rounds) or 0)
    return Verdict("", x.time(c.first), rounds[0].now + (len(rounds) - 1) * each, checked_at(x, c), len(rounds))


def find(x: Execution) -> Verdict:
    """Returns the rounds that end first."""
    return first_that_holds(choices(x), lambda c: lacking(x, c), lambda c: verdict_of(x, c), "has.rounds")
