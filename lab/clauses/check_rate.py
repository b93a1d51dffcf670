"""The theorems `timeouts_check` (`TimeoutsCheck`) and `checks_are_paced` (`ChecksArePaced`, `SecondsHaveFewChecks`): how many checks an
agent sends, and how fast, whatever it receives.

Which checks are sent, and when, is what is polled. The model only says what the agent's own `poll_timeout` returns, whether the agent is
early, and its pacing interval."""

from __future__ import annotations

from bisect import bisect_left
from collections.abc import Iterator
from dataclasses import dataclass

from ..candidates import CHARGE, LEAST_ADVANCE, URGENT_CREDIT
from ..clock import MILLISECOND, SECOND
from ..model import Agent
from ..replay import comes_soon
from ..scenario import SIDES
from ..stun import message_of
from .execution import MAX, Execution, Lacks, lacks
from .fair import is_new_agent
from .verdict import Verdict, closest_of_all, counted

# The default pacing interval, and how many checks a second has at most with the least one, with the default, and of a frugal caller.
DEFAULT_ADVANCE = 50 * MILLISECOND
MOST, MOST_LATE, MOST_FRUGAL = 200, 20, 49


# ---- what is counted

def check_times(x: Execution, side: str) -> list[int]:
    """Returns when the side sent its checks: the times at which they are polled, which is after each call."""
    return [s.entry.time for s in x.steps if s.entry.side == side and s.entry.call == "poll_transmit"
            and message_of(s.entry.returned.contents).kind == "request"]


def begun_in(long: int, interval: int) -> int:
    """Returns how many intervals of this length begin in a span that is so long (`begun_in`)."""
    return (long + interval - 1) // interval


# ---- a patient caller

@dataclass(frozen=True)
class Poll:
    """A `poll_timeout` call on the agent itself, which follows the entry at this index, with the agent then, and what it returned."""

    at: int
    agent: Agent
    deadline: int | None

    @property
    def pace(self) -> int:
        """The pacing interval, or 3 s if that is less; as long as there was no `handle_timeout`, any (`IsPacedAt`)."""
        return MAX if self.agent.last is None else min(3 * SECOND, self.agent.pacing(self.agent.last))


def own_polls(x: Execution, side: str) -> list[Poll]:
    """Returns the `poll_timeout` calls on the agent itself. With `Original` they are those of the log. With `Modern` the library makes one
    after each call that may make something due, and its own `poll_timeout` is a query."""
    found, waiting = [], 0
    for step in (s for s in x.steps if s.entry.side == side):
        old, new = step.before[side], step.after[side]
        waiting = max(0, waiting + (step.issued is not None) - (step.entry.call == "poll_transmit"))
        waiting = 0 if step.entry.call == "ice_restart" else waiting
        if step.entry.call == "poll_timeout" and not new.modern:
            found.append(Poll(step.at, old, step.entry.returned))
        if new.modern and comes_soon(old, new, step.entry) is not None:
            found.append(Poll(step.at, new, new.poll_timeout(waiting > 0)[1]))
    return found


def lets_call(now: int, poll: Poll) -> bool:
    """Whether it returned no time, or one that has come (`lets_call`)."""
    return poll.deadline is None or poll.deadline <= now


class Least:
    """The least value of any part of a row."""

    def __init__(self, row: list[int]) -> None:
        self.rows = [row]
        while 2 ** len(self.rows) <= len(row):
            last, half = self.rows[-1], 2 ** (len(self.rows) - 1)
            self.rows.append([min(pair) for pair in zip(last, last[half:])])

    def of(self, first: int, after: int) -> int:
        """Returns that of the part from the first place to before the other one; the greatest time there is if it is empty."""
        if after <= first:
            return MAX
        power = (after - first).bit_length() - 1
        return min(self.rows[power][first], self.rows[power][after - (1 << power)])


class Caller:
    """What one side called, and what its agent sent. Its times do not run back. A span begins at `start`, and `end` is not in it."""

    def __init__(self, x: Execution, side: str) -> None:
        self.side, self.timeouts, self.checks, self.polls = side, x.timeouts[side], check_times(x, side), own_polls(x, side)
        self.is_new = is_new_agent(x.state(0, side))
        self._calls = [x.now(at) for at in self.timeouts]
        self._gaps = Least([MAX, *(self._gap(before, at, x) for before, at in zip(self.timeouts, self.timeouts[1:]))])
        self._frugal = Least([True, *(self._is_frugal(before, at, x) for before, at in zip(self.timeouts, self.timeouts[1:]))])
        timed = sorted((p for p in self.polls if p.agent.last is not None), key=lambda p: p.agent.last or 0)
        self._lasts = [p.agent.last or 0 for p in timed]
        self._paces = Least([p.pace for p in timed])
        self._advances = Least([p.agent.advance for p in timed])
        self._late = Least([not p.agent.is_early(last) for p, last in zip(timed, self._lasts)])

    def _gap(self, before: int, at: int, x: Execution) -> int:
        """Returns how long the `handle_timeout` call at this index comes after the one before, or any if a poll between both lets it come
        (`MayCallAt`)."""
        now, first = x.now(at), bisect_left(self.polls, before, key=lambda p: p.at)
        between = self.polls[first:bisect_left(self.polls, at, key=lambda p: p.at)]
        return MAX if any(lets_call(now, p) for p in between) else now - x.now(before)

    def _is_frugal(self, before: int, at: int, x: Execution) -> bool:
        """Whether a poll lets this `handle_timeout` call come, or it comes 25 ms after the one before, or after the last one that served no
        early request, or the charges for checks are at most 225 ms ahead of it (`IsFrugalAt`)."""
        now, agent = x.now(at), x.state(at, self.side)
        is_long = agent.last is None or agent.last + CHARGE <= now
        return self._gap(before, at, x) >= CHARGE or is_long or agent.charged_until <= now + URGENT_CREDIT

    def patience(self, start: int, end: int) -> int:
        """Returns the greatest gap with which the caller is patient in the span (`IsPatient`): the first call in it is free."""
        return self._gaps.of(bisect_left(self._calls, start) + 1, bisect_left(self._calls, end))

    def is_frugal(self, start: int, end: int) -> bool:
        """Whether the caller is frugal in the span (`IsFrugal`): the first call in it is free."""
        return self._frugal.of(bisect_left(self._calls, start) + 1, bisect_left(self._calls, end)) > 0

    def _polls_in(self, start: int, end: int) -> tuple[int, int]:
        """Returns the places of the polls after a `handle_timeout` in the span."""
        return bisect_left(self._lasts, start), bisect_left(self._lasts, end)

    def least_pace(self, start: int, end: int) -> int:
        """Returns the least pacing interval at one of these polls (`IsPacedAt`)."""
        return self._paces.of(*self._polls_in(start, end))

    def least_advance(self, start: int, end: int) -> int:
        """Returns the least one that is set at one of them (`IsSlowAt`)."""
        return self._advances.of(*self._polls_in(start, end))

    def is_late(self, start: int, end: int) -> bool:
        """Whether the agent is early at none of them (`IsLateAt`)."""
        return self._late.of(*self._polls_in(start, end)) > 0

    def pace(self, start: int, end: int) -> int:
        """Returns the longest interval with which the caller is patient in the span, and below which no pacing interval falls."""
        return min(self.patience(start, end), self.least_pace(start, end))


# ---- `timeouts_check`

def timeouts_check(x: Execution) -> Verdict:
    """Returns whether after each call at most as many checks were sent as there were `handle_timeout` calls (`TimeoutsCheck`). There is no
    precondition."""
    def verdict(side: str) -> Verdict:
        checks, calls, row = 0, 0, [s for s in x.steps if s.entry.side == side]
        for step in row:
            calls += step.is_timeout
            checks += step.entry.call == "poll_transmit" and message_of(step.entry.returned.contents).kind == "request"
            if checks > calls:
                return counted(row[0].entry.time, step.entry.time, checks, calls)
        return counted(row[0].entry.time, row[-1].entry.time, checks, calls)

    return closest_of_all((side for side in SIDES if x.timeouts[side]), lambda side: [], verdict, "handle_timeout")


# ---- `checks_are_paced`

@dataclass(frozen=True)
class Choice:
    """What one side called, and a time from which on checks are counted: that of a check. A span that begins before it has no more."""

    caller: Caller
    start: int


def choices(x: Execution) -> Iterator[Choice]:
    """Proposes each check of each side."""
    for side in SIDES:
        caller = Caller(x, side)
        yield from (Choice(caller, start) for start in dict.fromkeys(caller.checks))


def lacking_pace(c: Choice) -> Lacks:
    """Returns the preconditions of `ChecksArePaced` that do not hold of the shortest span; `closest_span` chooses the longer ones, and for
    each the longest interval of which `IsPatient` and `IsPacedAt` hold."""
    return lacks(IsNewlyCreated=c.caller.is_new, pace=c.caller.pace(c.start, c.start + 1) > 0)


def closest_span(c: Choice) -> Verdict:
    """Returns the span from the time on in which the number of checks is closest to that of the intervals that begin in it, or above. Each
    ends with a check."""
    times = c.caller.checks
    first = bisect_left(times, c.start)
    found = counted(c.start, c.start, 0, 1)
    for place in range(first, len(times)):
        end = times[place] + 1
        pace = c.caller.pace(c.start, end)
        if pace <= 0:
            break
        count, limit = place - first + 1, begun_in(end - c.start, pace)
        if count > limit:
            return counted(c.start, times[place], count, limit)
        if place > first and count * (found.limit or 1) > found.count * limit:
            found = counted(c.start, times[place], count, limit)
    return found


def checks_are_paced(x: Execution) -> Verdict:
    """Returns the span in which the number of checks is closest to that of the pacing intervals (`ChecksArePaced`)."""
    return closest_of_all(choices(x), lacking_pace, closest_span, "check")


def lacking_few(c: Choice, gap: int, late: bool) -> Lacks:
    """Returns the preconditions of the part of `SecondsHaveFewChecks` on patient callers that do not hold in the second from then on."""
    caller, start, end = c.caller, c.start, c.start + SECOND
    is_slow, is_patient = DEFAULT_ADVANCE <= caller.least_advance(start, end), gap <= caller.patience(start, end)
    is_late = not late or caller.is_late(start, end)
    return lacks(IsNewlyCreated=caller.is_new, IsSlowAt=is_slow, IsPatient=is_patient, IsLateAt=is_late)


def lacking_frugal(c: Choice) -> Lacks:
    """Returns the preconditions of the part on frugal ones that do not hold."""
    caller, start, end = c.caller, c.start, c.start + SECOND
    is_slow, is_frugal = DEFAULT_ADVANCE <= caller.least_advance(start, end), caller.is_frugal(start, end)
    return lacks(IsNewlyCreated=caller.is_new, IsSlowAt=is_slow, IsFrugal=is_frugal)


def in_second(c: Choice, limit: int) -> Verdict:
    """Returns how many checks the second from the time on has."""
    times = c.caller.checks
    count = bisect_left(times, c.start + SECOND) - bisect_left(times, c.start)
    return counted(c.start, c.start + SECOND, count, limit)


def seconds_have_few(x: Execution) -> Verdict:
    """Returns the second with the most checks in which the caller is patient with 5 ms: it has at most 200 (`SecondsHaveFewChecks`)."""
    return closest_of_all(choices(x), lambda c: lacking_few(c, LEAST_ADVANCE, False), lambda c: in_second(c, MOST), "check")


def late_seconds_have_few(x: Execution) -> Verdict:
    """Returns that in which it is patient with 50 ms, and the agent is not early: it has at most 20 (`SecondsHaveFewChecks`)."""
    return closest_of_all(choices(x), lambda c: lacking_few(c, DEFAULT_ADVANCE, True), lambda c: in_second(c, MOST_LATE), "check")


def frugal_seconds_have_few(x: Execution) -> Verdict:
    """Returns that in which it is frugal, whether the agent is early or not: it has at most 49 (`SecondsHaveFewChecks`)."""
    return closest_of_all(choices(x), lacking_frugal, lambda c: in_second(c, MOST_FRUGAL), "check")
