"""The theorem `silent_pairs_get_few` (`SilentPairsGetFew`, `SilencesHaveFewChecks`, `AskedPairsGetFew`, `NumbersOfChecks`): how many
checks a pair gets from which nothing arrives.

Checks are counted as they are polled, by their path. The model says which pair is on the path, and whether it is valid or had a request."""

from __future__ import annotations

from collections import Counter
from collections.abc import Iterable, Iterator
from dataclasses import dataclass, replace
from functools import lru_cache

from ..clock import SECOND
from ..model import Agent
from ..pairs import ASKED_TIME, EARLY_TIME, Pair, Timing, early_delay
from ..replay import Step
from ..scenario import SIDES
from ..stun import message_of
from .check_rate import own_polls
from .execution import MAX, Execution, Lacks, lacks
from .fair import is_new_agent
from .verdict import Verdict, closest_of_all, counted

# The numbers that are tried, above which none is looked for.
TRIED = 1000


# ---- the earliest times of checks

def least_delay(t: Timing, span: int, after: int, n: int) -> int:
    """Returns how long the next check comes after the n-th one at least, if that is sent so long after the first (`least_delay`)."""
    usual = t.delay(min(n, t.retransmits))
    is_early = t.modern and after < span
    return min(early_delay(n), usual) if is_early else usual


def early_time(t: Timing) -> int:
    """Returns how long checks without a response are repeated early (`early_time`)."""
    return min(EARLY_TIME, t.timeout())


def asked_time(t: Timing) -> int:
    """Returns the same for pairs whose first check followed a request (`asked_time`)."""
    return min(ASKED_TIME, early_time(t))


@lru_cache(maxsize=65536)
def check_time(t: Timing, span: int, n: int) -> int:
    """Returns how long the n-th check comes after the first at least (`check_time`)."""
    if n < 2:
        return 0
    before = check_time(t, span, n - 1)
    return before + least_delay(t, span, before, n - 1)


def ends_with(t: Timing, n: int) -> Lacks:
    """No check follows the n-th one (`EndsWith`)."""
    span = early_time(t)
    return lacks(counted=t.retransmits <= n, over=not t.modern or t.timeout() <= check_time(t, span, n + 1),
                 rare=not t.modern or span <= check_time(t, span, n))


def is_past_requests(t: Timing, n: int) -> bool:
    """Whether none does if a check of the peer arrived before the first of them (`IsPastRequests`)."""
    return 15 * SECOND <= check_time(t, early_time(t), n + 1)


def ends_asked(t: Timing, n: int) -> Lacks:
    """No check follows the n-th one of a pair whose first check followed a request (`EndsAsked`)."""
    span = asked_time(t)
    return lacks(enough=t.retransmits <= n, past=15 * SECOND <= check_time(t, span, n + 1),
                 rare=not t.modern or span <= check_time(t, span, n))


@lru_cache(maxsize=1024)
def least_number(t: Timing, heard: bool) -> int | None:
    """Returns the least n with which that is so; `heard`: if a check of the peer arrived, too."""
    return next((n for n in range(TRIED) if not ends_with(t, n) and (not heard or is_past_requests(t, n))), None)


@lru_cache(maxsize=1024)
def least_asked(t: Timing) -> int | None:
    """Returns the least n with which no check follows the n-th one of such a pair."""
    return next((n for n in range(TRIED) if not ends_asked(t, n)), None)


# ---- executions with one timing

class Timed:
    """One side: its timing at its first `handle_timeout`, and the index of the first entry from which on a precondition does not hold."""

    def __init__(self, x: Execution, side: str) -> None:
        self.side, self.is_new, row = side, is_new_agent(x.state(0, side)), x.timeouts[side]
        begun = row[0] if row else len(x)
        self.timing = x.state(begun, side).timing
        self.called = _first(at for at in row if x.state(at, side).timing != self.timing)
        self.early = _first(at for at in row if x.now(at) >= MAX)
        # Before the first `handle_timeout` a poll returns no time and changes nothing: the same execution is one without it.
        self.polled = _first(p.at for p in own_polls(x, side) if p.at >= begun and p.agent.timing != self.timing)
        times = [(s.at, s.entry.given[0]) for s in x.steps if s.entry.side == side and s.entry.call in ("handle_timeout", "handle_packet")]
        self.disordered = _first(at for (_, earlier), (at, later) in zip(times, times[1:]) if later < earlier)


def _first(indices: Iterable[int]) -> int:
    return next(iter(indices), MAX)


# ---- pairs from which nothing arrives

@dataclass(frozen=True)
class Choice:
    """A side, an entry that returns a check of it, and the check's pair at an index before that and after the entry. Both have the number
    of checks that the log shows on it. `n`: the number of checks that no other one follows, if there is one."""

    own: Timed
    at: int
    since: int
    before: Pair
    after: Pair
    n: int | None


def is_timed_by(c: Choice) -> Lacks:
    """When `handle_timeout` or `poll_timeout` is called, the timing is that of the execution, and the clock does not end (`IsTimedBy`)."""
    return lacks(called=c.own.called > c.at, early=c.own.early > c.at, polled=c.own.polled > c.at)


def is_silent(p: Pair) -> Lacks:
    """No response was recorded on the pair, and no request (`IsSilent`)."""
    return lacks(unanswered=not p.is_valid, unheard=p.requests == 0)


def stays_silent(c: Choice) -> Lacks:
    """It is the same pair as before, no response was recorded on it, and no request since (`StaysSilent`)."""
    return lacks(number=c.after.number == c.before.number, unanswered=not c.after.is_valid, unheard=c.after.requests == c.before.requests,
                 counted=c.before.requests < MAX)


def is_silent_since(c: Choice) -> Lacks:
    """So it is, and requests before keep it no longer than n checks take (`IsSilentSince`)."""
    return lacks(silent=stays_silent(c), kept=c.before.requests == 0 or (c.n is not None and is_past_requests(c.own.timing, c.n)))


def lacking_all(c: Choice) -> Lacks:
    """Returns the preconditions of all three theorems that do not hold."""
    return lacks(IsNewlyCreated=c.own.is_new, AreInOrder=c.own.disordered > c.at, IsTimedBy=is_timed_by(c))


def lacking_both(c: Choice) -> Lacks:
    """Returns the preconditions of the first two theorems that do not hold."""
    return lacks(EndsWith=c.n is not None and ends_with(c.own.timing, c.n)) + lacking_all(c)


def lacking(c: Choice) -> Lacks:
    """Returns the preconditions of `SilentPairsGetFew` that do not hold."""
    return lacking_both(c) + lacks(IsSilent=is_silent(c.after))


def lacking_since(c: Choice) -> Lacks:
    """Returns the preconditions of `SilencesHaveFewChecks` that do not hold."""
    return lacking_both(c) + lacks(IsSilentSince=is_silent_since(c))


def lacking_asked(c: Choice) -> Lacks:
    """Returns the preconditions of `AskedPairsGetFew` that do not hold."""
    return lacks(EndsAsked=c.n is not None and ends_asked(c.own.timing, c.n)) + lacking_all(c) + lacks(
        StaysSilent=stays_silent(c), is_asked_first=c.after.is_asked_first)


# ---- the search

def choices(x: Execution) -> Iterator[Choice]:
    """Proposes each check, with its pair from the entry on that brought it or its last request."""
    for side in SIDES:
        if x.timeouts[side]:
            own = Timed(x, side)
            yield from (_choice(own, *found) for found in _checks(x, side))


def _choice(own: Timed, at: int, since: int, before: Pair, after: Pair) -> Choice:
    return Choice(own, at, since, before, after, least_number(own.timing, before.requests > 0))


def _checks(x: Execution, side: str) -> Iterator[tuple[int, int, Pair, Pair]]:
    """Returns for each check of the side its index, and its pair before and after, as a choice has them."""
    counts: Counter[int] = Counter()
    starts: dict[int, tuple[int, Pair]] = {}
    for step in (s for s in x.steps if s.entry.side == side):
        agent = step.after[side]
        if agent.pairs is not step.before[side].pairs:
            for p in agent.pairs:
                if p.number not in starts or starts[p.number][1].requests != p.requests:
                    starts[p.number] = step.at, replace(p, sent=counts[p.number])
        if (pair := checked_pair(agent, step)) is not None:
            counts[pair.number] += 1
            yield step.at, *starts[pair.number], replace(pair, sent=counts[pair.number])


def checked_pair(agent: Agent, step: Step) -> Pair | None:
    """Returns the pair of the check that the entry returns: that on its path, and of several the one with its transaction ID."""
    if step.entry.call != "poll_transmit" or message_of(step.entry.returned.contents).kind != "request":
        return None
    packet = step.entry.returned
    found, id = agent.on((packet.source, packet.destination)), message_of(packet.contents).transaction
    return next((p for p in found if p.checks and p.checks[-1].id == id), found[0] if found else None)


def verdict_of(x: Execution, c: Choice) -> Verdict:
    """Returns how many checks the pair got between both."""
    assert c.n is not None
    return counted(x.time(c.since), x.time(c.at), c.after.sent - c.before.sent, c.n)


def silent_pairs_get_few(x: Execution) -> Verdict:
    """Returns the pair without a response and a request that got the most checks (`SilentPairsGetFew`)."""
    whole = (replace(c, before=replace(c.before, sent=0)) for c in choices(x))
    return closest_of_all(whole, lacking, lambda c: verdict_of(x, c), "check")


def silences_have_few(x: Execution) -> Verdict:
    """Returns the pair without a response that got the most checks since its last request (`SilencesHaveFewChecks`)."""
    return closest_of_all(choices(x), lacking_since, lambda c: verdict_of(x, c), "check")


def asked_pairs_get_few(x: Execution) -> Verdict:
    """Returns the pair whose first check followed a request that got the most checks since its last request (`AskedPairsGetFew`)."""
    found = (replace(c, n=least_asked(c.own.timing)) for c in choices(x))
    return closest_of_all(found, lacking_asked, lambda c: verdict_of(x, c), "check")
