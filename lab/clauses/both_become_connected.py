"""The theorem `both_become_connected` of `is_c_theorems` (`BothBecomeConnected`): a check of the controlling agent is delivered, and its
response comes back. So are its nomination of a path, and a check of the controlled agent there with its response. Then both are
connected."""

from __future__ import annotations

from collections.abc import Iterator
from dataclasses import dataclass
from functools import partial

from ..model import Agent
from ..pairs import Path, reversed_path
from ..replay import other
from ..scenario import SIDES
from .accepted_nominations import SUCCESS, Handed, Network, response
from .execution import Execution, Lacks, any_in, brings_success, lacks
from .progress import is_alone
from .valid_have_consented import is_never_lite
from .verdict import Verdict, first_that_holds


@dataclass(frozen=True)
class Choice:
    """The controlled side; a check of the other one, and the entry at which its response arrives; the nomination; the controlled side's own
    check, and the entry at which its response does; and the entry at which the controlled side evaluates."""

    side: str
    opening: Handed
    answered: int
    asks: Handed
    own: Handed
    back: int
    last: int

    @property
    def path(self) -> Path:
        """The controlled side's path."""
        return reversed_path(self.asks.over)


# ---- the preconditions

def is_in_slot(x: Execution, side: str, at: int) -> Lacks:
    """The side was never lite, and has the profile `Modern`, up to this state (`IsInSlot`)."""
    original = x.indices(("not modern", side), lambda s: not s.before[side].modern)
    return lacks(full=is_never_lite(x, side, at), modern=not any_in(original, range(at + 1)))


def has_polled(x: Execution, side: str, at: int) -> bool:
    """Whether no packet of the side waits before this entry (`SendsCheck.polled`)."""
    waiting = x.kept(("waiting", side), lambda: [s.at for s in x.steps if s.entry.side == side and s.issued is not None])
    sent = x.kept(("drawn", side), lambda: [s.at for s in x.steps if s.entry.side == side and s.entry.call == "poll_transmit"
                                            and s.entry.returned is not None])
    return sum(i < at for i in waiting) == sum(i < at for i in sent)


def is_delivered(x: Execution, h: Handed) -> Lacks:
    """The check is delivered (`DeliveredCheck`): it reaches the other side, and the roles are different, then or after it."""
    there = other(h.side)
    role = x.state(h.sent, h.side).controlling
    apart = role != x.state(h.arrived, there).controlling or role != x.steps[h.arrived].after[there].controlling
    return lacks(held=is_in_slot(x, h.side, h.sent), other_held=is_in_slot(x, there, h.arrived), polled=has_polled(x, h.side, h.sent),
                 handed=list(h.missing), apart=apart)


def is_pending(agent: Agent, via: tuple[object, ...], check: Handed) -> bool:
    """Whether a pair on the reverse of the path has the check as a pending one (`keeps_check_on`)."""
    return any(reversed_path(agent.path(p)) == via and any(c.id == check.id for c in p.checks) for p in agent.pairs)


def is_back(n: Network, h: Handed, at: int) -> Lacks:
    """The response to the check arrives at this entry, while the check is pending (`ReturnedReply`)."""
    x = n.x
    step = response(x, h, SUCCESS)
    came = step is not None and step.sent is not None and at in x.session.arrivals.get((h.side, step.sent.returned.contents), ())
    via = x.steps[at].entry.given[1:3]
    return lacks(added=came, later=is_in_slot(x, h.side, at), pending=is_pending(x.state(at, h.side), via, h),
                 know=x.state(at, h.side).peer == x.state(h.arrived, other(h.side)).creds)


def keeps_pairs(x: Execution, side: str, path: Path, since: int, last: int) -> bool:
    """Whether each pair on the path after the one entry is still there after the other one (`KeepsPairs`)."""
    left = {p.number for p in x.steps[last].after[side].pairs}
    return all(p.number in left for p in x.steps[since].after[side].on(path))


def evaluates(x: Execution, side: str, at: int) -> bool:
    """Whether the entry is a `handle_timeout` of the side that serves no early request, or a response that it accepts (`Evaluates`)."""
    step = x.steps[at]
    return step.entry.side == side and (brings_success(step) or step.is_timeout and x.state(at, side).request_at(x.now(at)) is None)


def opens(n: Network, h: Handed, at: int) -> dict[str, bool | Lacks]:
    """Returns what has to hold of the controlling side's check and its response (`BothDelivered`)."""
    return {"opening": is_delivered(n.x, h), "response": is_back(n, h, at), "controlling": n.x.steps[at].after[h.side].controlling}


def lacking(n: Network, c: Choice) -> Lacks:
    """Returns the preconditions that do not hold."""
    x, side = n.x, c.side
    return lacks(
        **opens(n, c.opening, c.answered),
        asks=is_delivered(x, c.asks), steers=x.state(c.asks.sent, c.asks.side).controlling,
        follows=not x.state(c.asks.arrived, side).controlling, still=not x.steps[c.asks.arrived].after[side].controlling,
        nominated=c.asks.nominates, own=is_delivered(x, c.own), back=is_back(n, c.own, c.back),
        comes=x.steps[c.back].entry.given[1:3] == reversed_path(c.path), held=is_in_slot(x, side, c.last),
        evaluates=evaluates(x, side, c.last), after_request=c.asks.arrived < c.last, after_response=c.back <= c.last,
        kept=keeps_pairs(x, side, c.path, c.asks.arrived, c.last), kept_since=keeps_pairs(x, side, c.path, c.back, c.last),
        IsOnlyPair=is_alone(x.steps[c.last].after[side], c.path))


# ---- the search

def answers(n: Network, side: str) -> Iterator[tuple[Handed, int]]:
    """Proposes each delivered check of a side with each entry at which its response arrives."""
    for h in n.handed[side]:
        step = response(n.x, h, SUCCESS)
        if step is not None and step.sent is not None:
            yield from ((h, at) for at in n.x.session.arrivals.get((side, step.sent.returned.contents), ()) if at > h.arrived)


def choices(n: Network) -> Iterator[Choice]:
    """Proposes the first response to the controlling side, with each nomination and response of a path, and the evaluation after both."""
    x = n.x
    found = []
    for side in SIDES:
        row = sorted(answers(n, other(side)), key=lambda a: a[1])
        opened = [next((a for a in row if not lacks(**opens(n, *a))), row[0])] if row else []
        for asks in (h for h in n.handed[other(side)] if h.nominates):
            for own, back in answers(n, side):
                if x.steps[back].entry.given[1:3] == asks.over:
                    first = max(asks.arrived + 1, back)
                    last = next((at for at in range(first, len(x)) if evaluates(x, side, at)), None)
                    found += [Choice(side, opening, at, asks, own, back, last) for opening, at in opened if last is not None]
    yield from sorted(found, key=lambda c: (max(c.answered, c.last), c.back))


def is_connected(x: Execution, side: str, at: int) -> bool:
    """Whether the side is connected after the entry (`IsConnected`)."""
    return x.steps[at].after[side].state.is_connected()


def find(n: Network) -> Verdict:
    """Returns the earliest choice."""

    def verdict(c: Choice) -> Verdict:
        bound = n.x.time(max(c.answered, c.last))
        is_true = is_connected(n.x, other(c.side), c.answered) and is_connected(n.x, c.side, c.last)
        return Verdict("", n.x.time(min(c.opening.sent, c.asks.sent, c.own.sent)), bound, bound if is_true else None)

    return first_that_holds(choices(n), partial(lacking, n), verdict, "asks.nominated")
