"""`run`, clause `of_use` (`LoggedTimeoutsAreOfUse`): a `handle_timeout` call at the time that `poll_timeout` returned, or later, makes
progress."""

from __future__ import annotations

from collections.abc import Iterator
from dataclasses import dataclass

from ..scenario import SIDES
from .execution import MAX, Execution, Lacks, is_poll, lacks
from .fair import is_new_agent
from .progress import is_checking
from .verdict import Verdict, first_of_all


@dataclass(frozen=True)
class Choice:
    """The side, its `handle_timeout` call, and the last `poll_timeout` call before it. `queued`: packets that wait then, which the side has
    not polled. `polled`: only polls come between both."""

    side: str
    moment: int
    asked: int
    queued: int
    polled: bool


def deadline_of(x: Execution, c: Choice) -> int | None:
    """Returns the time that the agent's own `poll_timeout` returns then. With `Modern` the library's returns a kept time, which may be
    sooner, and each call that may make something due polled the agent, so that a poll here would fix no more due times."""
    start = x.state(c.asked, c.side)
    returned: int | None = start.poll_timeout(c.queued > 0)[1] if start.modern else x.steps[c.asked].entry.returned
    return returned


def lacking(x: Execution, c: Choice) -> Lacks:
    """Returns the preconditions that do not hold (`IsCycle`)."""
    start, deadline = x.state(c.asked, c.side), deadline_of(x, c)
    return lacks(IsFresh=is_new_agent(x.state(0, c.side)), AreTaken=c.queued == 0, timed_out=deadline is not None,
                 kept=deadline is None or deadline <= x.now(c.moment), polled=c.polled, IsChecking=is_checking(start),
                 pairs=bool(start.pairs), early=deadline is None or deadline < MAX)


def choices(x: Execution) -> Iterator[Choice]:
    """Proposes each `handle_timeout` call after a `poll_timeout` call."""
    for side in SIDES:
        asked: int | None = None
        queued, waiting, is_polled = 0, 0, True
        for step in (s for s in x.steps if s.entry.side == side):
            if step.is_timeout and asked is not None:
                yield Choice(side, step.at, asked, queued, is_polled)
            if step.entry.call == "poll_timeout":
                asked, queued, is_polled = step.at, waiting, True
            is_polled = is_polled and is_poll(step.entry.call)
            waiting += (step.issued is not None) - (step.entry.call == "poll_transmit")
            waiting = 0 if step.entry.call == "ice_restart" else waiting


def is_of_use(x: Execution, c: Choice) -> bool:
    """Whether the call sends a check, removes a pair, shortens the queue of early requests, or selects a path since the selected pair was
    gone (`IsOfUse`)."""
    start, step = x.state(c.asked, c.side), x.steps[c.moment]
    last, numbers = step.after[c.side], {p.number for p in step.after[c.side].pairs}
    is_checked = step.issued is not None and step.issued.kind == "request" and bool(start.on(step.issued.path))
    is_selected = start.is_pressing and bool(step.selected)
    return is_checked or is_selected or any(p.number not in numbers for p in start.pairs) or len(last.queue) < len(start.queue)


def find(x: Execution) -> Verdict:
    """Returns the first such call, or one that makes no progress."""

    def verdict(c: Choice) -> Verdict:
        time = x.time(c.moment)
        return Verdict("", x.time(c.asked), time, time if is_of_use(x, c) else None)

    return first_of_all(choices(x), lambda c: lacking(x, c), verdict, "asks")
