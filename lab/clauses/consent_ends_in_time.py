"""The theorem `consent_ends_in_time` (`ConsentEndsInTime`): a punctual caller calls `handle_timeout` by the end of each pair's consent,
or by a pacing interval after the call before, and its own delay."""

from __future__ import annotations

from collections.abc import Iterator
from dataclasses import dataclass

from ..clock import SECOND
from ..pairs import Consent, Pair
from ..scenario import SIDES
from .execution import MAX, Execution, Lacks, any_in, is_in_round, lacks
from .seen import is_maintained, walk
from .verdict import Verdict, first_of_all


@dataclass(frozen=True)
class Choice:
    """The side, a `handle_timeout` call and the next one, and a `poll_timeout` between both that returned a time, with the pairs of its
    state before, and what the log shows of their checks."""

    side: str
    moment: int
    following: int
    poll: int
    pairs: tuple[Pair, ...]

    def pace(self, x: Execution) -> int:
        """Returns the greatest pacing interval between both calls (`IsFollowed`: `begins`, `keeps`)."""
        first = x.state(self.moment + 1, self.side).advance
        return max([first, *(x.state(at + 1, self.side).advance for at in range(self.moment + 1, self.following))])

    def delay(self, x: Execution) -> int:
        """Returns how much later than the time that `poll_timeout` returned the next call comes."""
        deadline: int = x.steps[self.poll].entry.returned
        return max(x.now(self.following) - deadline, 0)


def lacking(x: Execution, c: Choice) -> Lacks:
    """Returns the preconditions that do not hold."""
    agent = x.state(c.moment, c.side)
    between = not any_in(x.calls_besides(c.side, is_in_round), range(c.moment + 1, c.following))
    return lacks(IsMaintained=is_maintained(agent, x.now(c.moment)), rule=agent.timing.consent is not None, between=between,
                 responded=any(p.consented is not None for p in c.pairs))


def choices(x: Execution) -> Iterator[Choice]:
    """Proposes each `poll_timeout` that returned a time, between two `handle_timeout` calls."""
    for side in SIDES:
        last: int | None = None
        polls: list[tuple[int, tuple[Pair, ...]]] = []
        for step, seen in walk(x, side):
            if step.is_timeout:
                yield from (Choice(side, last, step.at, at, pairs) for at, pairs in polls if last is not None)
                last, polls = step.at, []
            elif step.entry.call == "poll_timeout" and step.entry.returned is not None:
                polls.append((step.at, seen.pairs(step.before[side])))


def heard_until(c: Consent, p: Pair) -> int:
    """Returns how long the peer's last check keeps consent (`heard_until`)."""
    return 0 if c.strict or p.last_request is None else p.last_request + 15 * SECOND


def consent_end(c: Consent, p: Pair) -> int:
    """Returns when consent ends if nothing arrives (`consent_end`)."""
    return MAX if p.consented is None else max(p.consented + c.timeout, heard_until(c, p))


def bound(x: Execution, c: Choice) -> int:
    """Returns by when the next `handle_timeout` call comes."""
    consent = x.state(c.moment, c.side).timing.consent
    assert consent is not None
    first = min(consent_end(consent, p) for p in c.pairs)
    return max(first, x.now(c.moment) + c.pace(x)) + c.delay(x)


def find(x: Execution) -> Verdict:
    """Returns the first such call, or one after which the next one comes too late."""

    def verdict(c: Choice) -> Verdict:
        return Verdict("", x.time(c.moment), bound(x, c), x.now(c.following))

    return first_of_all(choices(x), lambda c: lacking(x, c), verdict, "IsFollowed.prompt")
