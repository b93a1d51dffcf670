"""`World::run`, clause `meet` (`RolesMeet`): a check of either agent is delivered, and its 487 back, if it gets one. Then the roles
differ from then on."""

from __future__ import annotations

from collections.abc import Iterator
from dataclasses import dataclass

from ..pairs import Path
from ..scenario import SIDES
from .execution import Execution, Lacks, lacks
from .fair import is_fair_world
from .accepted_nominations import FAILURE, Network
from .verdict import Verdict, first_that_holds


@dataclass(frozen=True)
class Choice:
    """The side that checks, its path, and the segment: from the beginning of the log up to the entry `end`."""

    side: str
    path: Path
    start: int
    end: int


def is_meeting(n: Network, side: str, path: Path, part: range) -> Lacks:
    """A check of the side on the path is delivered, and its 487 back in time, if it gets one (`IsMeeting`)."""
    return n.exists(side, part, lambda h: h.path == path, FAILURE, True)


def lacking(n: Network, c: Choice) -> Lacks:
    """Returns the preconditions that do not hold."""
    return lacks(IsFairWorld=is_fair_world(n.x), IsMeeting=is_meeting(n, c.side, c.path, range(c.end)))


def choices(n: Network) -> Iterator[Choice]:
    """Proposes each check that is delivered, by the time at which its 487 is back, if it gets one."""
    checks = [h for side in SIDES for h in n.handed[side]]
    ends = {h: n.back_at(h, FAILURE, True) for h in checks}
    for check in sorted(checks, key=lambda h: _or_never(ends[h], len(n.x))):
        yield Choice(check.side, check.path, check.sent, _or_never(ends[check], len(n.x) - 1) + 1)


def _or_never(at: int | None, never: int) -> int:
    return never if at is None else at


def opposite_since(x: Execution) -> int | None:
    """Returns from which state on the roles differ, for good (`StayOpposite`)."""
    same = [at for at, controlled in enumerate(x.roles) if not controlled]
    since = max(same, default=-1) + 1
    return since if since < len(x.roles) else None


def find(n: Network) -> Verdict:
    """Returns the earliest bound."""

    def verdict(c: Choice) -> Verdict:
        since = opposite_since(n.x)
        fact = None if since is None or since > c.end else n.x.time(max(since - 1, 0))
        return Verdict("", n.x.time(c.start), n.x.time(c.end - 1), fact)

    return first_that_holds(choices(n), lambda c: lacking(n, c), verdict, "IsMeeting.handed")
