"""What the clauses ask of the network: checks that are delivered, and responses that come back (`Delivery`, `AcceptedNominationsIn`)."""

from __future__ import annotations

from collections.abc import Callable
from dataclasses import dataclass
from functools import lru_cache

from is_ice import IceCreds

from ..model import Agent
from ..pairs import Path, reversed_path
from ..replay import Step, other
from .execution import Execution, Lacks, fewest, lacks
from .progress import are_nominated_on
from .staying import may_end_in

# How many bytes of USERNAME a check may have (`USERNAME_LIMIT`).
USERNAME_LIMIT = 508

SUCCESS, FAILURE, ALL = ("success",), ("failure",), ("success", "failure")


# ---- what a delivery needs

def is_fragment(ufrag: str) -> bool:
    """Whether USERNAME can carry it: it is not empty, and has no colon (`IsFragment`)."""
    return ufrag != "" and ":" not in ufrag


def fit(a: IceCreds, b: IceCreds) -> bool:
    """Whether both username fragments fit into USERNAME (`are_too_long`)."""
    return len(a.ufrag.encode()) + 1 + len(b.ufrag.encode()) <= USERNAME_LIMIT


@lru_cache(maxsize=1 << 12)
def _know(own: IceCreds, its: IceCreds | None, peer: IceCreds, own_there: IceCreds | None) -> tuple[str, ...]:
    """Returns which preconditions of `KnowEachOther` the credentials of two agents do not meet, by what each has of both."""
    return tuple(lacks(mine=its == peer, its=own_there == own, own=is_fragment(own.ufrag), other=is_fragment(peer.ufrag),
                       fit=fit(own, peer)))


def know_each_other(a: Agent, b: Agent) -> Lacks:
    """The agents have each other's credentials, which fit into USERNAME (`KnowEachOther`). Both have the default HMAC provider."""
    return list(_know(a.creds, a.peer, b.creds, b.peer))


def has_place_for(agent: Agent, path: Path) -> bool:
    """Whether a request on the path is not dropped because of the limit on candidates that packets bring (`HasPlaceFor`)."""
    is_known = any(c.address == path[0] for c in agent.remote)
    return is_known or agent.is_below(sum(c.is_found for c in agent.remote)) or agent.vacant_place() is not None


def is_reached_by(agent: Agent, path: Path) -> Lacks:
    """The path leads to a live local candidate, from no discarded remote one, and the limit does not bar its sender (`IsReachedBy`)."""
    there = any(c.is_direct and c.address == path[1] and not c.is_discarded for c in agent.local)
    origin = any(c.address == path[0] and c.is_discarded for c in agent.remote)
    return lacks(there=there, **{"from": not origin}, room=has_place_for(agent, path))


# ---- checks

@dataclass(frozen=True)
class Handed:
    """A check that is delivered, by the indices of its `handle_timeout` and of its delivery, and its path before and after NATs.

    `missing`: what it lacks of `HandedCheck`. `nominates`: each pair on its path is nominated after it."""

    side: str
    path: Path
    over: Path
    sent: int
    arrived: int
    id: bytes
    nominates: bool
    missing: tuple[str, ...] = ()

    @property
    def is_handed(self) -> bool:
        """Whether it is a `HandedCheck`."""
        return not self.missing


def deliveries(x: Execution, side: str) -> list[Handed]:
    """Returns the side's checks that are delivered, by the time of delivery; one that is delivered again is another one."""
    sent = x.indices(("sent", side),
                     lambda s: s.is_timeout and s.entry.side == side and s.issued is not None and s.issued.kind == "request")
    return sorted((h for at in sent for h in _arrivals(x, x.steps[at])), key=lambda h: h.arrived)


def _arrivals(x: Execution, step: Step) -> list[Handed]:
    side, issued = step.entry.side, step.issued
    if step.sent is None or issued is None:
        return []
    found = []
    for at in x.session.arrivals.get((other(side), step.sent.returned.contents), ()):
        there = x.state(at, other(side))
        _, source, destination, *_ = x.steps[at].entry.given
        over = source, destination
        missing = lacks(know=know_each_other(step.before[side], there), reached=is_reached_by(there, over))
        nominates = are_nominated_on(step.after[side], issued.path)
        found.append(Handed(side, issued.path, over, step.at, at, issued.id, nominates, tuple(missing)))
    return found


# ---- responses

def response(x: Execution, check: Handed, kinds: tuple[str, ...]) -> Step | None:
    """Returns the entry that issues a response of these kinds to the check, if one does (`Sends`)."""
    step = x.steps[check.arrived]
    return step if step.issued is not None and step.issued.kind in kinds and step.issued.id == check.id else None


def stays_pending(x: Execution, check: Handed, until: int) -> bool:
    """Whether the side sends fewer later checks on the path than it stores of a pair (`StaysPending`)."""
    limit = min(x.state(at, check.side).timing.retransmits for at in range(check.sent + 1, until))
    return sum(check.sent < at < until for at in x.checks(check.side, check.path)) < limit


def is_returned(x: Execution, check: Handed, at: int) -> Lacks:
    """The response is delivered back at this entry, while the check is pending (`IsReturned`)."""
    via, there = x.steps[at].entry.given[1:3], x.state(check.arrived, other(check.side))
    return lacks(back=via == reversed_path(check.path), know=know_each_other(x.state(at, check.side), there),
                 pending=stays_pending(x, check, at))


def is_returned_in_time(x: Execution, check: Handed, at: int) -> Lacks:
    """And until then no call of the side may remove a pair of the path (`IsReturnedInTime`)."""
    return lacks(returned=is_returned(x, check, at), stays=not may_end_in(x, check.side, check.path, range(check.sent + 1, at)))


class Network:
    """The deliveries of a session, and when responses are back."""

    def __init__(self, x: Execution) -> None:
        self.x = x
        self.handed = {side: deliveries(x, side) for side in ("a", "b")}
        self._settled: dict[tuple[Handed, tuple[str, ...], bool], tuple[int | None, Lacks]] = {}
        self._backs: dict[tuple[str, Path, Path | None, tuple[str, ...], bool], list[tuple[int, int]]] = {}

    def settled(self, check: Handed, kinds: tuple[str, ...], in_time: bool) -> tuple[int | None, Lacks]:
        """Returns the index at which the check is delivered, and its response of these kinds back, if it gets one; or what is missing.

        `in_time`: as `IsReturnedInTime`, otherwise as `IsReturned`."""
        key = check, kinds, in_time
        if key not in self._settled:
            self._settled[key] = self._settle(check, kinds, in_time)
        return self._settled[key]

    def _settle(self, check: Handed, kinds: tuple[str, ...], in_time: bool) -> tuple[int | None, Lacks]:
        if not check.is_handed:
            return None, list(check.missing)
        step = response(self.x, check, kinds)
        if step is None:
            return check.arrived, []
        missing = ["comes"]
        for at in self.x.session.arrivals.get((check.side, step.sent.returned.contents), ()) if step.sent is not None else ():
            if at > check.arrived:
                missing = (is_returned_in_time if in_time else is_returned)(self.x, check, at)
                if not missing:
                    return at, []
        return None, missing

    def back_at(self, check: Handed, kinds: tuple[str, ...], in_time: bool) -> int | None:
        """Returns the index of `settled`, or None."""
        return self.settled(check, kinds, in_time)[0]

    def backs(self, side: str, path: Path, over: Path | None, kinds: tuple[str, ...], in_time: bool) -> list[tuple[int, int]]:
        """Returns when the side's checks on the path are sent, and when their responses are back, by the time of the responses.

        `over`: only those that arrive as this path."""
        key = side, path, over, kinds, in_time
        if key not in self._backs:
            chosen = ((h.sent, self.back_at(h, kinds, in_time)) for h in self.handed[side] if h.path == path and over in (None, h.over))
            self._backs[key] = sorted(((sent, at) for sent, at in chosen if at is not None), key=lambda b: b[1])
        return self._backs[key]

    def first_back(self, side: str, path: Path, over: Path | None, kinds: tuple[str, ...], first: int) -> int | None:
        """Returns when the first response comes back in time to such a check that is sent from an entry on."""
        return next((at for sent, at in self.backs(side, path, over, kinds, True) if sent >= first), None)

    def latest_sent(self, side: str, path: Path, over: Path | None, kinds: tuple[str, ...], in_time: bool, end: int) -> int | None:
        """Returns when the latest such check is sent whose response is back before an entry."""
        return max((sent for sent, at in self.backs(side, path, over, kinds, in_time) if at < end), default=None)

    def exists(self, side: str, part: range, chosen: Callable[[Handed], bool], kinds: tuple[str, ...], in_time: bool) -> Lacks:
        """One of the side's checks that are chosen is sent, delivered and settled in the segment; or what the best one is missing."""
        found = []
        for check in self.handed[side]:
            if check.sent in part and check.arrived in part and chosen(check):
                at, missing = self.settled(check, kinds, in_time)
                if at is not None and at in part:
                    return []
                found.append(missing or ["comes"])
        return fewest(found, ["handed"])


# ---- the two deliveries of `nomination_accepted`

def is_controlled(x: Execution, side: str, part: range) -> bool:
    """Whether the side is controlled before each entry, and the other side controlling (`IsControlled`)."""
    return x.none_but(side, part)


def is_asked_over(n: Network, side: str, path: Path, part: range) -> Lacks:
    """A check of the other side is delivered on the reverse of the path, and the pairs of its own path are nominated (`IsAskedOver`)."""
    found = n.exists(other(side), part, lambda h: h.over == reversed_path(path) and h.nominates, (), False)
    is_plain = found == ["handed"] and not n.exists(other(side), part, lambda h: h.over == reversed_path(path), (), False)
    return ["nominated"] if is_plain else found


def is_exchanged_over(n: Network, side: str, path: Path, part: range) -> Lacks:
    """The side checks the path, and its success response comes back while the check is pending (`IsExchangedOver`)."""
    return n.exists(side, part, lambda h: h.path == path, SUCCESS, False)


def serves_no_request(x: Execution, side: str, moment: int) -> bool:
    """Whether the `handle_timeout` call serves no early request (`request_at`)."""
    return x.state(moment, side).request_at(x.now(moment)) is None
