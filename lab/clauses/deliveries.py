"""How both agents become connected, as programs see it: `ResponsesConnect`, `DeliveredAreAccepted`, `NominatedConnect`,
`NominationsConnect` and `BothBecomeConnected`. Which checks are delivered is read off the calls, and which pairs there are off queries.

The number of a pair and its pending checks are seen by no call. A pair is taken for the same one if its path has one pair after each call,
of the same priority, whose counts of checks do not fall. A check is pending while its path has the same pair, and fewer later checks than a
pair keeps."""

from __future__ import annotations

from collections.abc import Iterator
from dataclasses import dataclass, field

from is_ice import Transmit

from ..guarantees import Path
from ..pairs import reversed_path
from ..scenario import SIDES
from ..stun import message_of
from ..view import Called, View, address_of_added
from ..witness import Record, accepted
from .accepted_nominations import fit, is_fragment
from .execution import Lacks, lacks
from .found import Found, Records, other


def responses_connect(record: Record) -> Found:
    """`ResponsesConnect`: OK is returned for a success response, and the agent is controlling after it; it is connected."""
    found = Found()
    if not record.keeps_modern():
        return found
    for c in record.witness.calls:
        if accepted(c.entry, "success") and c.after.controlling:
            found.add(c.after.is_connected, f"call {c.at}: a success response, and {c.after.state}")
    return found


# ---- the preconditions of a check

def have_exchanged(one: View, peer: View) -> Lacks:
    """The agents have each other's credentials, which fit into USERNAME (`HaveExchanged`)."""
    return lacks(at_one=one.peer == peer.creds, at_other=peer.peer == one.creds, fragment=is_fragment(one.creds.ufrag),
                 other_fragment=is_fragment(peer.creds.ufrag), fit=fit(one.creds, peer.creds))


@dataclass
class Reach:
    """Which addresses a program gave to an agent, and whose packets came to it. `live`: host and relayed candidates that were added, and
    not invalidated; `gone`: whether a candidate of the peer was."""

    live: set[object] = field(default_factory=set)
    gone: bool = False
    senders: set[object] = field(default_factory=set)

    def take(self, c: Called) -> None:
        """Adds a call."""
        call, given = c.entry.call, c.entry.given
        if (added := address_of_added(c.entry)) and c.is_ok:
            self.live.add(added)
        elif call == "invalidate_candidate":
            self.live.discard(getattr(given[0], "address", None))
            self.gone |= isinstance(given[0], str)
        elif call == "ice_restart" and not given[1]:
            self.live.clear()
        elif call == "handle_packet":
            self.senders.add(given[1])

    def reached(self, over: Path, limit: int | None) -> Lacks:
        """The path leads to such a candidate, from no invalidated one, and the limit on what packets bring does not bar its sender, since
        packets came from no more senders (`IsReachedBy`)."""
        is_below = limit is None or len(self.senders | {over[0]}) <= limit
        return lacks(there=over[1] in self.live, **{"from": not self.gone}, room=is_below)


@dataclass
class SamePair:
    """The only pair on a path, as long as it surely is the same one: a pair that is formed again counts checks from 0."""

    priority: int | None = None
    count: int = 0

    def keep(self, view: View, path: Path) -> bool:
        """Whether it is the same one in the next view; else another one is taken, if there is only one."""
        pairs = view.on(path)
        if len(pairs) != 1:
            self.priority = None
            return False
        is_same = self.priority in (None, pairs[0].priority) and pairs[0].count >= self.count
        self.priority, self.count = pairs[0].priority, pairs[0].count
        return is_same


@dataclass(frozen=True)
class Check:
    """A check that is delivered: the call that sends it, the call that passes it, and the path on which it arrives. `reached`: what
    `IsReachedBy` lacks."""

    side: str
    sent: Called
    packet: Transmit
    served: Called
    reached: tuple[str, ...]

    @property
    def over(self) -> Path:
        """The path on which it arrives."""
        _, source, destination, *_ = self.served.entry.given
        return source, destination

    @property
    def path(self) -> Path:
        """The sender's path."""
        return self.packet.source, self.packet.destination

    @property
    def reply(self) -> Transmit | None:
        """The packet that the delivery adds."""
        return self.served.packets[0] if len(self.served.packets) == 1 else None


def delivered(check: Check) -> Lacks:
    """The check is delivered (`DeliveredCheck`). Programs poll all packets after each call; no call of a session fails."""
    role = check.sent.before.controlling
    apart = role != check.served.before.controlling or role != check.served.after.controlling
    return lacks(sends=len(check.sent.packets) == 1, no_error=not check.served.error,
                 know=have_exchanged(check.sent.before, check.served.before), reached=list(check.reached), apart=apart)


# ---- a session

class Session:
    """The calls on both agents, the checks that are delivered, by receiver, and the responses that come back, by sender."""

    def __init__(self, records: Records) -> None:
        self.records = records
        self.calls = {side: records[side].witness.calls for side in SIDES}
        self.checks: list[Check] = []
        self.answers: dict[tuple[str, int], tuple[Check, Called]] = {}
        if all(record.keeps_modern() for record in records.values()):
            self._find()

    def _find(self) -> None:
        sent: dict[bytes, tuple[str, Called, Transmit]] = {}
        given: dict[bytes, Check] = {}
        reach = {side: Reach() for side in SIDES}
        for side, c in sorted(((side, c) for side in SIDES for c in self.calls[side]), key=lambda x: x[1].at):
            if c.entry.call == "handle_packet":
                contents = c.entry.given[3]
                if (known := sent.get(contents)) and known[0] == other(side):
                    lacking = reach[side].reached((c.entry.given[1], c.entry.given[2]), c.before.settings.max_discovered)
                    check = Check(*known, c, tuple(lacking))
                    if not delivered(check):
                        self.checks.append(check)
                        given.update({check.reply.contents: check} if check.reply else {})
                elif (answered := given.pop(contents, None)) and answered.side == side and not self.returned(answered, c):
                    self.answers[side, c.at] = answered, c
            reach[side].take(c)
            if c.entry.call == "handle_timeout":
                sent.update({p.contents: (side, c, p) for p in c.packets if message_of(p.contents).kind == "request"})

    def returned(self, check: Check, back: Called) -> Lacks:
        """The response to the check is passed on the reverse of its path while the check is pending, for the first time
        (`ReturnedReply`)."""
        _, source, destination, *_ = back.entry.given
        is_back = (destination, source) == check.path
        return lacks(no_error=not back.error, know=have_exchanged(back.before, check.served.before),
                     pending=is_back and self.is_pending(check, back))

    def is_pending(self, check: Check, back: Called) -> bool:
        """Whether the pair of the check has it still as a pending one."""
        between = [c for c in self.calls[check.side] if check.sent.at < c.at < back.at]
        sent = [p for c in between for p in c.packets if message_of(p.contents).kind == "request"]
        later = sum((p.source, p.destination) == check.path for p in sent)
        views, pair = [check.sent.after, *(c.after for c in between)], SamePair()
        is_there = all(pair.keep(view, check.path) for view in views) and not any(c.clears for c in between)
        return is_there and later < min(view.settings.max_retransmits for view in views)


def delivered_are_accepted(session: Session) -> Found:
    """`DeliveredAreAccepted`: OK is returned for each delivered check, and one packet is added, on the reverse path; so it is for that
    one."""
    found = Found()
    for check in session.checks:
        back = check.reply is not None and (check.reply.destination, check.reply.source) == check.over
        found.add(check.served.is_ok and back, f"call {check.served.at}: a delivered check was not served")
    for check, back_call in session.answers.values():
        found.add(back_call.is_ok, f"call {back_call.at}: a response that came back was not accepted")
    return found


# ---- the controlled agent

def nominates(check: Check) -> bool:
    """Whether it is a nomination (`NominatingCheck`): of a controlling agent that nominated the pairs of its path, to one that is and stays
    controlled."""
    view = check.sent.after
    nominated = all(p.is_nominated and (p.is_selected or not view.settings.renomination) for p in view.on(check.path))
    return not lacks(steers=check.sent.before.controlling, follows=not check.served.before.controlling,
                     still=not check.served.after.controlling, nominated=nominated)


@dataclass
class _Kept:
    """A path of the controlled agent: the nomination and the response, as long as its only pair is the same one (`KeepsPairs`,
    `IsOnlyPair`)."""

    pair: SamePair = field(default_factory=SamePair)
    asked: bool = False
    answered: bool = False

    def keep(self, c: Called, path: Path) -> None:
        """Adds a call: both are forgotten if the pair may have gone."""
        is_there = self.pair.keep(c.after, path)
        if c.clears or not is_there:
            self.asked = self.answered = False


@dataclass(frozen=True)
class Point:
    """A call at which the controlled agent has to be connected. `is_nomination`: it passes the nomination, after the response; otherwise
    the agent evaluates by it, after both."""

    call: Called
    is_nomination: bool


def points(session: Session, side: str) -> Iterator[Point]:
    """Returns such calls of a side (`DeliveredNomination`, `NominationAfterResponse`)."""
    asks = {check.served.at: reversed_path(check.over) for check in session.checks if check.side == other(side) and nominates(check)}
    own = {at: check.path for (of, at), (check, _) in session.answers.items() if of == side}
    kept = {path: _Kept() for path in (*asks.values(), *own.values())}
    for c in session.calls[side]:
        for path, one in kept.items():
            one.keep(c, path)
            is_there = one.pair.priority is not None
            one.answered |= is_there and own.get(c.at) == path
            is_asked_now = is_there and asks.get(c.at) == path
            if one.answered and is_asked_now:
                yield Point(c, True)
            if one.answered and one.asked and (c.evaluates or accepted(c.entry, "success")):
                yield Point(c, False)
            one.asked |= is_asked_now


def _connect(session: Session, is_nomination: bool, what: str) -> Found:
    found = Found()
    for side in SIDES:
        for point in points(session, side):
            if point.is_nomination == is_nomination:
                found.add(point.call.after.is_connected, f"call {point.call.at}: {what}, and {point.call.after.state}")
    return found


def nominated_connect(session: Session) -> Found:
    """`NominatedConnect`: a nomination is delivered, and a check of the controlled agent on the path is answered; then a response or a
    `handle_timeout` comes (`Evaluates`), and the pair is still there. The agent is connected."""
    return _connect(session, False, "a response or a timeout after the nomination and the response")


def nominations_connect(session: Session) -> Found:
    """`NominationsConnect`: the response came before the nomination. The agent is connected at once."""
    return _connect(session, True, "a nomination after the response")


def openings(session: Session, side: str) -> Iterator[Called]:
    """Returns the calls that pass a response to a delivered check of the side, which is controlling after it."""
    return (back for check, back in session.answers.values() if check.side == side and back.after.controlling)


def both_become_connected(session: Session) -> Found:
    """`BothBecomeConnected`: a check of the controlling agent is answered, and the other one has such a point (`BothDelivered`). Both are
    connected at these calls."""
    found = Found()
    for side in SIDES:
        opened = next(openings(session, other(side)), None)
        point = next((p for p in points(session, side) if not p.is_nomination), None)
        if opened is not None and point is not None:
            is_true = opened.after.is_connected and point.call.after.is_connected
            found.add(is_true, f"calls {opened.at} and {point.call.at}: {opened.after.state}, {point.call.after.state}")
    return found
