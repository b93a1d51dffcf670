"""What a picture of a session shows: lanes, arrows of packets, flags, states."""

from __future__ import annotations

import textwrap
from dataclasses import dataclass, field

from is_ice import DiscoveredRecv, Heard, IceAgentEvent, IceConnectionState, IceConnectionStateChange, IceRestart, NominatedSend, Silent

from .clock import BEGINNING
from .network import Datagram
from .scenario import Scenario
from .session import Trace
from .stun import message_of

# Why an arrow ends: the agent did not accept the packet; the script does not deliver it.
REJECTED, UNDELIVERED = "not accepted", "not delivered"


@dataclass
class Arrow:
    """A packet: the lanes that it passed, each with its time. `end` is why it went no further or was not accepted, or empty."""

    label: str
    kind: str  # check, nomination, response, failure
    stops: list[tuple[int, str]]
    end: str = ""
    toward: str = ""  # the lane that it did not reach

    @property
    def is_cut(self) -> bool:
        """Whether it did not arrive."""
        return self.end not in ("", REJECTED)

    @property
    def is_undelivered(self) -> bool:
        """Whether a script has no call that delivers it: it is not lost."""
        return self.end == UNDELIVERED

    @property
    def text(self) -> str:
        """Its label, with whether it arrived and was not accepted."""
        return f"{self.label}, {self.end}" if self.end == REJECTED else self.label


@dataclass
class Picture:
    """A picture. Times are nanoseconds from the start of the session."""

    title: str
    lanes: list[str]
    arrows: list[Arrow] = field(default_factory=list)
    flags: list[tuple[int, str, str]] = field(default_factory=list)  # time, lane, text
    states: list[tuple[int, str, str]] = field(default_factory=list)  # time, lane, name of the state

    def between(self, begin: int, end: int) -> Picture:
        """Returns the picture of a part of the session."""
        arrows = [arrow for arrow in self.arrows if begin <= arrow.stops[0][0] < end]
        flags = [flag for flag in self.flags if begin <= flag[0] < end]
        before: dict[str, str] = {}
        for time, lane, name in self.states:
            if time < begin:
                before[lane] = name
        states = [(begin, lane, name) for lane, name in before.items()] + [s for s in self.states if begin <= s[0] < end]
        return Picture(self.title, self.lanes, arrows, flags, states)


def wrapped(flag: str) -> list[str]:
    """Returns the rows of a flag, which are short enough for the margin of a picture."""
    parts = flag.replace(" to ", "\nto ").split("\n")
    return [row for part in parts for row in textwrap.wrap(part, 24, break_long_words=False, break_on_hyphens=False)]


class Transactions:
    """Numbers the transactions in the order of their requests."""

    def __init__(self) -> None:
        self._numbers: dict[bytes, int] = {}

    def label(self, contents: bytes) -> tuple[str, str]:
        """Returns the label of a message, and its kind."""
        message = message_of(contents)
        number = self._numbers.setdefault(message.transaction, len(self._numbers) + 1)
        if message.kind == "request":
            return (f"check {number}, USE-CANDIDATE", "nomination") if message.use_candidate else (f"check {number}", "check")
        if message.kind == "success":
            return f"response {number}", "response"
        return f"{message.code or 'failure'} to {number}", "failure"


def flag_of(event: IceAgentEvent) -> str:
    """Returns the text of an event."""
    if isinstance(event, NominatedSend):
        return f"path {event.source} to {event.destination}"
    if isinstance(event, DiscoveredRecv):
        return f"discovered {event.source}"
    if isinstance(event, IceRestart):
        return "session starts"
    if isinstance(event, Silent):
        return "silent"
    if isinstance(event, Heard):
        return "heard again"
    return event.state.name.capitalize()


def of_session(scenario: Scenario, trace: Trace) -> Picture:
    """Returns the picture of a traced session."""
    inner = {i.network: side for side in "ab" for i in scenario.side(side).interface}
    near = {side: [g.name for g in scenario.nat if inner.get(g.inner) == side] for side in "ab"}
    rest = [g.name for g in scenario.nat if g.name not in near["a"] + near["b"]]
    used = {place for datagram in trace.datagrams for _, place in datagram.hops}
    lanes = ["A", *(n for n in near["a"] + rest + near["b"] if n in used), "B"]
    picture = Picture(scenario.title, lanes)
    transactions = Transactions()
    for datagram in trace.datagrams:
        picture.arrows.append(_arrow(datagram, lanes, transactions))
    for time, side, event in trace.events:
        _note(picture, time - BEGINNING, side.upper(), event)
    for time, side, text in trace.scenario_events:
        picture.flags.append((time - BEGINNING, side.upper(), f"[{text}]"))
    picture.flags.sort(key=lambda flag: flag[0])
    return picture


def _note(picture: Picture, time: int, lane: str, event: IceAgentEvent) -> None:
    picture.flags.append((time, lane, flag_of(event)))
    if isinstance(event, IceConnectionStateChange):
        picture.states.append((time, lane, event.state.name.capitalize()))
    elif isinstance(event, IceRestart):
        picture.states.append((time, lane, IceConnectionState.CHECKING.name.capitalize()))


def _arrow(datagram: Datagram, lanes: list[str], transactions: Transactions) -> Arrow:
    label, kind = transactions.label(datagram.contents)
    start = datagram.side.upper()
    goal = "B" if start == "A" else "A"
    stops = [(datagram.time - BEGINNING, start)]
    for time, place in datagram.hops:
        if place in lanes and place not in [stop for _, stop in stops]:
            stops.append((time - BEGINNING, place))
    taken = [time for time, fate in datagram.fates if fate in ("taken", "refused")]
    if taken:
        is_rejected = all(fate != "taken" for _, fate in datagram.fates)
        times = " (twice)" if len(taken) > 1 else ""
        return Arrow(label + times, kind, [*stops, (taken[0] - BEGINNING, goal)], REJECTED if is_rejected else "")
    why = datagram.fates[-1][1] if datagram.fates else "in flight"
    place = stops[-1][1]
    step = 1 if start == "A" else -1
    ahead = lanes[lanes.index(place) + step] if place not in why and place != goal else ""
    return Arrow(label, kind, stops, why, ahead)
