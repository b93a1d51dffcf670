"""What a program passes to the agents of a session and gets from them: its calls, and what queries return around them. No model is read."""

from __future__ import annotations

from collections import deque
from collections.abc import Callable
from dataclasses import dataclass, field, replace
from struct import pack
from typing import Any

from is_ice import IceAgent, NominatedSend, Profile, SocketAddress
from is_ice.errors import IceError, Unparsed
from is_ice.stun import StunMessage, StunMethod

from .clock import Clock
from .guarantees import Path
from .log import CALLS, Entry, Log, LoggedAgent
from .scenario import SIDES, AgentSettings, Scenario
from .session import Session
from .stun import message_of
from .view import Born, Called, born, view_of

# Calls that set by which time consent ends.
TIMES = ("set_settings", "set_initial_stun_rto", "set_max_stun_rto", "set_max_stun_retransmits")
# What no program sets later that gives an agent its role at first.
ROLES = ("set_controlling", "set_control_tie_breaker")
# The calls whose effect is observed: those of the log that are no polls.
OBSERVED = tuple(call for call in CALLS if not call.startswith("poll_"))
SUCCESS_TYPE, COOKIE = 0x0101, 0x2112A442
# A byte that MESSAGE-INTEGRITY signs: the last one of the transaction ID.
SIGNED = 19


@dataclass(frozen=True)
class Stray:
    """A packet that an agent does not accept on its path, whether OK was returned, and whether a query returned something else after it."""

    path: Path
    contents: bytes
    is_ok: bool
    is_changed: bool


@dataclass
class Witness:
    """What is seen around the calls on one agent, each with the index of the last entry of the log.

    `born`: what was seen of the new agent. `calls`: those that may change it. `roles`: whether it is controlling. `connected`: whether it
    is connected after a `handle_timeout` that serves no early request. `sets_role`: whether the program set its role or its tie-breaker
    after the beginning."""

    born: Born
    began_controlling: bool = False
    calls: list[Called] = field(default_factory=list)
    roles: list[tuple[int, bool]] = field(default_factory=list)
    connected: dict[int, bool] = field(default_factory=dict)
    strays: list[Stray] = field(default_factory=list)
    sets_role: bool = False


class WitnessedAgent:
    """An agent of which queries are made around the calls. After each call all packets and events are polled, and kept for the program.
    With `forges` it also gets packets that nobody sent: after each packet, that one with an altered bit, and a response without
    MESSAGE-INTEGRITY to the last check."""

    def __init__(self, agent: LoggedAgent, side: str, log: WitnessLog) -> None:
        self._agent: Any = agent
        self._side, self._log, self._forges = side, log, log.forges
        self.witness = Witness(born(agent.unlogged, log.sides[side].creds))
        self._view = self.witness.born.view
        self._packets: deque[Any] = deque()
        self._events: deque[Any] = deque()
        self._last_check: tuple[Path, bytes] | None = None

    def begin(self) -> None:
        """The program has set the role: the agent begins in it."""
        self.witness.began_controlling, self.witness.sets_role = self._agent.controlling, False

    def __getattr__(self, name: str) -> Any:
        found = getattr(self._agent, name)
        if name in ROLES:
            self.witness.sets_role = True
        return self._witnessed(name, found) if name in OBSERVED or name in ROLES else found

    def _witnessed(self, name: str, call: Callable[..., Any]) -> Callable[..., Any]:
        def made(*given: Any) -> Any:
            return self._observed(name, call, *given)

        return made

    def _observed(self, name: str, call: Callable[..., Any], *given: Any) -> Any:
        """Makes a call that may change the agent, and observes what it changes. It is an entry of the log, unless it fails."""
        before, at = self._view, len(self._log.entries)
        try:
            returned = call(*given)
        except IceError as error:
            entry = Entry(self._agent.now, self._side, name, given)
            self.witness.calls.append(Called(at - 1, entry, before, self._seen(), *self._polled(), str(error)))
            raise
        entry = self._log.entries[at] if len(self._log.entries) > at else Entry(self._agent.now, self._side, name, given, returned)
        self.witness.calls.append(Called(at, entry, before, self._seen(), *self._polled()))
        return returned

    def _seen(self) -> Any:
        """Queries the agent after a call."""
        self._view = view_of(self._agent.unlogged)
        self._note_role()
        return self._view

    def _note_role(self) -> None:
        self.witness.roles.append((len(self._log.entries) - 1, self._view.controlling))

    def _polled(self) -> tuple[tuple[Any, ...], tuple[Any, ...]]:
        """Polls all packets and events that wait, and keeps them for the program."""
        packets: tuple[Any, ...] = tuple(iter(self._agent.poll_transmit, None))
        events: tuple[Any, ...] = tuple(iter(self._agent.poll_event, None))
        self._packets.extend(packets)
        self._events.extend(events)
        return packets, events

    def queried(self) -> tuple[Any, ...]:
        """What the agent's queries return."""
        a = self._agent
        return (a.controlling, a.state, a.stats, a.early_requests, a.nominated_pair, a.valid_path, a.pairs, a.removed_pairs(),
                a.local_candidates(), a.remote_candidates(), a.local_credentials, a.remote_credentials, a.settings)

    def handle_packet(self, now: int, source: SocketAddress, destination: SocketAddress, contents: bytes) -> bool:
        """Makes the call; if the agent does not accept the packet, it observes whether anything changes."""
        returned = self._passed(now, source, destination, contents, self._witnessed("handle_packet", self._agent.handle_packet))
        if self._forges:
            self._forge(now, source, destination, bytes((*contents[:SIGNED], contents[SIGNED] ^ 1, *contents[SIGNED + 1:])))
            if self._last_check is not None:
                (local, remote), id = self._last_check
                self._forge(now, remote, local, pack("!HHI12s", SUCCESS_TYPE, 0, COOKIE, id))
        return returned

    def _forge(self, now: int, source: SocketAddress, destination: SocketAddress, contents: bytes) -> None:
        """Passes a packet that the agent does not accept. It is no entry of the log."""
        if not self._accepts(source, destination, contents):
            self._passed(now, source, destination, contents, self._agent.unlogged.handle_packet)

    def _passed(self, now: int, source: SocketAddress, destination: SocketAddress, contents: bytes, call: Callable[..., bool]) -> bool:
        before = None if self._accepts(source, destination, contents) else self.queried()
        try:
            returned = bool(call(now, source, destination, contents))
        except Unparsed:
            returned = False
        if before is not None:
            self.witness.strays.append(Stray((destination, source), contents, returned, before != self.queried()))
        return returned

    def _accepts(self, source: SocketAddress, destination: SocketAddress, contents: bytes) -> bool:
        try:
            return bool(self._agent.accepts_packet(source, destination, contents))
        except Unparsed:
            return False

    def poll_transmit(self) -> Any:
        """Gives the next packet, and keeps the last check."""
        packet = self._packets.popleft() if self._packets else None
        if packet is not None and message_of(packet.contents).kind == "request":
            self._last_check = (packet.source, packet.destination), message_of(packet.contents).transaction
        return packet

    def poll_event(self) -> Any:
        """Gives the next event."""
        return self._events.popleft() if self._events else None

    def handle_timeout(self, now: int, random: bytes) -> None:
        """Makes the call, and observes whether the agent is connected after it."""
        early, at = self._view.early, len(self._log.entries)
        self._observed("handle_timeout", self._agent.handle_timeout, now, random)
        if not early:
            self.witness.connected[at] = self._view.is_connected


class WitnessLog(Log):
    """A log of agents that are observed."""

    def __init__(self, forges: bool) -> None:
        super().__init__()
        self.forges = forges
        self.agents: dict[str, WitnessedAgent] = {}

    def wrapped(self, agent: IceAgent, side: str, clock: Clock) -> Any:
        """Returns the agent, whose calls are logged and observed."""
        self.agents[side] = WitnessedAgent(LoggedAgent(agent, side, clock, self), side, self)
        return self.agents[side]


@dataclass
class Record:
    """The calls on one agent with their indices, oldest first, what was seen of it, and the log of both."""

    entries: list[tuple[int, Entry]]
    witness: Witness
    tie_breaker: int
    log: Log

    def keeps_modern(self) -> bool:
        """The program leaves the profile `Modern`, and never makes the agent lite (`keeps_modern`)."""
        return all(not e.given[0] if e.call == "set_ice_lite" else e.call != "set_settings" or e.given[0].profile is Profile.MODERN
                   for _, e in self.entries)

    def keeps_consent(self) -> bool:
        """It leaves the settings by which consent ends, too (`keeps_consent`)."""
        return self.keeps_modern() and not any(e.call in TIMES for _, e in self.entries)

    def keeps_role(self) -> bool:
        """It leaves the role and the tie-breaker, and never makes the agent lite (`keeps_role`)."""
        return not self.witness.sets_role and not any(e.call == "set_ice_lite" and e.given[0] for _, e in self.entries)

    def stays_controlled(self, at: int) -> bool:
        """The agent is controlled in each state up to this entry, since the last restart before it (`StaysControlled`)."""
        restart = max((index for index, e in self.entries if e.call == "ice_restart" and index <= at), default=None)
        began = restart is None and self.witness.began_controlling
        return not began and not any(role for index, role in self.witness.roles if (restart or 0) <= index <= at)


# ---- what an entry says

def gets(e: Entry, kind: str) -> tuple[Path, bytes] | None:
    """Returns the path and the bytes of the message of this kind that the program got, if it got one (`Gets`)."""
    if e.call != "poll_transmit" or message_of(e.returned.contents).kind != kind:
        return None
    return (e.returned.source, e.returned.destination), e.returned.contents


def accepted(e: Entry, kind: str) -> tuple[Path, bytes] | None:
    """Returns the path on whose reverse the program passed a Binding message of this kind, and the message, if OK was returned
    (`Accepts`)."""
    if e.call != "handle_packet" or e.returned is not True:
        return None
    _, source, destination, contents, *_ = e.given
    is_binding = StunMessage(contents).method is StunMethod.BINDING
    return ((destination, source), contents) if is_binding and message_of(contents).kind == kind else None


def selected(e: Entry) -> Path | None:
    """Returns the path of the `NominatedSend` that the program got, if it got one (`Selects`)."""
    is_selecting = e.call == "poll_event" and isinstance(e.returned, NominatedSend)
    return (e.returned.source, e.returned.destination) if is_selecting else None


# ---- playing

def as_made(s: AgentSettings) -> AgentSettings:
    """Returns the settings of a side whose agent keeps the RTOs, the number of checks and the consent with which it was made."""
    return replace(s, max_rto_ms=None, retransmits=None, consent_ms=0.0)


def play(scenario: Scenario, seed: int, settle_s: float = 0, forges: bool = True) -> dict[str, Record]:
    """Plays a session with agents as they are made, and returns the record of each side. It goes on for `settle_s` at least."""
    log = WitnessLog(forges)
    made = replace(scenario, a=as_made(scenario.a), b=as_made(scenario.b), settle_s=max(scenario.settle_s, settle_s),
                   seconds=max(scenario.seconds, settle_s * 2))
    session = Session(made, seed, None, log)
    for agent in log.agents.values():
        agent.begin()
    session.run()
    return {side: Record([(at, e) for at, e in enumerate(log.entries) if e.side == side], log.agents[side].witness,
                         log.sides[side].tie_breaker, log) for side in SIDES}
