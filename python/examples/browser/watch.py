"""Watches the agent of a connection: its events, its pairs with their checks, its state."""

from __future__ import annotations

import time
from dataclasses import asdict, dataclass, field
from typing import Any

from is_ice import CandidateKind, DiscoveredRecv, IceAgent, IceAgentEvent, IceConnectionStateChange, IceRestart, NoAgent, NominatedSend
from is_ice.connection import Connection


@dataclass(frozen=True)
class Pair:
    """A pair as the agent lists it, by its two transport addresses."""

    local: str
    remote: str
    checks_sent: int
    responses_received: int
    checks_received: int
    nominated: bool


@dataclass
class Watch:
    """What one connection did, in the form in which the page gets it."""

    connection: Connection
    start: float = field(default_factory=time.monotonic)
    states: list[tuple[float, str]] = field(default_factory=list)
    events: list[tuple[float, str]] = field(default_factory=list)
    pairs: list[Pair] = field(default_factory=list)  # when they were last asked for
    selected: tuple[str, str] | None = None

    def __post_init__(self) -> None:
        self.connection.on_event = self._on_event

    def _seconds(self) -> float:
        return round(time.monotonic() - self.start, 3)

    def _on_event(self, event: IceAgentEvent) -> None:
        self.events.append((self._seconds(), _text(event)))
        if isinstance(event, IceConnectionStateChange):
            self.states.append((self._seconds(), event.state.name.capitalize()))
        elif isinstance(event, NominatedSend):
            self.selected = str(event.source), str(event.destination)

    def snapshot(self) -> dict[str, Any]:
        """Returns everything as JSON has it. The agent's own figures are missing once the connection is closed."""
        told: dict[str, Any] = {
            "seconds": self._seconds(), "first": self.events[0][0] if self.events else None, "states": self.states,
            "events": self.events[-40:], "selected": self.selected}
        agent = self.connection.agent
        try:
            self.pairs = _pairs_of(agent)
            nominated = agent.nominated_pair
            told |= {"role": "controlling" if agent.controlling else "controlled", "stats": asdict(agent.stats),
                     "local": agent.local_candidates(), "remote": agent.remote_candidates(),
                     "rtt_ms": nominated.rtt / 1e6 if nominated and nominated.rtt is not None else None}
        except NoAgent:
            pass
        return told | {"pairs": [asdict(pair) for pair in self.pairs]}


def _pairs_of(agent: IceAgent) -> list[Pair]:
    local, remote = agent.local_fields(), agent.remote_fields()
    sockets = [it.address if it.kind is CandidateKind.RELAYED else it.local for it in local]
    return [Pair(str(sockets[it.local]), str(remote[it.remote].address), it.checks_sent, it.responses, it.requests_received, it.nominated)
            for it in agent.pairs]


def _text(event: IceAgentEvent) -> str:
    if isinstance(event, IceConnectionStateChange):
        return f"IceConnectionStateChange {event.state.name.capitalize()}"
    if isinstance(event, NominatedSend):
        return f"NominatedSend {event.source} \N{RIGHTWARDS ARROW} {event.destination}"
    if isinstance(event, DiscoveredRecv):
        return f"DiscoveredRecv {event.source}"
    return f"IceRestart ufrag {event.creds.ufrag}" if isinstance(event, IceRestart) else repr(event)
