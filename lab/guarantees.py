"""Tests the guarantees of the agents on each session. The simulator stops at the first one that does not hold."""

from __future__ import annotations

from typing import Protocol

from is_ice import IceAgentEvent, NominatedSend, SocketAddress

from .network import Datagram
from .stun import message_of

Path = tuple[SocketAddress, SocketAddress]


class Broken(Exception):
    """A guarantee did not hold."""


class HasRole(Protocol):
    """What is read of an agent."""

    @property
    def controlling(self) -> bool:
        """Whether the agent is controlling."""


class SideGuarantees:
    """What was observed of one agent since its last restart."""

    def __init__(self, side: str, agent: HasRole, tie_breaker: int, lite: bool, controlling: bool) -> None:
        self.side, self.agent, self.tie_breaker, self.lite = side, agent, tie_breaker, lite
        self.began_controlling = self.controlling = controlling
        self.changes = 0
        self.was_controlling = controlling  # at any time since the last restart
        self._checks: dict[bytes, Path] = {}
        self._succeeded: set[Path] = set()
        self._nominated: set[Path] = set()

    def cleared(self) -> None:
        """Records a restart of the agent."""
        self._checks.clear()
        self._succeeded.clear()
        self._nominated.clear()
        self.was_controlling = self.controlling

    def sent(self, datagram: Datagram) -> None:
        """Records a check."""
        message = message_of(datagram.contents)
        if message.kind == "request":
            if message.transaction in self._checks:
                raise Broken(f"{self.side}: two checks have one transaction ID")
            self._checks[message.transaction] = (datagram.source, datagram.destination)

    def took(self, datagram: Datagram, source: SocketAddress, local: SocketAddress) -> None:
        """Records an accepted message: a response to a check, a nomination by the peer, a change of role."""
        if datagram.side == self.side:
            raise Broken(f"{self.side}: accepted its own message")
        message = message_of(datagram.contents)
        if message.kind == "request":
            if message.use_candidate:
                self._nominated.add((local, source))
        elif message.transaction not in self._checks:
            raise Broken(f"{self.side}: accepted a response to no check")
        elif message.kind == "success":
            if self._checks[message.transaction] != (local, source):
                raise Broken(f"{self.side}: accepted a response from another path")
            self._succeeded.add((local, source))
        self._note_role()

    def _note_role(self) -> None:
        controlling = self.agent.controlling
        if controlling != self.controlling:
            self.controlling = controlling
            self.changes += 1
        self.was_controlling |= controlling

    def told(self, event: IceAgentEvent) -> None:
        """Tests the path of an event, as clauses `polled_answered` and `polled_nominated` of `run` say of it."""
        if not isinstance(event, NominatedSend) or self.lite:
            return
        path = (event.source, event.destination)
        if path not in self._succeeded:
            raise Broken(f"{self.side}: selected {path[0]} {path[1]}, on which no check succeeded")
        if not self.was_controlling and path not in self._nominated:
            raise Broken(f"{self.side}: selected {path[0]} {path[1]}, which was not nominated by the peer")


def judge_roles(a: SideGuarantees, b: SideGuarantees, connected: bool) -> None:
    """Tests that the greater tie-breaker kept its role, the other switched at most once, and connected agents have opposite roles."""
    greater, lesser = (a, b) if a.tie_breaker > b.tie_breaker else (b, a)
    if greater.changes:
        raise Broken(f"{greater.side}: switched its role, although it has the greater tie-breaker")
    if lesser.changes > 1:
        raise Broken(f"{lesser.side}: switched its role {lesser.changes} times")
    if connected and a.controlling == b.controlling:
        raise Broken("both have the same role at the end")
