"""What a session logs, by children of the logger `is_ice`. The library makes the lines of events, removed pairs and datagrams."""

from __future__ import annotations

import logging
from collections import Counter
from collections.abc import MutableMapping
from itertools import dropwhile
from typing import TYPE_CHECKING, Any

from .address import Protocol, SocketAddress
from .agent import IceAgent
from .errors import NoAgent
from .events import DiscoveredRecv, IceAgentEvent, MediaPath, RemovedPair

_MOST_KINDS = 32  # of messages that are counted each for itself

if TYPE_CHECKING:
    _Adapter = logging.LoggerAdapter[logging.Logger]
else:
    _Adapter = logging.LoggerAdapter  # takes a type parameter from Python 3.11 on


class SessionLog(_Adapter):
    """A logger whose lines begin with the username fragment of an agent: the checks of its peer have it too.

    `discarded` counts the STUN messages that nobody took, by their kind and by why the agent rejected them.
    """

    def __init__(self, logger: logging.Logger, agent: IceAgent) -> None:
        super().__init__(logger, {})
        self.discarded: Counter[str] = Counter()
        self._agent, self._ufrag = agent, agent.local_credentials.ufrag
        self._removed: list[RemovedPair] = []  # those that the agent listed last: what comes after them is new

    def process(self, msg: Any, kwargs: MutableMapping[str, Any]) -> tuple[Any, MutableMapping[str, Any]]:
        """Puts the username fragment before a line."""
        try:
            self._ufrag = self._agent.local_credentials.ufrag
        except NoAgent:
            pass  # the last one, after the agent was closed
        return f"{self._ufrag}: {msg}", kwargs

    def _line(self, level: int, line: str) -> None:
        """Logs a line that begins with the username fragment already."""
        self.logger.log(level, "%s", line)

    def event(self, event: IceAgentEvent) -> None:
        """Logs an event of the agent."""
        level = logging.DEBUG if isinstance(event, DiscoveredRecv) else logging.INFO
        if self.isEnabledFor(level):
            self._line(level, self._agent.event_line(event))

    def send_failed(self, source: SocketAddress, destination: SocketAddress, reason: int) -> None:
        """Logs that a datagram was not sent, if it is the first one on its path for this reason."""
        path = MediaPath(source, destination, Protocol.UDP)
        for failed in self._agent.failed_sends() if self.isEnabledFor(logging.INFO) else []:
            if (failed.path, failed.reason, failed.times) == (path, reason, 1):
                self.info("not sent %s", failed)

    def removals(self) -> None:
        """Logs each pair that was removed since the last call.

        The agent lists the last ones, and none after a restart, so their number does not say how many are new.
        """
        if not self.isEnabledFor(logging.INFO) or self._agent.removed_pairs(max(0, len(self._removed) - 1)) == self._removed[-1:]:
            return
        known, listed = iter(self._removed), self._agent.removed_pairs()
        new = len(list(dropwhile(lambda pair: pair in known, listed)))
        for index in range(len(listed) - new, len(listed)):
            if (line := self._agent.removed_line(index)) is not None:
                self._line(logging.INFO, line)
        self._removed = listed

    def message_discarded(self, source: SocketAddress, local: SocketAddress, data: bytes) -> None:
        """Counts a STUN message, and logs it if it is the first of its kind: with the reason, as a password that the peer does not know."""
        try:
            kind = self._agent.packet_kind(source, local, data)
            if kind not in self.discarded and len(self.discarded) >= _MOST_KINDS:
                kind = "other STUN message"
            self.discarded[kind] += 1
            if self.discarded[kind] == 1 and self.isEnabledFor(logging.INFO):
                self._line(logging.INFO, self._agent.packet_line(source, local, data))
        except NoAgent:
            pass  # a handler closed it
