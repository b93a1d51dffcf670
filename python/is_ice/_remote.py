"""The candidates that a peer signals to a connection."""

from __future__ import annotations

import asyncio
from collections.abc import Callable
from typing import Protocol, Union

from ._grammar import is_foundation
from ._session_log import SessionLog
from .candidate import CandidateFields
from .errors import IceError, TooManyCandidates
from .lines import line_fields, line_fields_with_address, line_name
from .loop import IceLoop
from .mdns import Mdns

_MOST_CHARACTERS = 4096  # of a candidate's text
_LOGGED = 200  # characters of what a peer signaled


class _WithSdp(Protocol):
    def to_sdp(self) -> str:
        """The candidate attribute without "candidate:" before it."""


RemoteCandidate = Union[str, _WithSdp]


class RemoteCandidates:
    """Adds candidates of the peer to an agent. mDNS names are resolved meanwhile.

    `resolved` is called after the address of a name was added. `ended`: the peer signals no more. `names` are the names that are
    being resolved. `unknown_hosts` counts these, and those that nobody resolved: checks of the hosts may come all the same.
    """

    def __init__(self, loop: IceLoop, mdns: Mdns, log: SessionLog, resolved: Callable[[], None]) -> None:
        self.ended = False
        self.names: set[asyncio.Task[None]] = set()
        self.unknown_hosts = 0
        self._loop, self._mdns, self._log, self._resolved = loop, mdns, log, resolved

    @property
    def are_all_known(self) -> bool:
        """Whether no candidate comes any more, and none has an unknown address."""
        return self.ended and not self.unknown_hosts

    def take(self, candidate: RemoteCandidate) -> None:
        """Adds a candidate, or begins to resolve its name. One that is not allowed is left out."""
        sdp = candidate if isinstance(candidate, str) else candidate.to_sdp()
        line = "candidate:" + sdp.removeprefix("candidate:")
        if len(line) > _MOST_CHARACTERS:
            self._log.info("left out a candidate of %d characters", len(line))
            return
        try:
            if (name := line_name(line)) is None:
                self._add(line_fields(line))
            else:
                _checked(line_fields_with_address(line, "0.0.0.0"))
                self._resolve(line, name)
        except (IceError, ValueError) as error:
            self._leave_out(error)

    def _add(self, fields: CandidateFields) -> None:
        result = self._loop.add_remote_candidate(_checked(fields).text)
        self._log.info("remote candidate %s %s: %s", fields.address, fields.kind.name, result.name)

    def _leave_out(self, error: Exception) -> None:
        self._log.info("left out a candidate: %r", str(error)[:_LOGGED])

    def _resolve(self, line: str, name: str) -> None:
        limit = self._loop.agent.max_candidates
        if limit is not None and len(self.names) >= limit:
            raise TooManyCandidates
        self.unknown_hosts += 1
        task = asyncio.ensure_future(self._add_named(line, name))
        self.names.add(task)
        task.add_done_callback(self.names.discard)

    async def _add_named(self, line: str, name: str) -> None:
        ip = await self._mdns.resolve(name)
        if ip is None:
            self._log.info("nobody resolves %r", name[:_LOGGED])
            return
        self.unknown_hosts -= 1
        try:
            self._add(line_fields_with_address(line, ip))
        except (IceError, ValueError) as error:
            self._leave_out(error)
        self._resolved()


def _checked(fields: CandidateFields) -> CandidateFields:
    """Returns the candidate. ValueError if its foundation is not in the grammar of RFC 8839."""
    if not is_foundation(fields.foundation):
        raise ValueError(f"the foundation {fields.foundation!r} does not have 1 to 32 letters, digits, '+' and '/'")
    return fields
