"""The local candidates of a connection."""

from __future__ import annotations

import asyncio
from collections.abc import Sequence
from dataclasses import dataclass, replace
from ipaddress import IPv4Address, IPv6Address, ip_address
from typing import Union

from ._session_log import SessionLog
from .address import SocketAddress
from .agent import IceAgent
from .attribute import CandidateAttribute
from .candidate import Candidate, CandidateFields, CandidateKind
from .errors import IceError
from .loop import IceLoop
from .mdns import Mdns
from .servers import Scheme

IPAddress = Union[IPv4Address, IPv6Address]

_PATIENCE = 5.0  # seconds for servers: what they bring later is added later

_NO_ADDRESS = {4: "0.0.0.0", 6: "::"}  # in place of a related address that is hidden


@dataclass(frozen=True)
class Sources:
    """What candidates come from, besides the servers of the loop. `relay_only`: only from these. `hides`: host candidates are signaled
    with mDNS names."""

    addresses: Sequence[str]
    relay_only: bool
    hides: bool


class LocalCandidates:
    """Gathers the local candidates of an agent, and names them for signaling."""

    def __init__(self, agent: IceAgent, loop: IceLoop, mdns: Mdns, log: SessionLog) -> None:
        self._agent, self._loop, self._mdns, self._log = agent, loop, mdns, log
        self._hides = self._closed = False
        self._names: dict[IPAddress, str] = {}  # mDNS names of local addresses
        self._numbers: dict[str, str] = {}  # of foundations: the agent's are hashes of addresses, which can be found by trial

    def close(self) -> None:
        """Ends all changes to the agent."""
        self._closed = True

    def signaled(self) -> list[CandidateAttribute]:
        """Returns the candidates for signaling."""
        return [self._hidden(fields) for fields in self._gathered()]

    def with_foundation(self, foundation: str) -> CandidateFields:
        """Returns a candidate that is signaled with this foundation. ValueError if there is none."""
        for fields in self._gathered():
            if self._hidden(fields).foundation == foundation:
                return fields
        raise ValueError(f"no local candidate has the foundation {foundation}")

    def _gathered(self) -> list[CandidateFields]:
        return [fields for fields in self._agent.local_fields() if fields.kind is not CandidateKind.PEER_REFLEXIVE]

    def _hidden(self, fields: CandidateFields) -> CandidateAttribute:
        """A candidate for signaling: without any trace of a local address, if addresses are hidden."""
        candidate = CandidateAttribute.from_fields(fields)
        if not self._hides:
            return candidate
        candidate = replace(candidate, foundation=self._numbers.setdefault(fields.foundation, str(len(self._numbers) + 1)))
        if fields.kind is CandidateKind.HOST:
            return replace(candidate, host=self._names.get(ip_address(candidate.host), candidate.host))
        return replace(candidate, related_address=_NO_ADDRESS[fields.address.version], related_port=0)

    def signaled_as(self, line: str) -> CandidateAttribute | None:
        """Returns one of the candidates for signaling, by its text in the agent."""
        return next((self._hidden(fields) for fields in self._gathered() if fields.text == line), None)

    async def gather(self, sources: Sources) -> None:
        """Gathers candidates from all sources. ImportError if addresses are to be hidden and aioice is not installed."""
        self._hides = sources.hides
        bases = [base for ip in self._with_room(sources) if (base := await self._opened(ip))]
        if not sources.relay_only:  # otherwise the sockets only serve the servers
            for base in bases:
                if self._hides:
                    self._names[ip_address(base.ip)] = await self._mdns.offer(base.ip)
                self._add(Candidate.host(base))
        if not self._closed:
            await asyncio.wait({self._loop.gather()}, timeout=_PATIENCE)

    def _with_room(self, sources: Sources) -> Sequence[str]:
        """Returns the addresses for which the agent has places, of which one is left for a relayed candidate."""
        limit, found = self._agent.max_candidates, sources.addresses
        has_relays = any(server.url.scheme is Scheme.TURN for server in self._loop.gatherer.servers)
        room = len(found) if limit is None else max(0, limit - has_relays)
        if len(found) > room:
            self._log.warning("host candidates at %d of %d addresses", room, len(found))
        return found[:room]

    async def _opened(self, ip: str) -> SocketAddress | None:
        try:
            return await self._loop.open(ip)
        except OSError as error:
            self._log.warning("no host candidate at %s: %s", ip, error)
            return None

    def _add(self, candidate: Candidate) -> None:
        if self._closed:
            return
        try:
            added = self._agent.add_local_candidate(candidate)
        except IceError as error:
            self._log.warning("no candidate at %s: %s", candidate.address, error)
        else:
            self._log.info("local candidate %s %s", candidate.address, candidate.kind.name if added else "is redundant")
