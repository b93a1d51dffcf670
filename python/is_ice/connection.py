"""An awaitable ICE connection: gathers candidates, connects, sends and receives datagrams.

    connection = Connection(ice_controlling=True, stun_server=("stun.example.org", 3478))
    await connection.gather_candidates()
    ...                                        # signaling: local_username, local_password and local_candidates to the peer
    connection.remote_username, connection.remote_password = ufrag, password
    for candidate in candidates:
        await connection.add_remote_candidate(candidate)
    await connection.add_remote_candidate(None)
    await connection.connect()
    await connection.send(b"hello")

Arguments, attributes and methods are those of aioice's `Connection`, so code for aioice runs on it. A connection has one component.
Datagrams may come from any address, as with aioice: authenticate them, as DTLS does.
"""

from __future__ import annotations

import asyncio
import contextlib
import enum
import logging
import ssl
from collections.abc import Callable, Coroutine, Iterable, Sequence
from typing import Any

from ._grammar import checked
from ._inbox import Inbox
from ._local import LocalCandidates, Sources
from ._remote import RemoteCandidate, RemoteCandidates
from ._report import failure
from ._session_log import SessionLog
from ._unique import Unique
from .address import SocketAddress
from .agent import IceAgent, first_role
from .attribute import CandidateAttribute
from .candidate import CandidateKind
from .errors import HasAgent, IceError, LiteStaysControlled, NoAgent
from .events import IceAgentEvent, IceConnectionStateChange, IceCreds, NominatedSend
from .gather import LoopEvent, ServerAddress, all_of, stun_and_turn
from .gatherer import LocalCandidate, ServerLike
from .interfaces import host_addresses
from .loop import EventHandler, IceLoop
from .mdns import Mdns, mdns_client

_log = logging.getLogger(__name__)

_PATIENCE = 30.0  # seconds until `connect` fails
_MOST_BYTES = 1 << 20  # of datagrams that wait for `recv`; then the oldest ones are lost
_MOST_DATAGRAMS = 4096


class TransportPolicy(enum.Enum):
    """Which local candidates are used. RELAY: only those that a STUN or TURN server provided."""

    ALL = 0
    RELAY = 1


class ConnectionEvent:
    """What `get_event` returns."""


class ConnectionClosed(ConnectionEvent):
    """The connection was closed, or consent was lost: the peer no longer responds."""


class Connection(Unique):
    """An ICE connection with one component. It cannot be copied or pickled.

    `max_candidates` limits the candidates of each side: see `IceAgent.set_max_candidates`. What is beyond it is left out, and no more
    mDNS names are resolved at a time. `hide_addresses`, until candidates are gathered: host candidates are signaled with mDNS names,
    for which the connection responds until it is closed, other candidates without a related address, and all with numbers as
    foundations, since the agent computes its own from the addresses.

    The logger `is_ice` has a line for each candidate, state, selected path and removed pair, and for the first packet of each kind that is
    discarded.
    """

    closed_event: Callable[[], Any] = ConnectionClosed

    def __init__(self, ice_controlling: bool, components: int = 1, stun_server: ServerAddress | None = None,
                 turn_server: ServerAddress | None = None, turn_username: str | None = None, turn_password: str | None = None,
                 turn_ssl: bool = False, turn_transport: str = "udp", use_ipv4: bool = True, use_ipv6: bool = True,
                 transport_policy: Any = TransportPolicy.ALL, addresses: Sequence[str] | None = None,
                 hide_addresses: bool = False, servers: Iterable[ServerLike] = (), tls: ssl.SSLContext | None = None) -> None:
        """`servers`: STUN and TURN servers as browsers' `iceServers`, besides `stun_server` and `turn_server`. `tls` is for those over TLS;
        by default the system's certificates count. `addresses`: the local IP addresses for host candidates, by default those of all
        interfaces.

        ImportError if addresses are hidden, and aioice is not installed. BadUrl for the URL of a server. ValueError for more than one
        component. HasAgent if it is called again.
        """
        if hasattr(self, "agent"):
            raise HasAgent
        if components != 1:
            raise ValueError("a connection has one component")
        self._relay_only = transport_policy.name == "RELAY"  # aioice's policy has this name too
        if hide_addresses:
            mdns_client()
        self.hide_addresses = hide_addresses
        self.stun_server, self.turn_server = stun_server, turn_server
        self.turn_username, self.turn_password = turn_username, turn_password
        self.turn_ssl, self.turn_transport = turn_ssl, turn_transport
        self.remote_is_lite = False
        self.remote_username: str | None = None
        self.remote_password: str | None = None
        self._use_ipv4, self._use_ipv6, self._addresses = use_ipv4, use_ipv6, addresses
        all_servers = [*stun_and_turn(stun_server, turn_server, turn_username, turn_password, turn_ssl, turn_transport), *servers]
        if self._relay_only and not all_servers:
            raise ValueError("the RELAY policy needs a STUN or TURN server")
        self.agent = IceAgent()
        self.agent.set_controlling(ice_controlling)
        self._controlling, self._creds = ice_controlling, self.agent.local_credentials
        self.on_event: EventHandler | None = None  # called with each event of the agent
        self.on_candidate: Callable[[CandidateAttribute], None] | None = None  # called with each candidate that a server brings
        self._loop = IceLoop(self.agent, self._on_event, self._on_media, servers=all_servers, on_gathering=self._on_gathering, tls=tls,
                             relay_only=self._relay_only, on_path=self._on_path)
        self._log, self._mdns = SessionLog(_log, self.agent), Mdns()
        self._local = LocalCandidates(self.agent, self._loop, self._mdns, self._log)
        self._remote = RemoteCandidates(self._loop, self._mdns, self._log, self._fail_if_nothing_is_left)
        self._start_state()

    def _start_state(self) -> None:
        self._gathering: asyncio.Task[None] | None = None
        self._connected = self._closed = False
        self._unchecked: tuple[SocketAddress, SocketAddress] | None = None  # the path of `set_selected_pair`
        self._found: asyncio.Future[str | None] | None = None  # None: a path was found. Else why not
        self._event: asyncio.Future[Any] | None = None
        self._closing: asyncio.Task[None] | None = None  # after consent was lost
        self._ending: asyncio.Task[None] | None = None
        self._inbox = Inbox(_MOST_BYTES, _MOST_DATAGRAMS)

    # ---- limit, role, credentials and candidates

    @property
    def max_candidates(self) -> int | None:
        """How many candidates of each side there may be when one is added. None: any number."""
        return self.agent.max_candidates

    @max_candidates.setter
    def max_candidates(self, limit: int | None) -> None:
        self.agent.set_max_candidates(limit)

    @property
    def ice_controlling(self) -> bool:
        """Whether this side is controlling. A role conflict may change it."""
        return self._controlling if self._closed else self.agent.controlling

    @ice_controlling.setter
    def ice_controlling(self, controlling: bool) -> None:
        if not self._closed:
            self.agent.set_controlling(controlling)

    @property
    def local_username(self) -> str:
        """The local username fragment, random by default. ValueError for one that is not in the grammar of RFC 8839."""
        return self._creds.ufrag

    @local_username.setter
    def local_username(self, ufrag: str) -> None:
        self._set_creds(IceCreds(ufrag, self._creds.pass_))

    @property
    def local_password(self) -> str:
        """The local password, random by default. ValueError for one that is not in the grammar of RFC 8839."""
        return self._creds.pass_

    @local_password.setter
    def local_password(self, pass_: str) -> None:
        self._set_creds(IceCreds(self._creds.ufrag, pass_))

    def _set_creds(self, creds: IceCreds) -> None:
        self.agent.set_local_credentials(creds)
        self._creds = creds

    @property
    def local_candidates(self) -> list[CandidateAttribute]:
        """The candidates that were gathered, for signaling. None after `close`."""
        return [] if self._closed else self._local.signaled()

    @property
    def remote_candidates(self) -> list[CandidateAttribute]:
        """The peer's candidates that the agent has: those that were added, with mDNS names resolved, and those that it discovered.

        None after `close`.
        """
        return [] if self._closed else [CandidateAttribute.from_fields(fields) for fields in self.agent.remote_fields()]

    def get_default_candidate(self, component: int) -> CandidateAttribute | None:
        """Returns the local candidate of lowest priority, which the peer reaches most likely without ICE, or None."""
        candidates = [c for c in self.local_candidates if c.component == component]
        return min(candidates, key=lambda c: c.priority) if candidates else None

    # ---- gathering

    async def gather_candidates(self) -> None:
        """Gathers local candidates. It waits for servers for 5 s. What they bring later is added then: `on_candidate` is called with it,
        for the peer. A second call changes nothing. It ends when the connection is closed.
        """
        if self._closed:
            return
        if self._gathering is None:
            self._gathering = asyncio.ensure_future(self._gather())
        await asyncio.wait({self._gathering})  # whoever is cancelled here leaves it to others
        if not self._gathering.cancelled():
            self._gathering.result()

    async def _gather(self) -> None:
        if self._closed:  # in the turn of the loop in which the call began, so the agent is gone
            return
        addresses = host_addresses(self._use_ipv4, self._use_ipv6) if self._addresses is None else self._addresses
        await self._local.gather(Sources(addresses, self._relay_only, self.hide_addresses))

    # ---- signaling

    async def add_remote_candidate(self, remote_candidate: RemoteCandidate | None) -> None:
        """Adds a candidate of the peer: a text, or an object with `to_sdp`. None: there are no more. Returns at once.

        Left out are malformed candidates, texts of more than 4096 characters, and what is beyond `max_candidates`. An mDNS name is resolved
        meanwhile, if aioice is installed: `connect` does not wait for it, and fails for lack of candidates only after it. If nobody
        responds for the name, the agent discovers the address from the peer's checks.
        """
        if self._remote.ended:
            raise ValueError("a candidate after end-of-candidates")
        if remote_candidate is None:
            self._remote.ended = True
            self._fail_if_nothing_is_left()
        elif not self._closed:
            self._remote.take(remote_candidate)

    # ---- the session

    async def connect(self) -> None:
        """Connects. ConnectionError if something is missing, if all checks fail, or after 30 s. It says what was tried.

        It returns as soon as data may flow, which may be before a path is selected (RFC 8445, section 12.1). Once one is,
        `send` takes it. The peer may have no response on a path yet, and drop what arrives there before. If the agent is lite, it waits
        until the peer has nominated a path.
        """
        if self._gathering is None or not self._gathering.done():
            raise ConnectionError("candidates were not gathered")
        if self.remote_username is None or self.remote_password is None:
            raise ConnectionError("the remote username or password is missing")
        if self._closed:
            raise ConnectionError(self._failure("the connection was closed"))
        if self._may_not_connect():
            raise ConnectionError(self._failure("the peer has no candidates"))
        if self._connected:
            return
        if not self._loop.gatherer.is_gathering and not self.agent.local_candidates():
            raise ConnectionError(self._failure("there are no local candidates"))
        try:
            self.agent.set_remote_credentials(checked(IceCreds(self.remote_username, self.remote_password)))
        except (IceError, ValueError) as error:
            raise ConnectionError(f"the remote credentials cannot be used: {error}") from error
        try:
            self.agent.set_controlling(first_role(self.agent.controlling, self.agent.ice_lite, self.remote_is_lite))
        except LiteStaysControlled as error:
            raise ConnectionError(f"both agents are lite: {error}") from error
        if self._found is None or self._found.done():
            self._found = asyncio.get_running_loop().create_future()
        self._loop.begin()
        try:
            told = await asyncio.wait_for(asyncio.shield(self._found), _PATIENCE)
        except asyncio.TimeoutError:
            told = self._failure(f"there is no path after {_PATIENCE:g} s")
        if told:
            self._log.info("%s", told)
            raise ConnectionError(told)

    def _failure(self, why: str) -> str:
        """Says why there is no connection, and what was tried."""
        return failure(why, self._loop.tried, self._remote.unknown_hosts, self._remote.ended)

    def _may_not_connect(self) -> bool:
        """Whether nothing is left to try: no candidate comes any more, and there is none."""
        return self._remote.are_all_known and not self.agent.remote_candidates()

    def _fail_if_nothing_is_left(self) -> None:
        if self._found and not self._found.done() and self._remote.are_all_known:
            if self._may_not_connect():
                self._fail("the peer has no candidates")
            elif self.agent.state.is_disconnected():
                self._fail("all checks failed")

    def _on_event(self, event: IceAgentEvent) -> None:
        if isinstance(event, NominatedSend):
            self._on_path()
        elif isinstance(event, IceConnectionStateChange) and event.state.is_disconnected():
            if self._connected:
                self._closing = asyncio.ensure_future(self._close())  # after this event was reported
            elif self._remote.are_all_known:
                self._fail("all checks failed")
        if self.on_event:
            self.on_event(event)

    def _on_path(self) -> None:
        self._unchecked, self._connected = None, True
        if self._found and not self._found.done():
            self._found.set_result(None)

    def _on_gathering(self, event: LoopEvent) -> None:
        if isinstance(event, LocalCandidate) and self.on_candidate and (candidate := self._local.signaled_as(event.line)):
            self.on_candidate(candidate)

    def _on_media(self, source: SocketAddress, local: SocketAddress, data: bytes) -> None:
        self._inbox.put(data)

    def _fail(self, why: str) -> None:
        if self._found and not self._found.done():
            self._found.set_result(self._failure(why))

    def close(self) -> Coroutine[Any, Any, None]:
        """Closes the connection. `connect`, `recv` and gathering of other tasks end, and `get_event` returns ConnectionClosed.

        Await it, to wait until a TURN server has freed an allocation, for a second. Whoever is cancelled then, or before, does not stop
        it.
        """
        try:
            asyncio.get_running_loop()
        except RuntimeError:
            pass  # it is closed once the loop runs
        else:
            self._begin_to_close()
        return self._close()

    async def _close(self) -> None:
        await asyncio.wait({self._begin_to_close()})

    def _begin_to_close(self) -> asyncio.Task[None]:
        if self._ending is None:
            self._shut()
            self._ending = asyncio.ensure_future(self._end())
        return self._ending

    def _shut(self) -> None:
        with contextlib.suppress(NoAgent):
            self._controlling = self.agent.controlling
        self._fail("the connection was closed")
        self._closed, self._connected = True, False
        self._local.close()
        self._loop.close()
        self.agent.close()
        self._inbox.end()
        if self._event and not self._event.done():
            self._event.set_result(self.closed_event())

    async def _end(self) -> None:
        tasks = [*self._remote.names, *([self._gathering] if self._gathering else [])]
        for task in tasks:
            task.cancel()
        await asyncio.gather(*tasks, return_exceptions=True)
        await all_of(self._mdns.close(), self._loop.wait_closed())
        await asyncio.sleep(0)  # asyncio closes the sockets

    async def get_event(self) -> Any:
        """Returns ConnectionClosed when the connection is closed or consent is lost, or None if it is closed already."""
        if self._event is not None:
            raise RuntimeError("another task awaits the event")
        if self._closed:
            return None
        self._event = asyncio.get_running_loop().create_future()
        try:
            return await self._event
        finally:
            self._event = None

    # ---- data

    async def recv(self) -> bytes:
        """Receives a datagram. ConnectionError if the connection is not connected, or is closed."""
        if not self._connected:
            raise ConnectionError("not connected")
        data = await self._inbox.get()
        if data is None:
            raise ConnectionError("the connection was closed")
        return data

    @property
    def dropped_datagrams(self) -> int:
        """How many datagrams were lost because nobody read them: 1 MiB or 4096 datagrams wait for `recv`, then the oldest are dropped."""
        return self._inbox.dropped

    async def recvfrom(self) -> tuple[bytes, int]:
        """Receives a datagram, and returns it with its component, which is 1."""
        return await self.recv(), 1

    async def send(self, data: bytes) -> None:
        """Sends a datagram on the selected path, before there is one on that of a valid pair. ConnectionError if the connection is not
        connected, or is closed.

        If consent was lost and another path is being checked, the datagram is lost (RFC 7675).
        """
        if not self._connected:
            raise ConnectionError("not connected")
        if path := self._unchecked or self.agent.media_addresses(self._loop.now()):
            self._loop.send(*path, data)

    async def sendto(self, data: bytes, component: int) -> None:
        """Sends a datagram on component 1."""
        if component != 1:
            raise ConnectionError("a connection has one component")
        await self.send(data)

    def set_selected_pair(self, component: int, local_foundation: str, remote_foundation: str) -> None:
        """Uses a path without checks, for a peer without ICE. ValueError if there is no candidate with such a foundation."""
        local = self._local.with_foundation(local_foundation)
        remote = next((fields for fields in self.agent.remote_fields() if fields.foundation == remote_foundation), None)
        if remote is None:
            raise ValueError(f"no remote candidate has the foundation {remote_foundation}")
        source = local.address if local.kind is CandidateKind.RELAYED else local.local
        self._unchecked, self._connected = (source, remote.address), True
