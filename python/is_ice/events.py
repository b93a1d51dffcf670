"""What an agent returns: events, packets, states and statistics."""

from __future__ import annotations

import enum
import os
from dataclasses import dataclass, field
from typing import NamedTuple, Union

from . import _abi
from .address import Protocol, SocketAddress, address_of


class _Printed(enum.IntEnum):
    """Values that print as their `str` in a formatted text too."""

    def __format__(self, spec: str) -> str:
        return format(str(self), spec)


class _Reason(_Printed):
    """Return codes that print as their texts."""

    def __str__(self) -> str:
        return _abi.TEXTS[self]


class IceConnectionState(_Printed):
    """States of the connection. None is final.

    NEW: the session has not started. CHECKING: no valid pair is nominated, and one may yet be. CONNECTED: a valid pair is
    nominated, and another one may yet be found. COMPLETED: a valid pair is nominated, and no other one may be found, or the agent
    is lite. DISCONNECTED: no valid pair is nominated, and none may be; new candidates or checks of the peer may change that.
    """

    NEW = _abi.NEW
    CHECKING = _abi.CHECKING
    CONNECTED = _abi.CONNECTED
    COMPLETED = _abi.COMPLETED
    DISCONNECTED = _abi.DISCONNECTED

    def __str__(self) -> str:
        return f"State.{self.name.capitalize()}"

    def is_connected(self) -> bool:
        """Returns whether a valid pair is nominated."""
        return self in (IceConnectionState.CONNECTED, IceConnectionState.COMPLETED)

    def is_disconnected(self) -> bool:
        """Returns whether no valid pair is nominated and none may be."""
        return self is IceConnectionState.DISCONNECTED


@dataclass(frozen=True)
class IceCreds:
    """A username fragment and a password. Signaling sends them to the peer. `repr` and `str` leave the password out."""

    ufrag: str
    pass_: str = field(repr=False)


@dataclass(frozen=True)
class IceRestart:
    """A session starts or restarts with these local credentials."""

    creds: IceCreds


@dataclass(frozen=True)
class IceConnectionStateChange:
    """The state changed."""

    state: IceConnectionState


@dataclass(frozen=True)
class DiscoveredRecv:
    """The first authentic packet from `source` over `protocol` since the last restart."""

    protocol: Protocol
    source: SocketAddress


@dataclass(frozen=True)
class NominatedSend:
    """Send media from `source` to `destination` over `protocol`, until the next such event."""

    protocol: Protocol
    source: SocketAddress
    destination: SocketAddress


@dataclass(frozen=True)
class Silent:
    """No authentic packet came on the selected path for as long as `IceAgent.set_silence` says."""

    protocol: Protocol
    source: SocketAddress
    destination: SocketAddress


@dataclass(frozen=True)
class Heard:
    """One came again on the selected path."""

    protocol: Protocol
    source: SocketAddress
    destination: SocketAddress


IceAgentEvent = Union[IceRestart, IceConnectionStateChange, DiscoveredRecv, NominatedSend, Silent, Heard]
_KINDS: dict[type, int] = {IceRestart: _abi.RESTARTED, IceConnectionStateChange: _abi.STATE_CHANGED, DiscoveredRecv: _abi.DISCOVERED_RECV,
                           NominatedSend: _abi.NOMINATED_SEND, Silent: _abi.SILENT, Heard: _abi.HEARD}


def event_of(event: IceAgentEvent) -> _abi.Event:
    """Converts to the library's struct."""
    told = _abi.Event(kind=_KINDS[type(event)], state=getattr(event, "state", 0), protocol=getattr(event, "protocol", 0))
    for name in ("source", "destination"):
        if hasattr(event, name):
            setattr(told, name, address_of(getattr(event, name)))
    return told


class Transmit(NamedTuple):
    """A packet to send from `source`, which is the address of a local socket or a relayed address."""

    protocol: Protocol
    source: SocketAddress
    destination: SocketAddress
    contents: bytes


@dataclass(frozen=True)
class IceAgentStats:
    """Counters since the last restart: checks sent, success responses received, requests served, and events of two kinds."""

    bind_request_sent: int
    bind_success_recv: int
    bind_request_recv: int
    discovered_recv_count: int
    nomination_send_count: int


class CheckState(enum.IntEnum):
    """States of a pair's checks (RFC 8445, section 6.1.2.6). WAITING: none was sent. IN_PROGRESS: none succeeded. SUCCEEDED: valid."""

    WAITING = _abi.PAIR_WAITING
    IN_PROGRESS = _abi.PAIR_IN_PROGRESS
    SUCCEEDED = _abi.PAIR_SUCCEEDED


@dataclass(frozen=True)
class CandidatePair:
    """A candidate pair. Times are nanoseconds.

    `local` and `remote` are the indices of its candidates in `local_candidates` and `remote_candidates`. `selected`: it is the pair
    of the last NominatedSend. `checks_sent` counts its checks, `requests_received` those of the peer. `responses` counts the success
    responses to its checks, and `total_rtt` is the sum of their round-trip times. None if there is none: `rtt`, the last round-trip
    time; `last_request`, when the peer's last check arrived; `due`, when its next check is due.
    """

    local: int
    remote: int
    priority: int
    state: CheckState
    nominated: bool
    selected: bool
    checks_sent: int
    requests_received: int
    responses: int
    total_rtt: int
    rtt: int | None
    last_request: int | None
    due: int | None


@dataclass(frozen=True)
class MediaPath:
    """A path for media, from `source` to `destination`."""

    source: SocketAddress
    destination: SocketAddress
    protocol: Protocol


@dataclass(frozen=True)
class FailedSend:
    """Datagrams on one path that the system did not send for one reason, as `IceAgent.send_failed` reported them.

    `reason` is the `errno` of the error, and `times` how many there were. It prints as
    `10.0.0.1:1000 -> 10.0.0.2:2000: Network is unreachable, 3 times`.
    """

    path: MediaPath
    reason: int
    times: int

    def __str__(self) -> str:
        return f"{self.path.source} -> {self.path.destination}: {os.strerror(self.reason)}, {self.times} times"


class Removal(_Printed):
    """Why a pair was removed.

    NO_RESPONSE: no check on it had a success response. CONSENT_LOST: one had, and then consent ended (RFC 7675, section 5.1), or the
    selected path fell silent while another one worked. PEER_SILENT: the agent is lite, and the peer's checks stopped. EVICTED: there were
    more pairs than the limit. REPLACED: a pair of greater priority on the same path replaced it. INVALIDATED: a candidate of it was
    invalidated. It prints as `no response`.
    """

    NO_RESPONSE = _abi.REMOVED_NO_RESPONSE
    CONSENT_LOST = _abi.REMOVED_CONSENT_LOST
    PEER_SILENT = _abi.REMOVED_PEER_SILENT
    EVICTED = _abi.REMOVED_EVICTED
    REPLACED = _abi.REMOVED_REPLACED
    INVALIDATED = _abi.REMOVED_INVALIDATED

    def __str__(self) -> str:
        return self.name.replace("_", " ").lower()


class Rejection(_Reason):
    """Why a datagram is rejected: the first reason that applies. It prints as `request signed with another password than the agent's`.

    UNPARSED: see the exception. METHOD: the method is not Binding. CLASS: neither a request nor a response. LOCAL_UFRAG: a request to
    another username fragment than the agent's. REMOTE_UFRAG: one from another fragment than the peer's. LOCAL_PASSWORD: one that is not
    signed with the agent's password: the peer has a wrong one. NO_CHECK: a response to no pending transaction. PATH: one that was not
    received on the reverse of its check's path. REMOTE_PASSWORD: one that is not signed with the peer's password.
    """

    UNPARSED = _abi.UNPARSED
    METHOD = _abi.REJECTED_METHOD
    CLASS = _abi.REJECTED_CLASS
    LOCAL_UFRAG = _abi.REJECTED_LOCAL_UFRAG
    REMOTE_UFRAG = _abi.REJECTED_REMOTE_UFRAG
    LOCAL_PASSWORD = _abi.REJECTED_LOCAL_PASSWORD
    NO_CHECK = _abi.REJECTED_NO_CHECK
    PATH = _abi.REJECTED_PATH
    REMOTE_PASSWORD = _abi.REJECTED_REMOTE_PASSWORD


class Unserved(_Reason):
    """Why an accepted request gets no response: the first reason that applies. It prints as `request to an address that no local
    candidate has`.

    EARLY: the peer's credentials are not set yet, and the request waits for them. DESTINATION: the address at which it arrived is that of
    no local candidate. USE_CANDIDATE: it has USE-CANDIDATE, and the agent is controlling. SENDER: only remote candidates that were
    invalidated have its source. LIMIT: no remote candidate has its source, and there is no place for another one: see
    `set_max_discovered`. LOCAL: the local candidate was invalidated, and has no pair with the sender.
    """

    EARLY = _abi.UNSERVED_EARLY
    DESTINATION = _abi.UNSERVED_DESTINATION
    USE_CANDIDATE = _abi.UNSERVED_USE_CANDIDATE
    SENDER = _abi.UNSERVED_SENDER
    LIMIT = _abi.UNSERVED_LIMIT
    LOCAL = _abi.UNSERVED_LOCAL


@dataclass(frozen=True)
class RemovedPair:
    """A pair that was removed, as it was then.

    `path` is None if the agent no longer lists its candidates. `responses` counts the success responses to its checks.
    `error` is the code of the last error response, or None. It prints as `10.0.0.1:1000 -> 10.0.0.2:2000 in progress, 15 checks sent,
    0 answered: no response`.
    """

    path: MediaPath | None
    priority: int
    state: CheckState
    checks_sent: int
    responses: int
    error: int | None
    reason: Removal

    def __str__(self) -> str:
        path = f"{self.path.source} -> {self.path.destination}" if self.path else "unknown path"
        state = self.state.name.replace("_", " ").lower()
        error = "" if self.error is None else f", error response {self.error}"
        return f"{path} {state}, {self.checks_sent} checks sent, {self.responses} answered{error}: {self.reason}"


@dataclass(frozen=True)
class NominatedPair:
    """The selected pair. Times are nanoseconds. `rtt` is the last round-trip time, or None if there is none.

    `source`, `destination` and `protocol` are those of its NominatedSend.
    """

    total_rtt: int
    responses: int
    rtt: int | None
    source: SocketAddress
    destination: SocketAddress
    protocol: Protocol
