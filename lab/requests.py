"""A Binding request that an agent received."""

from __future__ import annotations

from dataclasses import dataclass

from is_ice import SocketAddress
from is_ice.stun import StunMessage

from .stun import nomination_of


@dataclass(frozen=True)
class Request:
    """A Binding request that was received. `controlling` and `controlled`: the tie-breaker in each role attribute."""

    time: int
    source: SocketAddress
    local: SocketAddress
    id: bytes
    priority: int
    use_candidate: bool
    ufrag: str
    controlling: int | None
    controlled: int | None
    nomination: int | None = None  # the number of its nomination (NOMINATION)


def request_of(now: int, source: SocketAddress, local: SocketAddress, contents: bytes) -> Request:
    """Reads a request."""
    message = StunMessage(contents)
    ufrag = (message.username or ":").partition(":")[2]
    return Request(now, source, local, message.transaction, message.priority or 0, message.use_candidate, ufrag, message.ice_controlling,
                   message.ice_controlled, nomination_of(contents))
