"""Nominations in the checks that pass a loop: USE-CANDIDATE, and NOMINATION of draft-thatcher-ice-renomination."""

from __future__ import annotations

import time
from dataclasses import dataclass

from is_ice import SocketAddress, Unparsed
from is_ice.stun import StunClass, StunMessage


@dataclass(frozen=True)
class Nomination:
    """A check that nominates its pair, at a time of time.time(). `number` is None without NOMINATION."""

    at: float
    local: SocketAddress
    remote: SocketAddress
    number: int | None
    data: bytes

    @property
    def ports(self) -> tuple[int, int]:
        """The ports of the path: those of the agent and of the peer."""
        return self.local.port, self.remote.port


def nominations(local: SocketAddress, remote: SocketAddress, data: bytes) -> list[Nomination]:
    """Returns what a datagram nominates: one pair if it is a check with USE-CANDIDATE or NOMINATION, or nothing."""
    try:
        message = StunMessage(data)
    except Unparsed:
        return []
    nominates = message.use_candidate or message.nomination is not None
    if message.class_ is not StunClass.REQUEST or not nominates:
        return []
    return [Nomination(time.time(), local, remote, message.nomination, data)]
