"""The connection state of an agent (RFC 8445, section 6.1.3)."""

from __future__ import annotations

from collections.abc import Sequence

from is_ice import IceConnectionState

from .pairs import Pair, Place, Timing

NEW, CHECKING, CONNECTED = IceConnectionState.NEW, IceConnectionState.CHECKING, IceConnectionState.CONNECTED
COMPLETED, DISCONNECTED = IceConnectionState.COMPLETED, IceConnectionState.DISCONNECTED


def next_state(state: IceConnectionState, is_selected: bool, is_possible: bool, lite: bool) -> IceConnectionState:
    """Returns the next state. `is_selected`: media can be sent on a pair. `is_possible`: another pair may still become such a pair."""
    if state is NEW:
        return CHECKING
    if not is_selected:
        return CHECKING if is_possible else DISCONNECTED
    return CONNECTED if is_possible and (not lite or state is CONNECTED) else COMPLETED


def has_nominated(pairs: Sequence[Pair]) -> bool:
    """Whether media can be sent on a pair: it is valid and nominated."""
    return any(p.is_valid and p.is_nominated for p in pairs)


def has_possible(local: Sequence[Place], remote: Sequence[Place], pairs: Sequence[Pair], now: int, timing: Timing) -> bool:
    """Whether another pair is still possible, or a list of candidates is empty."""
    return not local or not remote or any(p.is_possible(now, timing) for p in pairs if not (p.is_valid and p.is_nominated))
