"""`NewAgentsAreFresh`: what a program sees of an agent that it has just made. Its whole record is seen by no call; nor is its tie-breaker,
but each check has it."""

from __future__ import annotations

from collections.abc import Iterator
from dataclasses import dataclass, fields

from is_ice import IceConnectionState, Settings
from is_ice.stun import StunMessage

from ..stun import message_of
from ..view import View
from ..witness import Record
from .found import Found

# Of is_ice_set_mtu.
MTU, MTU_WARN = 1150, 1280


@dataclass(frozen=True)
class Fresh:
    """What is seen of a new agent besides its credentials (`fresh_held`)."""

    state: IceConnectionState = IceConnectionState.NEW
    controlling: bool = False
    lite: bool = False
    mtu: int = MTU
    mtu_warn: int = MTU_WARN
    early: int = 0
    peer: None = None
    pairs: tuple[()] = ()
    local: int = 0
    remote: int = 0
    due: None = None


def differences(view: View) -> Iterator[str]:
    """Returns the names of what is not as of a new agent."""
    fresh = Fresh()
    yield from (f.name for f in fields(fresh) if getattr(view, f.name) != getattr(fresh, f.name))
    if view.settings != Settings.modern():
        yield "settings"


def tie_breakers(record: Record) -> Iterator[tuple[int, int | None]]:
    """Returns the tie-breakers of the agent's checks, each with the index of the call that queued it."""
    for c in record.witness.calls:
        for p in c.packets:
            if message_of(p.contents).kind == "request":
                message = StunMessage(p.contents)
                yield c.at, message.ice_controlling if message.ice_controlled is None else message.ice_controlled


def new_agents_are_fresh(record: Record) -> Found:
    """`NewAgentsAreFresh`: the new agent has the credentials that were given and the modern settings, no candidate, pair, packet or event,
    and its first check has the tie-breaker that was given, unless the program set another one."""
    found, born = Found(), record.witness.born
    found.add(born.view.creds == born.given, "a new agent has other credentials than the given ones")
    for name in differences(born.view):
        found.add(False, f"a new agent has another value of {name}")
    found.add(not born.rest, f"a new agent has {born.rest[:1]}")
    if not record.witness.sets_role and (first := next(tie_breakers(record), None)):
        found.add(first[1] == record.tie_breaker, f"call {first[0]}: the first check has another tie-breaker")
    return found
