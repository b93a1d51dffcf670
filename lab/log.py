"""The log of a session: the calls on both agents, with times, arguments and results, in order."""

from __future__ import annotations

from collections.abc import Callable
from dataclasses import dataclass, field
from typing import Any

from is_ice import IceAgent, RemovedPair

from .clock import Clock

# The calls that the log has. Queries are left out: they change nothing. So is `set_controlling`, which belongs to the beginning.
CALLS = ("set_ice_lite", "set_renomination", "set_settings", "set_initial_stun_rto", "set_max_stun_rto", "set_max_stun_retransmits",
         "set_lite_timeout", "set_timing_advance", "set_max_candidate_pairs", "set_max_discovered", "set_max_candidates", "set_mtu",
         "set_local_preference", "set_preference_table", "set_local_credentials", "set_remote_credentials", "add_local_candidate",
         "add_remote_candidate", "invalidate_candidate", "ice_restart", "recreate_candidate_pairs", "handle_packet", "handle_timeout",
         "poll_timeout", "poll_transmit", "poll_event")


@dataclass(frozen=True)
class Entry:
    """A call of a side. A packet is sent by the `poll_transmit` that returns it, and lost if no `handle_packet` has its bytes."""

    time: int
    side: str
    call: str
    given: tuple[Any, ...] = ()
    returned: Any = None


@dataclass(frozen=True)
class Beginning:
    """How an agent was created, its role, and whether its profile was `Modern` at first."""

    creds: Any
    tie_breaker: int
    controlling: bool = False
    modern: bool = True


@dataclass
class Log:
    """The entries of a session, oldest first. `removed`: the pairs that each side lists as removed at the end."""

    sides: dict[str, Beginning] = field(default_factory=dict)
    entries: list[Entry] = field(default_factory=list)
    removed: dict[str, list[RemovedPair]] = field(default_factory=dict)

    def wrapped(self, agent: IceAgent, side: str, clock: Clock) -> Any:
        """Returns an agent, whose calls are logged."""
        return LoggedAgent(agent, side, clock, self)


class LoggedAgent:
    """An agent whose calls are logged. Polls that return nothing are left out, not `poll_timeout`: with `Original` it fixes due times."""

    def __init__(self, agent: IceAgent, side: str, clock: Clock, log: Log) -> None:
        self._agent, self._side, self._clock, self._log = agent, side, clock, log

    @property
    def unlogged(self) -> IceAgent:
        """The agent, whose calls are not logged."""
        return self._agent

    @property
    def now(self) -> int:
        """The time."""
        return self._clock.now

    def __getattr__(self, name: str) -> Any:
        found = getattr(self._agent, name)
        return self._logged(name, found) if name in CALLS else found

    def _logged(self, name: str, call: Callable[..., Any]) -> Callable[..., Any]:
        def made(*given: Any) -> Any:
            returned = call(*given)
            if returned is not None or name not in ("poll_transmit", "poll_event"):
                self._log.entries.append(Entry(self._clock.now, self._side, name, given, returned))
            return returned

        return made
