"""What a program sees of an agent between its calls: what queries return, and the packets and events that then wait."""

from __future__ import annotations

from dataclasses import dataclass
from typing import Any

from is_ice import (
    AddResult, Candidate, CandidateKind, CheckState, IceAgentEvent, IceConnectionState, IceCreds, NominatedSend, Profile, Settings,
    Transmit)
from is_ice.candidate import CandidateFields

from .guarantees import Path
from .log import Entry

CONNECTED = (IceConnectionState.CONNECTED, IceConnectionState.COMPLETED)
# Calls that remove all pairs, if they return OK.
CLEARS = ("ice_restart", "recreate_candidate_pairs")
# Kinds of candidates whose base is their own address.
DIRECT = (CandidateKind.HOST, CandidateKind.RELAYED)


@dataclass(frozen=True)
class ShownPair:
    """A pair, as `is_ice_pair_at` returns it, with its path. `count`: how many checks were sent and received on it."""

    path: Path
    count: int
    priority: int
    is_valid: bool
    is_nominated: bool
    is_selected: bool


@dataclass(frozen=True)
class View:
    """What queries return. `local` and `remote`: how many candidates are listed. `due`: what `is_ice_poll_timeout` returns, if the profile
    is `Modern`; with `Original` it is no query."""

    state: IceConnectionState
    controlling: bool
    lite: bool
    mtu: int
    mtu_warn: int
    settings: Settings
    early: int
    creds: IceCreds
    peer: IceCreds | None
    pairs: tuple[ShownPair, ...]
    local: int
    remote: int
    due: int | None

    @property
    def is_modern(self) -> bool:
        """Whether the profile is `Modern`."""
        return self.settings.profile is Profile.MODERN

    @property
    def is_connected(self) -> bool:
        """Whether it is Connected or Completed (`IsConnected`)."""
        return self.state in CONNECTED

    def on(self, path: Path) -> list[ShownPair]:
        """Returns the pairs on a path."""
        return [p for p in self.pairs if p.path == path]

    def eligible(self) -> list[ShownPair]:
        """Returns the pairs that may be selected (`is_eligible`)."""
        return [p for p in self.pairs if p.is_valid and (self.controlling or p.is_nominated)]


def base_of(fields: CandidateFields) -> Any:
    """Returns the base of a local candidate, at which the paths of its pairs begin."""
    return fields.address if fields.kind in DIRECT or fields.related is None else fields.related


def view_of(agent: Any) -> View:
    """Makes the queries."""
    local, remote, settings = agent.local_fields(), agent.remote_fields(), agent.settings
    pairs = tuple(ShownPair((base_of(local[p.local]), remote[p.remote].address), p.checks_sent + p.requests_received, p.priority,
                            p.state is CheckState.SUCCEEDED, p.nominated, p.selected) for p in agent.pairs)
    due = agent.poll_timeout() if settings.profile is Profile.MODERN else None
    return View(agent.state, agent.controlling, agent.ice_lite, agent.mtu, agent.mtu_warn, settings, agent.early_requests,
                agent.local_credentials, agent.remote_credentials, pairs, len(local), len(remote), due)


@dataclass(frozen=True)
class Called:
    """A call that may change an agent, with its index in the log, what is seen before and after it, and the packets and events that wait
    after it. None waited before: the program polls all after each call."""

    at: int
    entry: Entry
    before: View
    after: View
    packets: tuple[Transmit, ...] = ()
    events: tuple[IceAgentEvent, ...] = ()
    error: str = ""

    @property
    def is_ok(self) -> bool:
        """Whether OK was returned: no error, and a packet was accepted, a candidate added or invalidated."""
        returned = self.entry.returned
        if self.error or returned is False or isinstance(returned, AddResult) and returned is not AddResult.ADDED:
            return False
        return returned is not None or self.entry.call != "add_local_candidate"

    @property
    def clears(self) -> bool:
        """Whether it removed all pairs."""
        return self.entry.call in CLEARS and self.is_ok

    @property
    def selected(self) -> list[Path]:
        """Returns the paths that it selected, oldest first."""
        return [(e.source, e.destination) for e in self.events if isinstance(e, NominatedSend)]

    @property
    def evaluates(self) -> bool:
        """Whether it is a `handle_timeout` that serves no early request. With `early` above 0 it might serve one."""
        return self.entry.call == "handle_timeout" and self.is_ok and not self.before.early


@dataclass(frozen=True)
class Born:
    """What a program sees of an agent that `is_ice_agent_new` has just made with these credentials: queries, and what each poll returns."""

    given: IceCreds
    view: View
    rest: tuple[Any, ...]


def born(agent: Any, given: IceCreds) -> Born:
    """Makes the queries and the polls. None changes the agent."""
    rest = (*vars(agent.stats).values(), *agent.removed_pairs(), *agent.failed_sends())
    nothing = (agent.nominated_pair, agent.valid_path, agent.poll_event(), agent.poll_transmit())
    return Born(given, view_of(agent), tuple(x for x in (*rest, *nothing) if x))


def address_of_added(e: Entry) -> Any:
    """Returns the address of the host or relayed candidate that this call adds, or None."""
    if e.call != "add_local_candidate" or not isinstance(e.given[0], Candidate):
        return None
    return e.given[0].address if e.given[0].kind in DIRECT else None
