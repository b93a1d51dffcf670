"""A session's log with the state of both agents before and after each entry: the log of `World::run`, as the clauses see it."""

from __future__ import annotations

from collections.abc import Iterator, Sequence
from dataclasses import dataclass, field, replace

from is_ice import DiscoveredRecv, IceConnectionState, IceConnectionStateChange, NominatedSend, SocketAddress

from .log import Entry, Log
from .model import Agent, Issued
from .pairs import Path, Timing
from .scenario import SIDES
from .stun import message_of

# The calls that issue packets, those that may select a path, and those that may change the connection state.
ISSUING = ("handle_packet", "handle_timeout")
JOINING = ("add_local_candidate", "add_remote_candidate", "invalidate_candidate")
SELECTING = (*ISSUING, *JOINING)
CHANGING = (*SELECTING, "ice_restart", "recreate_candidate_pairs")


def other(side: str) -> str:
    """Returns the other side."""
    return "b" if side == "a" else "a"


@dataclass(frozen=True)
class Step:
    """An entry with the agents before and after it, and what the call issued and selected, as seen from outside."""

    at: int
    entry: Entry
    before: dict[str, Agent]
    after: dict[str, Agent]
    sent: Entry | None = None  # the `poll_transmit` that returned the issued packet
    issued: Issued | None = None
    selected: tuple[Path, ...] = ()

    @property
    def is_timeout(self) -> bool:
        """Whether it is a `handle_timeout`."""
        return self.entry.call == "handle_timeout"

    def checks(self, side: str, path: Path) -> bool:
        """Whether the side sends a check on the path."""
        return self.entry.side == side and self.issued is not None and self.issued.kind == "request" and self.issued.path == path


@dataclass
class Replay:
    """The steps of a session. `differences`: what the model of the pairs did not foresee."""

    steps: list[Step]
    differences: list[str] = field(default_factory=list)
    arrivals: dict[tuple[str, bytes], list[int]] = field(default_factory=dict)  # by receiving side and bytes

    def timeouts(self, side: str) -> list[int]:
        """Returns the indices of the side's `handle_timeout` calls."""
        return [s.at for s in self.steps if s.is_timeout and s.entry.side == side]


def replay(log: Log) -> Replay:
    """Follows both agents through the log."""
    sent, selected, found = _issued(log), _selected(log), _found(log)
    states = _states(log)
    world = {side: Agent(b.creds, b.tie_breaker, b.controlling, timing=Timing(modern=b.modern)) for side, b in log.sides.items()}
    assert set(world) == set(SIDES)
    told = Replay([])
    waiting = {side: 0 for side in SIDES}
    for at, entry in enumerate(log.entries):
        packet = sent.get(at)
        seen = None if packet is None else _seen(packet)
        own, foreseen = _next(world[entry.side], entry, seen, waiting[entry.side] > 0)
        waiting[entry.side] += (packet is not None) - (entry.call == "poll_transmit")
        if entry.call == "ice_restart":
            waiting[entry.side] = 0
        actual = _shown(entry, seen, selected.get(at, ()), found.get(at))
        if foreseen is not None and foreseen != (actual,):
            told.differences.append(f"{entry.time} {entry.side} {entry.call}: {foreseen[0]}, not {actual}")
        if at in states and own.state is not states[at]:
            told.differences.append(f"{entry.time} {entry.side} {entry.call}: {own.state}, not {states[at]}")
        after = {**world, entry.side: own}
        told.steps.append(Step(at, entry, world, after, packet, seen, selected.get(at, ())))
        if entry.call == "handle_packet":
            told.arrivals.setdefault((entry.side, entry.given[3]), []).append(at)
        world = after
    for side, listed in log.removed.items():
        if (foreseen_pairs := [pair.listed() for pair in world[side].removed]) != listed:
            told.differences.append(f"{side} removed_pairs: {foreseen_pairs}, not {listed}")
    return told


def _seen(packet: Entry) -> Issued:
    transmit = packet.returned
    message = message_of(transmit.contents)
    return Issued(message.kind, (transmit.source, transmit.destination), message.transaction)


def _shown(entry: Entry, seen: Issued | None, paths: tuple[Path, ...], source: SocketAddress | None) -> object:
    """Returns what the log shows of a call, as the model foresees it."""
    if entry.call == "poll_timeout":
        return entry.returned
    if entry.call == "invalidate_candidate":
        return entry.returned, paths
    return seen, paths, source


def _polled(log: Log, calls: Sequence[str], poll: str) -> Iterator[tuple[int, Entry]]:
    """Returns what is polled after these calls, each with the index of the last one of them by its side."""
    last: dict[str, int] = {}
    for at, entry in enumerate(log.entries):
        if entry.call in calls:
            last[entry.side] = at
        elif entry.call == poll and entry.side in last:
            yield last[entry.side], entry


def _issued(log: Log) -> dict[int, Entry]:
    """Finds for each call the packet that it issued: the one that is polled before the next one."""
    sent: dict[int, Entry] = {}
    for at, entry in _polled(log, ISSUING, "poll_transmit"):
        sent.setdefault(at, entry)
    return sent


def _selected(log: Log) -> dict[int, tuple[Path, ...]]:
    """Finds for each call the paths that it selected, in the same way."""
    selected: dict[int, tuple[Path, ...]] = {}
    for at, entry in _polled(log, SELECTING, "poll_event"):
        if isinstance(entry.returned, NominatedSend):
            selected[at] = (*selected.get(at, ()), (entry.returned.source, entry.returned.destination))
    return selected


def _found(log: Log) -> dict[int, SocketAddress]:
    """Finds for each call the source that it reported, in the same way."""
    events = _polled(log, SELECTING, "poll_event")
    return {at: entry.returned.source for at, entry in events if isinstance(entry.returned, DiscoveredRecv)}


def _states(log: Log) -> dict[int, IceConnectionState]:
    """Finds the state of the agent after each call that may change it, by the events that are polled before the next one."""
    states: dict[int, IceConnectionState] = {}
    last: dict[str, int] = {}
    for at, entry in enumerate(log.entries):
        if entry.call in CHANGING:
            before = states[last[entry.side]] if entry.side in last else IceConnectionState.NEW
            states[at], last[entry.side] = before, at
        elif entry.call == "poll_event" and isinstance(entry.returned, IceConnectionStateChange) and entry.side in last:
            states[last[entry.side]] = entry.returned.state
    return states


SETTINGS = {"set_ice_lite": "lite", "set_renomination": "renominates", "set_timing_advance": "advance",
            "set_max_candidate_pairs": "max_pairs", "set_max_discovered": "max_discovered", "set_local_credentials": "creds",
            "set_remote_credentials": "peer"}
TIMING = {"set_initial_stun_rto": "initial", "set_max_stun_rto": "greatest", "set_max_stun_retransmits": "retransmits",
          "set_lite_timeout": "lite"}


# Calls that are followed by fixing due times, and whether `handle_timeout` then comes soon.
FOLLOWED = {"add_local_candidate": True, "add_remote_candidate": True, "invalidate_candidate": True, "ice_restart": True,
            "recreate_candidate_pairs": True, "set_remote_credentials": True, "set_controlling": True, "set_ice_lite": False,
            "set_renomination": False, "set_settings": False, **dict.fromkeys(TIMING, False), "set_timing_advance": False}


def comes_soon(old: Agent, new: Agent, entry: Entry) -> bool | None:
    """Returns whether `handle_timeout` comes soon after the call. None: nothing follows it, since it changed nothing."""
    call, returned = entry.call, entry.returned
    if call == "handle_timeout":
        return len(new.queue) < len(old.queue)
    if call == "handle_packet":
        return not new.is_settled if returned else None
    if call == "add_local_candidate" and returned is None or call == "add_remote_candidate" and new is old:
        return None
    return None if call == "invalidate_candidate" and not returned else FOLLOWED.get(call)


def _next(agent: Agent, entry: Entry, seen: Issued | None, is_waiting: bool) -> tuple[Agent, tuple[object] | None]:
    """Returns the next agent, and what the model foresees of the call, if the log shows it."""
    new, foreseen = _called(agent, entry, seen, is_waiting)
    return followed(agent, new, entry), foreseen


def followed(old: Agent, new: Agent, entry: Entry) -> Agent:
    """Returns the agent, which was `old` before the call and is `new` after it, after what follows the call."""
    soon = comes_soon(old, new, entry)
    kept = replace(new, deadline=None) if entry.call == "handle_timeout" else new
    return kept if soon is None else kept.fixed_after(soon)


def _called(agent: Agent, entry: Entry, seen: Issued | None, is_waiting: bool) -> tuple[Agent, tuple[object] | None]:
    """Returns the agent after the call itself, and what the model foresees of it."""
    call, given = entry.call, entry.given
    if call == "poll_timeout" and agent.modern:
        return agent, (agent.deadline,)
    if call == "poll_timeout":
        new, wake = agent.poll_timeout(is_waiting)
        return new, (wake,)
    if call == "handle_timeout":
        new, issued, paths = agent.timeout(given[0], given[1], seen.path if seen else None)
        return new, ((issued, paths, None),)
    if call == "handle_packet":
        new, issued, paths = agent.packet(*given[:4]) if entry.returned else (agent, None, ())
        return new, ((issued, paths, new.discovered_since(agent)),)
    if call in JOINING:
        joined = after_setting(agent, entry)
        new, paths = joined.reselected(agent)
        return new, ((joined is not agent, paths) if call == "invalidate_candidate" else (None, paths, None),)
    return after_setting(agent, entry), None


def after_setting(agent: Agent, entry: Entry) -> Agent:
    """Returns the agent after a call that issues nothing: a setting, a restart, or a candidate, before another path is selected."""
    call, given = entry.call, entry.given
    if call in SETTINGS:
        return replace(agent, **{SETTINGS[call]: given[0]})
    if call == "set_settings":
        return agent.with_settings(given[0])
    if call in TIMING:
        return agent.with_timing(replace(agent.timing, **{TIMING[call]: given[0]}))
    if call == "add_local_candidate":
        return agent.add_local(given[0], entry.returned)
    if call == "add_remote_candidate":
        return agent.add_remote(given[0])
    if call == "invalidate_candidate":
        return agent.invalidate(given[0])
    if call == "recreate_candidate_pairs":
        return agent.recreate()
    return agent.restart(*given) if call == "ice_restart" else agent
