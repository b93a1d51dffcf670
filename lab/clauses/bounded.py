"""`EachQueuesOne` and `StaysBounded`: how many packets and events wait after calls, and how many candidates there are. The remembered
sources are seen by no call, except by their events."""

from __future__ import annotations

from is_ice import DiscoveredRecv, Settings

from ..view import Called
from ..witness import Record
from .found import Found

# How many early requests an agent stores (`QUEUE_LIMIT`).
QUEUE_LIMIT = 100
# How many events a call emits at most, `DiscoveredRecv` aside (`events_of`).
EVENTS = {"handle_packet": 2, "handle_timeout": 5, "ice_restart": 2, "recreate_candidate_pairs": 1, "add_local_candidate": 2,
          "add_remote_candidate": 2, "invalidate_candidate": 2}
# Calls that set the limit on what packets bring.
LIMITS = ("set_settings", "set_max_discovered")


def each_queues_one(record: Record) -> Found:
    """`EachQueuesOne`: the packets that wait after a call, with what follows it, are at most one more than before."""
    found = Found()
    for c in record.witness.calls:
        found.add(len(c.packets) <= 1, f"call {c.at}: {c.entry.call} queued {len(c.packets)} packets")
    return found


def keeps_limit(record: Record) -> bool:
    """The program leaves the limit on what packets bring (`keeps_limit`)."""
    return not any(c.entry.call in LIMITS for c in record.witness.calls)


def excess(c: Called, gathered: int, signals: int) -> str:
    """Returns what exceeds its bound after the call (`IsBounded`, `IsShort`). No packet and no event waited before it."""
    limit = Settings.modern().max_discovered or 0
    discoveries = sum(isinstance(e, DiscoveredRecv) for e in c.events)
    issues = c.entry.call in ("handle_packet", "handle_timeout") and c.is_ok
    for what, count, most in (
            ("local candidates", c.after.local, limit + gathered), ("remote candidates", c.after.remote, limit + signals),
            ("discoveries", discoveries, limit), ("packets", len(c.packets), int(issues)), ("early requests", c.after.early, QUEUE_LIMIT),
            ("events", len(c.events) - discoveries, EVENTS.get(c.entry.call, 0) if c.is_ok else 0)):
        if count > most:
            return f"{count} {what}, of {most}"
    return ""


def stays_bounded(record: Record) -> Found:
    """`StaysBounded`: after each call there are at most 32 candidates of each side more than the program added, 32 `DiscoveredRecv` events,
    and no more packets, other events and early requests than the calls since no older ones waited may queue."""
    found, gathered, signals = Found(), 0, 0
    if not keeps_limit(record):
        return found
    for c in record.witness.calls:
        gathered += c.entry.call == "add_local_candidate"
        signals += c.entry.call == "add_remote_candidate"
        over = excess(c, gathered, signals)
        found.add(not over, f"call {c.at}: {c.entry.call}: {over}")
    return found
