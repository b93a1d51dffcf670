"""`FollowedAreUses` and `SessionsAreRuns`: each call is one use, or two, and the calls are an execution of the agent. The agent's record is
seen by no call. What is seen is played: when `is_ice_handle_timeout` is to be called, of which the second use decides; and all that the
model of `lab` foresees of an execution, which is written from the same definitions."""

from __future__ import annotations

from is_ice import Settings

from ..candidates import CHARGE, CREDIT, LEAST_ADVANCE
from ..log import Entry, Log
from ..replay import FOLLOWED, replay
from ..view import Called
from ..witness import Record
from .found import Found

# The calls that are followed if they return OK (`Followed`): those of which a `handle_timeout` may follow soon, and the others.
SOON = {call for call, is_soon in FOLLOWED.items() if is_soon}
MAY_FOLLOW = {*FOLLOWED, "handle_packet", "handle_timeout"}


def is_one_use(c: Called) -> bool:
    """Whether nothing follows the call (`Follows`): it is none that is followed, or does not return OK, or the profile is `Original`."""
    return c.entry.call not in MAY_FOLLOW or not c.is_ok or not c.before.is_modern


def moves_as_fixed(c: Called, last: int | None, has_credit: bool) -> bool:
    """Whether the deadline is one to which `FixTimes` moves it: none, or it moved up, and is soon if the call makes it so and there is
    credit. Otherwise it may be that of before, or a charge after the last call. `last`: the time of the last `handle_timeout` that
    served no early request. An agent that is not connected is not settled: the deadline of a settled one moves back, too."""
    due, old, call, is_settled = c.after.due, c.before.due, c.entry.call, c.after.is_connected
    is_soon = call in SOON or call == "handle_packet" and not is_settled
    if due is None:
        return True
    is_paced = not has_credit and last is not None and (due == old or due >= last + CHARGE)
    is_in_time = not is_soon or last is None or due <= last + LEAST_ADVANCE or is_paced
    return is_in_time and (call == "handle_timeout" or is_settled or old is None or due <= old)


def followed_are_uses(record: Record) -> Found:
    """`FollowedAreUses`: one use leaves the deadline, except `handle_timeout`, which ends it; two move it as `FixTimes` does. There is
    credit for certain if there would be with a check in each `handle_timeout`."""
    found = Found()
    last: int | None = None
    charged = 0
    for c in record.witness.calls:
        if c.entry.call == "handle_timeout" and c.is_ok and not (c.before.early and c.before.peer is not None):
            last = c.entry.given[0]
            assert last is not None
            charged = max(charged, last) + CHARGE
        if is_one_use(c):
            is_seen = c.before.is_modern and c.after.is_modern
            found.add(c.after.due == c.before.due or not is_seen, f"call {c.at}: {c.entry.call} changed the deadline")
        elif c.after.is_modern:
            has_credit = last is None or charged <= last + CREDIT
            is_moved = moves_as_fixed(c, last, has_credit)
            found.add(is_moved, f"call {c.at}: {c.entry.call} moved the deadline otherwise than the use after it")
    return found


def from_new(log: Log) -> Log:
    """Returns the log after the entries of the settings with which `is_ice_agent_new` begins (`IsLogOf`)."""
    first = log.entries[0].time if log.entries else 0
    return Log(log.sides, [*(Entry(first, side, "set_settings", (Settings.modern(),)) for side in log.sides), *log.entries], log.removed)


def sessions_are_runs(log: Log) -> Found:
    """`SessionsAreRuns`: the packets, events, candidates, states, deadlines and removed pairs of both agents are those that the model
    foresees of an execution of such calls."""
    found = Found()
    differences = replay(from_new(log)).differences
    found.add(not differences, differences[0] if differences else "")
    return found
