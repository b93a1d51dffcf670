"""`FrugalSecondsHaveFewChecks`: how many checks an agent of C sends in a second in which the program goes by `is_ice_poll_timeout`."""

from __future__ import annotations

from bisect import bisect_left
from collections.abc import Sequence
from dataclasses import dataclass

from is_ice import Profile

from ..candidates import CHARGE
from ..clock import SECOND
from ..stun import message_of
from ..witness import Record
from .check_rate import DEFAULT_ADVANCE, MOST_FRUGAL
from .found import Found


@dataclass(frozen=True)
class Timed:
    """A `handle_timeout` call that returned OK: its time, how many checks it queued, and whether it came no sooner than a time that
    `poll_timeout` returned since the last such call, or 25 ms after that one."""

    time: int
    checks: int
    is_frugal: bool


def keeps_pace(record: Record) -> bool:
    """The program leaves the profile `Modern`, and a pacing interval of at least the default (`keeps_pace`)."""
    return all(e.given[0] >= DEFAULT_ADVANCE if e.call == "set_timing_advance" else e.call != "set_settings"
               or e.given[0].profile is Profile.MODERN and e.given[0].timing_advance >= DEFAULT_ADVANCE for _, e in record.entries)


def are_in_order(record: Record) -> bool:
    """Time does not run back along the calls (`AreInOrder`)."""
    times = [e.given[0] for _, e in record.entries if e.call in ("handle_timeout", "handle_packet")]
    return times == sorted(times)


def timed(record: Record) -> list[Timed]:
    """Returns the `handle_timeout` calls that returned OK, oldest first (`LetsCall`)."""
    made: list[Timed] = []
    calls = {c.at: c for c in record.witness.calls if c.entry.call == "handle_timeout" and c.is_ok}
    allowed: list[int] = []
    for at, e in record.entries:
        if e.call == "poll_timeout" and e.returned is not None:
            allowed.append(e.returned)
        if at in calls and e.call == "handle_timeout":
            now = e.given[0]
            if made:
                allowed.append(made[-1].time + CHARGE)
            checks = sum(message_of(packet.contents).kind == "request" for packet in calls[at].packets)
            made.append(Timed(now, checks, any(time <= now for time in allowed)))
            allowed = []
    return made


def have_few_checks(calls: Sequence[Timed]) -> Found:
    """In each second that begins with a call, and in which the later calls are frugal (`IsFrugal`), at most 49 checks leave."""
    found, times = Found(), [call.time for call in calls]
    for first, call in enumerate(calls):
        second = calls[first:bisect_left(times, call.time + SECOND)]
        if all(later.is_frugal for later in second[1:]):
            checks = sum(one.checks for one in second)
            found.add(checks <= MOST_FRUGAL, f"{checks} checks in the second from {call.time} on")
    return found


def frugal_seconds_have_few_checks(record: Record) -> Found:
    """`FrugalSecondsHaveFewChecks`: so it is of a program that leaves the profile and the pace, and whose times do not run back."""
    return have_few_checks(timed(record)) if keeps_pace(record) and are_in_order(record) else Found()
