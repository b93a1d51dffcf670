"""`SettingsAreThoseSet`: the settings are those that the program set last. The preference object is seen by no call."""

from __future__ import annotations

from dataclasses import dataclass, replace

from is_ice import Settings

from ..view import Called, View
from ..witness import Record
from .found import Found
from .new_agents import tie_breakers


@dataclass(frozen=True)
class Chosen:
    """What a program sets (`SettingsRecord`)."""

    settings: Settings
    lite: bool
    mtu: int
    mtu_warn: int


def chosen(view: View) -> Chosen:
    """Returns what is set, as queries return it (`all_settings_of`)."""
    return Chosen(view.settings, view.lite, view.mtu, view.mtu_warn)


# The field of the settings that each call sets (`sets`).
FIELDS = {"set_timing_advance": "timing_advance", "set_initial_stun_rto": "initial_rto", "set_max_stun_rto": "max_rto",
          "set_max_stun_retransmits": "max_retransmits", "set_lite_timeout": "lite_timeout", "set_max_candidate_pairs": "max_pairs",
          "set_max_discovered": "max_discovered", "set_max_candidates": "max_candidates", "set_renomination": "renomination"}


def after(c: Called, old: Chosen) -> Chosen:
    """Returns what is set after a call, if it was this before (`settings_by`)."""
    call, given = c.entry.call, c.entry.given
    if not c.is_ok:
        return old
    if call in FIELDS:
        return replace(old, settings=replace(old.settings, **{FIELDS[call]: given[0]}))
    if call == "set_settings":
        return replace(old, settings=given[0])
    if call == "set_mtu":
        return replace(old, mtu=given[0], mtu_warn=given[1])
    return replace(old, lite=given[0]) if call == "set_ice_lite" else old


def settings_are_those_set(record: Record) -> Found:
    """`SettingsAreThoseSet`: after each call queries return what the program set last, or what a new agent has. Each check has the
    tie-breaker with which the agent was made, unless the program set another one."""
    found = Found()
    now = Chosen(Settings.modern(), False, record.witness.born.view.mtu, record.witness.born.view.mtu_warn)
    for c in record.witness.calls:
        now = after(c, now)
        found.add(chosen(c.after) == now, f"call {c.at}: {c.entry.call} left other settings than those that were set last")
    if not record.witness.sets_role:
        for at, tie_breaker in tie_breakers(record):
            found.add(tie_breaker == record.tie_breaker, f"call {at}: a check has another tie-breaker")
    return found
