"""All that a program may choose of an agent, in one value."""

from __future__ import annotations

import enum
from collections.abc import Callable
from ctypes import byref
from dataclasses import dataclass
from typing import Any

from . import _abi
from ._library import library
from .address import in_range
from .errors import done

_NO_LIMIT = (1 << 64) - 1


class Profile(enum.Enum):
    """Which behavior an agent has.

    `ORIGINAL` is that of the Rust crate `is` 0.12.0. `MODERN` is that of this library: agents connect sooner, consent ends in time, and a
    path that dies is left for one that works. "What `Modern` does" of docs/GUIDE.md lists its rules.
    """

    ORIGINAL = False
    MODERN = True


@dataclass(frozen=True)
class Consent:
    """How long the response to a check keeps a pair (RFC 7675), with `Profile.MODERN`: so many nanoseconds after the check was sent.

    Without a timeout it is the longest RTO and `ice_timeout` together; 0 is the same as None. With `strict` only responses keep a pair, as
    in RFC 7675; otherwise the peer's checks keep it too, each for 15 s.
    """

    timeout: int | None = None
    strict: bool = False


@dataclass(frozen=True)
class Settings:
    """All that a program may choose of an agent. Times are in nanoseconds. An agent begins with `Settings.modern()`.

    The table "Settings" of docs/API.md has the numbers of both.
    `dataclasses.replace(agent.settings, max_pairs=50)` changes one setting; so does its setter. A later version may have further fields.

    Each field but `profile` and `consent` has a setter that says what it is for: `set_timing_advance`, `set_initial_stun_rto`,
    `set_max_stun_rto`, `set_max_stun_retransmits`, `set_lite_timeout`, `set_max_candidate_pairs`, `set_max_discovered`,
    `set_max_candidates`, `set_renomination`. Without a limit on candidates it is None.
    """

    profile: Profile
    timing_advance: int
    initial_rto: int
    max_rto: int
    max_retransmits: int
    lite_timeout: int
    consent: Consent
    max_pairs: int
    max_discovered: int | None
    max_candidates: int | None
    renomination: bool

    @staticmethod
    def original() -> Settings:
        """Returns the settings of the original: its behavior and its numbers, without a limit on candidates."""
        return settings_from(library.calls.is_ice_original_settings)

    @staticmethod
    def modern() -> Settings:
        """Returns the settings with which a new agent begins: it connects sooner, and consent ends in time."""
        return settings_from(library.calls.is_ice_modern_settings)


def limit_of(limit: int | None) -> int:
    """Converts to the library's number, which is the greatest one if there is no limit."""
    return _NO_LIMIT if limit is None else in_range(limit, 64, "a limit")


def limit_from(limit: int) -> int | None:
    """Converts from it."""
    return None if limit == _NO_LIMIT else limit


def settings_from(call: Callable[..., int], *arguments: Any) -> Settings:
    """Returns the settings that a call writes."""
    raw = _abi.AgentSettings()
    done(call(*arguments, byref(raw)))
    return Settings(
        Profile(raw.modern), raw.timing_advance, raw.initial_rto, raw.max_rto, raw.max_retransmits, raw.lite_timeout,
        Consent(raw.consent_timeout or None, raw.strict_consent), raw.max_pairs,
        limit_from(raw.max_discovered), limit_from(raw.max_candidates), raw.renomination)


def struct_of_settings(settings: Settings) -> _abi.AgentSettings:
    """Converts to the library's struct. ValueError if a number does not fit into 64 bits."""
    return _abi.AgentSettings(
        timing_advance=in_range(settings.timing_advance, 64, "a time"),
        initial_rto=in_range(settings.initial_rto, 64, "a time"),
        max_rto=in_range(settings.max_rto, 64, "a time"),
        lite_timeout=in_range(settings.lite_timeout, 64, "a time"),
        consent_timeout=in_range(settings.consent.timeout or 0, 64, "a time"),
        max_retransmits=in_range(settings.max_retransmits, 64, "a number of checks"),
        max_pairs=in_range(settings.max_pairs, 64, "a limit"),
        max_discovered=limit_of(settings.max_discovered),
        max_candidates=limit_of(settings.max_candidates),
        modern=settings.profile is Profile.MODERN,
        strict_consent=settings.consent.strict,
        renomination=settings.renomination,
    )
