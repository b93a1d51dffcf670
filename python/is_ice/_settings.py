"""The settings of an agent. A new agent has the values that the library gives it."""

from __future__ import annotations

import ctypes
import threading
from ctypes import byref

from . import _abi
from ._locked import one_call_at_a_time
from ._unique import Unique
from .address import in_range
from .candidate import KindPreferences, table_of
from .errors import done
from .settings import Settings, limit_from, limit_of, settings_from, struct_of_settings


@one_call_at_a_time
class Setters(Unique):
    """The settings of an `IceAgent`: each can be set at any time."""

    _lock: threading.RLock
    _c: ctypes.CDLL
    _at: object  # a pointer to the agent

    def set_controlling(self, controlling: bool) -> None:
        """Makes the agent controlling or controlled: controlling on the side that made the offer.

        LiteStaysControlled if a lite agent with `Profile.MODERN` is to be controlling.
        """
        done(self._c.is_ice_set_controlling(self._at, controlling))

    def set_ice_lite(self, enabled: bool) -> None:
        """Makes the agent a lite agent, which takes only host candidates and sends no checks, or a full one (RFC 8445, section 2.5).

        A lite agent has to be controlled, and its peer a full agent. One that is controlling never finds a path, and no call reports
        it. So make it lite while it is controlled: with `Profile.MODERN` it then stays controlled.
        """
        done(self._c.is_ice_set_lite(self._at, enabled))

    def set_renomination(self, enabled: bool) -> None:
        """Lets each nomination replace the ones before: both agents select the same path whatever priorities each has. Default: False.

        Set it at both agents or at none, and before the first packet: agree on it in signaling, by `a=ice-options:renomination`. A
        controlling agent then puts USE-CANDIDATE only on checks of the pair that it selected last. A controlled agent selects the
        pair on which it received the last request with USE-CANDIDATE, once a check of its own was answered on it; until then it
        keeps its path. If only the controlled agent has it, its path may change at each check of the peer. With
        `Profile.MODERN` nominations have numbers besides, as browsers send them, and the greatest one counts.
        """
        done(self._c.is_ice_set_renomination(self._at, enabled))

    def set_settings(self, settings: Settings) -> None:
        """Sets all that a program may choose. Set it before the session: a pair whose due time is fixed already keeps it, unless an RTO
        changes. Default: `Settings.modern()`.

        BadLimit if `max_retransmits` is 0. Then nothing is changed.
        """
        done(self._c.is_ice_set_settings(self._at, byref(struct_of_settings(settings))))

    def set_control_tie_breaker(self, tie_breaker: int) -> None:
        """Sets the number that decides role conflicts: the agent with the greater one keeps its role.

        A lite agent with `Profile.MODERN` keeps its role whatever the numbers are.
        """
        done(self._c.is_ice_set_tie_breaker(self._at, in_range(tie_breaker, 64, "a tie-breaker")))

    def set_max_candidate_pairs(self, limit: int) -> None:
        """Limits the number of pairs, when pairs are next formed."""
        done(self._c.is_ice_set_max_pairs(self._at, in_range(limit, 64, "a limit")))

    def set_max_discovered(self, limit: int | None) -> None:
        """Limits how many peer-reflexive candidates packets bring of each side, invalidated ones included.

        Requests bring remote ones, responses local ones. None: no limit, as in the original.

        Whoever sees one request can replay it from other ports, and each port would become a candidate. At the limit an unknown
        sender replaces one without a pair, or its request is dropped without a response. Known and signaled senders are always
        served. A response counts as ever at the limit, and its mapped address is not listed. Set the limit before the first
        packet.
        """
        done(self._c.is_ice_set_max_discovered(self._at, limit_of(limit)))

    def set_max_candidates(self, limit: int | None) -> None:
        """Limits how many candidates of each side there are when one is added. None: no limit, as in the original.

        If `local_candidates` has as many, `add_local_candidate` raises TooManyCandidates, and so does `add_remote_candidate` for
        `remote_candidates`. So the peer's signaling forms no more pairs; a text is read all the same. A lower limit removes no
        candidate, and packets bring candidates without regard to it: `set_max_discovered` limits them.
        """
        done(self._c.is_ice_set_max_candidates(self._at, limit_of(limit)))

    def set_timing_advance(self, nanoseconds: int) -> None:
        """Sets the pacing interval Ta: the least time between two timeouts, each of which sends at most one packet.

        `Profile.MODERN` shortens it until the agent has a path.
        """
        done(self._c.is_ice_set_timing_advance(self._at, in_range(nanoseconds, 64, "a time")))

    def set_initial_stun_rto(self, nanoseconds: int) -> None:
        """Sets the time from a pair's first check until the second one is due; it doubles with each further check.

        Early retransmissions (`Profile.MODERN`) have delays of their own.
        """
        done(self._c.is_ice_set_initial_rto(self._at, in_range(nanoseconds, 64, "a time")))

    def set_max_stun_rto(self, nanoseconds: int) -> None:
        """Sets the longest time from one check of a pair until the next one is due."""
        done(self._c.is_ice_set_max_rto(self._at, in_range(nanoseconds, 64, "a time")))

    def set_lite_timeout(self, nanoseconds: int) -> None:
        """Sets how long a lite agent keeps a pair after the peer's last check on it.

        A pair without any counts as checked at its first timeout. Against Firefox set 30 s: it still sends checks after a cut of
        20 s, and does not nominate again what was removed. Chromium sends none after 15 s without a response. Full agents do not use it.
        """
        done(self._c.is_ice_set_lite_timeout(self._at, in_range(nanoseconds, 64, "a time")))

    def set_silence(self, nanoseconds: int | None) -> None:
        """Sets after what time without an authentic packet the selected path is silent. Default: 5 s. None: it never is."""
        done(self._c.is_ice_set_silence(self._at, limit_of(nanoseconds)))

    def set_max_stun_retransmits(self, limit: int) -> None:
        """Sets after how many checks in a row without a response a pair is removed. BadLimit for 0.

        A pair is not removed while the last check may still be answered in time, nor within 15 s of a check of the peer on it. With
        early retransmissions (`Profile.MODERN`) it is not removed within `ice_timeout` after the first of its checks without a
        response, either. Two pairs end sooner: the selected one, if it is silent while another one works, and one whose first check
        followed a request.
        """
        done(self._c.is_ice_set_max_retransmits(self._at, in_range(limit, 64, "a limit")))

    def set_mtu(self, mtu: int, warn: int) -> None:
        """Stores how long a packet may be, and the length to warn about. MtuTooSmall below 588 bytes. Default: 1150 and 1280.

        Checks have at most 588 bytes, or 596 with NOMINATION (`Profile.MODERN` with `set_renomination`).
        """
        done(self._c.is_ice_set_mtu(self._at, in_range(mtu, 64, "an MTU"), in_range(warn, 64, "an MTU")))

    def set_local_preference(self, preference: int | None) -> None:
        """Sets the local preference of local candidates that are added after this call. None: the default one again."""
        if preference is None:
            done(self._c.is_ice_reset_local_preference(self._at))
        else:
            done(self._c.is_ice_set_local_preference(self._at, in_range(preference, 16, "a preference")))

    def set_preference_table(self, v4: KindPreferences, v6: KindPreferences) -> None:
        """Sets the local preference of local candidates that are added after this call, by kind and IP version.

        It is less by one for each earlier local candidate of the same kind and version, and at least 0.
        """
        done(self._c.is_ice_set_preference_table(self._at, byref(table_of(v4, v6))))

    # ---- what is set

    @property
    def _status(self) -> _abi.AgentStatus:
        status = _abi.AgentStatus()
        done(self._c.is_ice_status(self._at, byref(status)))
        return status

    @property
    def controlling(self) -> bool:
        """Whether the agent is controlling."""
        return bool(self._status.controlling)

    @property
    def ice_lite(self) -> bool:
        """Whether the agent is a lite agent."""
        return bool(self._status.lite)

    @property
    def mtu(self) -> int:
        """How long a packet may be."""
        return int(self._status.mtu)

    @property
    def mtu_warn(self) -> int:
        """The length of a packet to warn about."""
        return int(self._status.mtu_warn)

    @property
    def ice_timeout(self) -> int:
        """How long a whole series of checks without a response takes."""
        return int(self._status.ice_timeout)

    @property
    def max_candidates(self) -> int | None:
        """How many candidates of each side there may be when one is added. None: any number."""
        return limit_from(self._status.max_candidates)

    @property
    def settings(self) -> Settings:
        """What is set."""
        return settings_from(self._c.is_ice_settings, self._at)
