"""The agent."""

from __future__ import annotations

import os
import threading
from collections.abc import Callable
from ctypes import byref, c_size_t, create_string_buffer
from types import TracebackType

from . import _abi
from ._grammar import checked
from ._library import bytes_from, library, text_from
from ._locked import holds_the_lock, one_call_at_a_time
from ._loop_calls import LoopCalls
from ._media import Media, path_of
from .address import PROTOCOLS, Protocol, SocketAddress, address_of, in_range, socket_of
from .candidate import AddResult, Candidate, CandidateFields, fields_of, struct_of
from .errors import BadCandidate, NoAgent, done, error_of, utf8
from .events import (
    CandidatePair,
    CheckState,
    DiscoveredRecv,
    Heard,
    IceAgentEvent,
    IceAgentStats,
    IceConnectionState,
    IceConnectionStateChange,
    IceCreds,
    IceRestart,
    MediaPath,
    NominatedPair,
    NominatedSend,
    Rejection,
    Removal,
    RemovedPair,
    Silent,
    Transmit,
    Unserved,
    event_of,
)
from .lines import line_refusal


def new_creds(random: bytes | None = None) -> IceCreds:
    """Creates credentials from 38 random bytes, by default those of the system. Who predicts them knows the password."""
    random = os.urandom(_abi.CREDENTIALS_RANDOM) if random is None else random
    ufrag, pass_ = create_string_buffer(_abi.UFRAG_LENGTH), create_string_buffer(_abi.PASS_LENGTH)
    done(library.calls.is_ice_make_credentials(random, len(random), ufrag, _abi.UFRAG_LENGTH, pass_, _abi.PASS_LENGTH))
    return IceCreds(ufrag.raw.decode(), pass_.raw.decode())


def first_role(made_offer: bool, lite: bool, other_is_lite: bool) -> bool:
    """Returns whether an agent is controlling at first (RFC 8445, section 6.1.1), for `IceAgent.set_controlling`."""
    return done(library.calls.is_ice_role(made_offer, lite, other_is_lite))


# Events that name a path.
_PATH_EVENTS: dict[int, type[NominatedSend] | type[Silent] | type[Heard]] = {
    _abi.NOMINATED_SEND: NominatedSend, _abi.SILENT: Silent, _abi.HEARD: Heard}


def _pair_of(pair: _abi.Pair) -> CandidatePair:
    return CandidatePair(
        pair.local, pair.remote, pair.priority, CheckState(pair.state), pair.nominated, pair.selected, pair.checks_sent,
        pair.requests_received, pair.responses, pair.total_rtt, pair.rtt if pair.has_rtt else None,
        pair.last_request if pair.has_request else None, pair.due if pair.has_due else None)


def _removed_of(pair: _abi.RemovedPair) -> RemovedPair:
    return RemovedPair(
        path_of(pair.path) if pair.has_path else None,
        pair.priority, CheckState(pair.state), pair.checks_sent, pair.responses, pair.error or None, Removal(pair.reason))


@one_call_at_a_time
class IceAgent(Media):
    """One side of a session. Its names are those of the Rust crate `is`. Times and durations are whole nanoseconds.

    Any thread may use it: its calls are made one at a time, and a thread waits for another one's call. It is freed by `close`, at the
    end of a `with` statement, or when nothing refers to it any more. It cannot be copied or pickled.
    """

    def __init__(self, creds: IceCreds | None = None, tie_breaker: int | None = None) -> None:
        """Creates a controlled agent. By default credentials and tie-breaker come from the system's random source.

        ValueError for credentials that RFC 8839 does not allow: see `set_local_credentials`. HasAgent if it is called again.
        """
        if not hasattr(self, "_loop"):
            self._slot = _abi.Agent()
            self._at = byref(self._slot)
            self._lock = threading.RLock()
            self._c = library.calls
            self._loop = LoopCalls(library.loop_calls, self._at, self._lock)
        creds = new_creds() if creds is None else checked(creds)
        tie = int.from_bytes(os.urandom(8), "little") if tie_breaker is None else in_range(tie_breaker, 64, "a tie-breaker")
        with self._lock:
            self._with_creds(self._c.is_ice_agent_new, creds, tie)

    def close(self) -> None:
        """Frees the agent. Every later call raises NoAgent, except for another `close`."""
        self._c.is_ice_agent_free(self._at)

    def __enter__(self) -> IceAgent:
        return self

    def __exit__(self, kind: type[BaseException] | None, error: BaseException | None, trace: TracebackType | None) -> None:
        self.close()

    def __del__(self) -> None:
        if getattr(self, "_c", None) is not None:
            self.close()

    # ---- credentials: at any time

    def set_local_credentials(self, creds: IceCreds) -> None:
        """Sets the local credentials without an ICE restart: for use before they are signaled.

        A username fragment has 4 to 256 letters, digits, '+' and '/', and a password 22 to 256 of them (RFC 8839, section 5.4).
        ValueError for others.
        """
        self._with_creds(self._c.is_ice_set_local_credentials, checked(creds))

    def set_remote_credentials(self, creds: IceCreds) -> None:
        """Sets the peer's credentials, from signaling. Before this call no check is sent."""
        self._with_creds(self._c.is_ice_set_remote_credentials, creds)

    def _with_creds(self, call: Callable[..., int], creds: IceCreds, *more: int) -> None:
        ufrag, pass_ = utf8(creds.ufrag), utf8(creds.pass_)
        done(call(self._at, ufrag, len(ufrag), pass_, len(pass_), *more))

    # ---- candidates

    def add_local_candidate(self, candidate: Candidate | str) -> str | None:
        """Adds a candidate that was gathered, and returns its text for signaling, or None if it is redundant.

        None too if the agent is lite and the candidate no host. A text ("candidate:..") is added with its own priority and foundation,
        and its address as its base. TooManyCandidates if there are as many as `set_max_candidates` allows.
        """
        index = c_size_t()
        if isinstance(candidate, str):
            text = utf8(candidate)
            code = self._c.is_ice_add_local_line(self._at, text, len(text), byref(index))
            if code == BadCandidate.code:
                raise error_of(code, line_refusal(candidate) or "")
            return self._local_text(index) if done(code) else None
        struct = struct_of(candidate)
        code = self._c.is_ice_add_local(self._at, byref(struct), byref(index))
        if code == BadCandidate.code:
            raise error_of(code, text_from(lambda *into: self._c.is_ice_candidate_refusal(byref(struct), *into)) or "")
        return self._local_text(index) if done(code) else None

    def _local_text(self, index: c_size_t) -> str | None:
        return text_from(lambda *into: self._c.is_ice_local_candidate(self._at, index, *into))

    def add_remote_candidate(self, line: str) -> AddResult:
        """Adds a candidate of the peer, by its text ("candidate:.."), and returns whether it was added, known, or why it was ignored.

        BadCandidate says what is wrong with it. A candidate with an mDNS name is a BadCandidate too; `line_name` says what to do with
        it. TooManyCandidates if there are as many as `set_max_candidates` allows.
        """
        text = utf8(line)
        code = self._c.is_ice_add_remote(self._at, text, len(text), byref(c_size_t()))
        if code == BadCandidate.code:
            raise error_of(code, line_refusal(line) or "")
        done(code)
        return AddResult(code)

    def invalidate_candidate(self, candidate: Candidate | str) -> bool:
        """Removes a candidate and its pairs, as when an interface is gone. Returns False if there is no such candidate."""
        if isinstance(candidate, Candidate):
            return done(self._c.is_ice_invalidate_local(self._at, byref(struct_of(candidate))))
        text = utf8(candidate)
        return done(self._c.is_ice_invalidate(self._at, text, len(text)))

    def local_candidates(self) -> list[str]:
        """Returns the local candidates for signaling, with the peer-reflexive ones that were discovered from responses."""
        return self._lines(self._c.is_ice_local_candidate)

    def remote_candidates(self) -> list[str]:
        """Returns the remote candidates, with the peer-reflexive ones that were discovered from requests."""
        return self._lines(self._c.is_ice_remote_candidate)

    def _lines(self, call: Callable[..., int]) -> list[str]:
        lines: list[str] = []
        while (line := text_from(lambda *into: call(self._at, len(lines), *into))) is not None:
            lines.append(line)
        return lines

    def local_fields(self) -> list[CandidateFields]:
        """Returns the fields of the candidates of `local_candidates`."""
        return self._fields(self._c.is_ice_local_fields)

    def remote_fields(self) -> list[CandidateFields]:
        """Returns the fields of the candidates of `remote_candidates`: what the agent sends checks to."""
        return self._fields(self._c.is_ice_remote_fields)

    def _fields(self, call: Callable[..., int]) -> list[CandidateFields]:
        listed, fields = list[CandidateFields](), _abi.Fields()
        while (line := bytes_from(lambda *into: call(self._at, len(listed), *into, byref(fields)))) is not None:
            listed.append(fields_of(line, fields))
        return listed

    # ---- packets, events and timeouts

    @holds_the_lock
    def handle_packet(self, now: int, source: SocketAddress, destination: SocketAddress, contents: bytes,
                      protocol: Protocol = Protocol.UDP) -> bool:
        """Passes a datagram to the agent that arrived at the local address `destination`.

        Returns False if it is not for this agent, which is then unchanged. Unparsed: it is not a STUN message, or one
        without MESSAGE-INTEGRITY, as a STUN server's response.
        """
        return self._loop.handle_packet(now, source, destination, contents, protocol)

    def accepts_packet(self, source: SocketAddress, destination: SocketAddress, contents: bytes,
                       protocol: Protocol = Protocol.UDP) -> bool:
        """Returns whether `handle_packet` would accept it, and changes nothing."""
        return done(self._c.is_ice_accepts_packet(self._at, protocol, address_of(source), address_of(destination), contents,
                                                  len(contents)))

    def rejection(self, source: SocketAddress, destination: SocketAddress, contents: bytes,
                  protocol: Protocol = Protocol.UDP) -> Rejection | None:
        """Returns why `handle_packet` would not accept the datagram, or None if it would, and changes nothing.

        So a program says after the first packet that the peer has a wrong password. Anybody can send a datagram that is rejected: show
        the reason, and end no session for it.
        """
        code = self._c.is_ice_rejection(self._at, protocol, address_of(source), address_of(destination), contents, len(contents))
        return Rejection.UNPARSED if code == _abi.UNPARSED else None if done(code) else Rejection(code)

    def unserved(self, source: SocketAddress, destination: SocketAddress, contents: bytes,
                 protocol: Protocol = Protocol.UDP) -> Unserved | None:
        """Returns why `handle_packet` would accept the datagram, a request, and send no response to it, and changes nothing.

        None if it would send one, and for a response or a datagram that it would not accept: see `rejection`. Ask before
        `handle_packet`. Unparsed if it is not a STUN message, or one without what ICE requires.
        """
        code = self._c.is_ice_unserved(self._at, protocol, address_of(source), address_of(destination), contents, len(contents))
        return None if done(code) else Unserved(code)

    def accepts_message(self, contents: bytes) -> bool:
        """Returns whether it is a message for this agent, from any source, and changes nothing."""
        return done(self._c.is_ice_accepts_message(self._at, contents, len(contents)))

    @holds_the_lock
    def handle_timeout(self, now: int, random: bytes | None = None) -> None:
        """Passes the current time to the agent; the first call starts the session. `random`: 12 new bytes, by default the system's."""
        self._loop.handle_timeout(now, os.urandom(_abi.TIMEOUT_RANDOM) if random is None else random)

    @holds_the_lock
    def poll_timeout(self) -> int | None:
        """Returns the time at which to call `handle_timeout` next. None before the session, and until the remote credentials are set.

        With the profile `MODERN`, which an agent begins with, it changes nothing: ask at any place, as often as you like. With `ORIGINAL`
        call it before packets are polled, and keep the earliest time since `handle_timeout`.
        """
        return self._loop.poll_timeout()

    @holds_the_lock
    def poll_transmit(self) -> Transmit | None:
        """Returns the next packet to send and removes it from the agent, or None if there is none."""
        return self._loop.poll_transmit()

    @holds_the_lock
    def poll_event(self) -> IceAgentEvent | None:
        """Returns the next event and removes it from the agent, or None if there is none."""
        with self._lock:
            if (event := self._loop.poll_event()) is None:
                return None
            if event.kind == _abi.RESTARTED:
                return IceRestart(self.local_credentials)
        if event.kind == _abi.STATE_CHANGED:
            return IceConnectionStateChange(IceConnectionState(event.state))
        if event.kind == _abi.DISCOVERED_RECV:
            return DiscoveredRecv(PROTOCOLS[event.protocol], socket_of(event.source))
        kind = _PATH_EVENTS[event.kind]
        return kind(PROTOCOLS[event.protocol], socket_of(event.source), socket_of(event.destination))

    def ice_restart(self, creds: IceCreds, keep_local_candidates: bool) -> None:
        """Makes an ICE restart with new local credentials. Then set the peer's new credentials and candidates.

        ValueError for credentials that RFC 8839 does not allow: see `set_local_credentials`.
        """
        self._with_creds(self._c.is_ice_restart, checked(creds), keep_local_candidates)

    def recreate_candidate_pairs(self) -> None:
        """Removes all pairs, and forms pairs of all candidates again."""
        done(self._c.is_ice_recreate_pairs(self._at))

    # ---- queries: they change nothing

    @property
    def state(self) -> IceConnectionState:
        """The state of the connection. It prints as `State.Checking`."""
        return IceConnectionState(self._status.state)

    @property
    def stats(self) -> IceAgentStats:
        """Counters since the last restart."""
        stats = _abi.AgentStats()
        done(self._c.is_ice_stats(self._at, byref(stats)))
        return IceAgentStats(*(getattr(stats, name) for name, _ in _abi.AgentStats._fields_))

    @property
    def early_requests(self) -> int:
        """How many requests wait that came before the peer's credentials, at most 100. Then each `handle_timeout` call serves one."""
        count = c_size_t()
        done(self._c.is_ice_early_count(self._at, byref(count)))
        return count.value

    @property
    def nominated_pair(self) -> NominatedPair | None:
        """Addresses and figures of the selected pair, or None if no pair was selected or it was removed."""
        pair = _abi.NominatedPair()
        if not done(self._c.is_ice_nominated(self._at, byref(pair))):
            return None
        return NominatedPair(pair.total_rtt, pair.responses, pair.rtt if pair.has_rtt else None, socket_of(pair.source),
                             socket_of(pair.destination), PROTOCOLS[pair.protocol])

    @property
    def valid_path(self) -> MediaPath | None:
        """The path of a valid pair, one of the greatest priority, or None if no pair is valid.

        Media may go there before a path is selected (RFC 8445, section 12.1). It may change with each response.
        """
        path = _abi.MediaPath()
        if not done(self._c.is_ice_valid_path(self._at, byref(path))):
            return None
        return path_of(path)

    @holds_the_lock
    def media_addresses(self, now: int | None = None) -> tuple[SocketAddress, SocketAddress] | None:
        """Returns the source and the destination of `media_path`, in less time.

        Without a time those of `nominated_pair`, else of `valid_path`: no path is known then during an ICE restart.
        """
        if now is not None:
            return self._loop.media_addresses(now)
        path = self.nominated_pair or self.valid_path
        return (path.source, path.destination) if path else None

    @property
    def pairs(self) -> list[CandidatePair]:
        """The candidate pairs, in the order in which they were formed."""
        pair, pairs = _abi.Pair(), list[CandidatePair]()
        while done(self._c.is_ice_pair_at(self._at, len(pairs), byref(pair))):
            pairs.append(_pair_of(pair))
        return pairs

    def removed_pairs(self, first: int = 0) -> list[RemovedPair]:
        """Returns the pairs that were removed since the last restart, and why, the one that was removed first before the others.

        The agent lists the last 32 of them, fewer if memory was short. `first` is the index to begin at.
        """
        pair, pairs = _abi.RemovedPair(), list[RemovedPair]()
        while done(self._c.is_ice_removed_at(self._at, first + len(pairs), byref(pair))):
            pairs.append(_removed_of(pair))
        return pairs

    def event_line(self, event: IceAgentEvent) -> str:
        """Returns the line of a log for an event: the local username fragment, a colon and what happened, as `evtj: state Connected`."""
        told = event_of(event)
        return text_from(lambda *into: self._c.is_ice_event_line(self._at, byref(told), *into)) or ""

    def removed_line(self, index: int) -> str | None:
        """Returns the line for a pair of `removed_pairs`, or None if there are not so many."""
        return text_from(lambda *into: self._c.is_ice_removed_line(self._at, index, *into))

    def packet_line(self, source: SocketAddress, destination: SocketAddress, contents: bytes,
                    protocol: Protocol = Protocol.UDP) -> str:
        """Returns the line for a datagram that the agent does not accept, or to which it sends no response.

        It has the kind of message, the reason of `rejection` or `unserved` if there is one, and both addresses.
        """
        return self._of_packet(self._c.is_ice_packet_line, source, destination, contents, protocol)

    def packet_kind(self, source: SocketAddress, destination: SocketAddress, contents: bytes,
                    protocol: Protocol = Protocol.UDP) -> str:
        """Returns the kind of message and the reason of that line: under this text a program counts datagrams."""
        return self._of_packet(self._c.is_ice_packet_kind, source, destination, contents, protocol)

    def _of_packet(self, call: Callable[..., int], source: SocketAddress, destination: SocketAddress, contents: bytes,
                   protocol: Protocol) -> str:
        ends = address_of(source), address_of(destination)
        return text_from(lambda *into: call(self._at, protocol, *ends, contents, len(contents), *into)) or ""

    def find_pair_for_equivalent_remote_candidate(self, line: str) -> CandidatePair | None:
        """Returns a pair whose remote candidate equals this one in address, base, protocol, kind and related address, or None.

        Of several it is one of the greatest priority.
        """
        pair, text = _abi.Pair(), utf8(line)
        return _pair_of(pair) if done(self._c.is_ice_find_pair(self._at, text, len(text), byref(pair))) else None

    def has_viable_remote_candidate(self, address: SocketAddress) -> bool:
        """Returns whether there is a valid pair whose remote candidate has this address."""
        return done(self._c.is_ice_has_viable_remote(self._at, address_of(address)))

    @property
    def local_credentials(self) -> IceCreds:
        """The local credentials."""
        creds = self._creds(self._c.is_ice_local_ufrag, self._c.is_ice_local_pass)
        if creds is None:
            raise NoAgent
        return creds

    @property
    def remote_credentials(self) -> IceCreds | None:
        """The peer's credentials, or None if they are not known."""
        return self._creds(self._c.is_ice_remote_ufrag, self._c.is_ice_remote_pass)

    def _creds(self, ufrag_of: Callable[..., int], pass_of: Callable[..., int]) -> IceCreds | None:
        ufrag = text_from(lambda *into: ufrag_of(self._at, *into))
        pass_ = text_from(lambda *into: pass_of(self._at, *into))
        return None if ufrag is None or pass_ is None else IceCreds(ufrag, pass_)
