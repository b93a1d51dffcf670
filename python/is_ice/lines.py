"""Candidates as texts, the candidate attributes of RFC 8839, and as the JSON of browsers. The library reads and writes them all."""

from __future__ import annotations

from collections.abc import Callable
from ctypes import byref, c_uint32

from . import _abi
from ._library import bytes_or_refusal, library, text_from
from .address import SocketAddress, address_of, in_range
from .candidate import Candidate, CandidateFields, fields_of, struct_of
from .errors import done, utf8


def line_refusal(line: str) -> str | None:
    """Returns why a text is not a candidate, or None if it is one."""
    return text_from(_refusal(utf8(line)))


def _refusal(text: bytes) -> Callable[..., int]:
    return lambda *into: library.calls.is_ice_line_refusal(text, len(text), *into)


def _no_refusal(*_: object) -> int:
    return _abi.NOTHING


def line_fields(line: str) -> CandidateFields:
    """Reads a candidate as `IceAgent.add_remote_candidate` does, and returns what the agent would use. BadCandidate says what is wrong."""
    text, fields = utf8(line), _abi.Fields()
    written = bytes_or_refusal(lambda *into: library.calls.is_ice_line_fields(text, len(text), *into, byref(fields)), _refusal(text))
    return fields_of(written, fields)


def candidate_fields(candidate: Candidate) -> CandidateFields:
    """Returns the fields of a local candidate that no agent has, as `candidate_line` writes it."""
    struct, fields = struct_of(candidate), _abi.Fields()
    written = bytes_or_refusal(lambda *into: library.calls.is_ice_candidate_fields(byref(struct), *into, byref(fields)),
                               lambda *into: library.calls.is_ice_candidate_refusal(byref(struct), *into))
    return fields_of(written, fields)


def candidate_line(candidate: Candidate) -> str:
    """Returns the text of a local candidate that no agent has: with the priority of the first one of its kind, without a fragment."""
    struct = struct_of(candidate)
    return bytes_or_refusal(lambda *into: library.calls.is_ice_candidate_line(byref(struct), *into),
                            lambda *into: library.calls.is_ice_candidate_refusal(byref(struct), *into)).decode()


def line_name(line: str) -> str | None:
    """Returns the mDNS name that a candidate has in place of an address, as `3f2b8c1e.local`, to hide it; None if it has none.

    `IceAgent.add_remote_candidate` raises BadCandidate for it. Resolve the name by mDNS and put the address in its place by
    `line_with_address`, or leave the candidate out: the agent discovers it as a peer-reflexive candidate, from the peer's checks.
    """
    text = utf8(line)
    return text_from(lambda *into: library.calls.is_ice_line_name(text, len(text), *into))


def has_mdns_name(line: str) -> bool:
    """Returns whether a candidate has an mDNS name in place of an address. `line_name` says what to do with it."""
    return line_name(line) is not None


def line_with_address(line: str, ip: str) -> str:
    """Returns the text of a candidate with this IP address in place of its own, or of its mDNS name. Unknown extensions are left out.

    BadCandidate if it is not a candidate then.
    """
    return line_fields_with_address(line, ip).text


def line_fields_with_address(line: str, ip: str) -> CandidateFields:
    """Returns the fields of that candidate."""
    text, address, fields = utf8(line), byref(address_of(SocketAddress(ip, 0))), _abi.Fields()
    refusal = _refusal(text)
    if line_name(line) is not None:
        refusal = _no_refusal  # it would be that a name is no address
    written = bytes_or_refusal(
        lambda *into: library.calls.is_ice_line_with_address_fields(text, len(text), address, *into, byref(fields)), refusal,
        f"{line}: not a candidate with an address either")
    return fields_of(written, fields)


def line_with_ufrag(line: str, ufrag: str) -> str:
    """Returns the text of a candidate with this username fragment in place of its own: of ice-char (RFC 8839, section 5.4).

    BadCandidate says why the text is not a candidate, and is raised for a fragment that is empty or has white space.
    """
    text, name = utf8(line), utf8(ufrag)
    return bytes_or_refusal(lambda *into: library.calls.is_ice_line_with_ufrag(text, len(text), name, len(name), *into),
                            _refusal(text), "the username fragment is not one word").decode()


def line_to_json(line: str) -> str:
    """Returns the JSON in which browsers signal a candidate: the RTCIceCandidateInit of W3C WebRTC.

    `sdpMid` is null and `sdpMLineIndex` is 0. BadCandidate says why the text is not a candidate.
    """
    text = utf8(line)
    return bytes_or_refusal(lambda *into: library.calls.is_ice_line_to_json(text, len(text), *into), _refusal(text)).decode()


def line_from_json(json: str) -> str:
    """Returns the text of the candidate in such JSON, for `IceAgent.add_remote_candidate`.

    A `usernameFragment` that is a string replaces that of the candidate; other members are not read. BadCandidate says why it is not
    a candidate. The end of candidates, which has an empty `candidate`, is not one.
    """
    text = utf8(json)
    return bytes_or_refusal(lambda *into: library.calls.is_ice_line_from_json(text, len(text), *into),
                            lambda *into: library.calls.is_ice_json_refusal(text, len(text), *into)).decode()


def default_local_preference(candidate: Candidate | str, same_kind: int) -> int:
    """Returns the default local preference of a candidate that comes after `same_kind` local ones of its kind and IP version."""
    preference, before = c_uint32(), in_range(same_kind, 64, "a number of candidates")
    if isinstance(candidate, Candidate):
        done(library.calls.is_ice_candidate_preference(byref(struct_of(candidate)), before, byref(preference)))
    else:
        text = utf8(candidate)
        done(library.calls.is_ice_line_preference(text, len(text), before, byref(preference)))
    return preference.value
