"""Candidates that the caller gathered. The peer's candidates are texts, the candidate attributes of RFC 8839."""

from __future__ import annotations

import ctypes
import enum
from dataclasses import dataclass

from . import _abi
from .address import PROTOCOLS, Protocol, SocketAddress, address_of, in_range, socket_of


class CandidateKind(enum.IntEnum):
    """The kinds of candidates (RFC 8445, section 5.1.1). The agent discovers peer-reflexive ones: nobody gathers them."""

    HOST = _abi.HOST
    SERVER_REFLEXIVE = _abi.SERVER_REFLEXIVE
    RELAYED = _abi.RELAYED
    PEER_REFLEXIVE = _abi.PEER_REFLEXIVE


class TcpType(enum.IntEnum):
    """Which side opens the connection of a TCP candidate (RFC 6544, section 4.5): the candidate's, the other one, or both at once."""

    ACTIVE = _abi.TCP_ACTIVE
    PASSIVE = _abi.TCP_PASSIVE
    SO = _abi.TCP_SO


@dataclass(frozen=True)
class Candidate:
    """A local candidate. `base` is the local socket of a server-reflexive candidate, the local address of a relayed one.

    Only a protocol over TCP has a `tcptype`; BadAddress is raised for one over UDP, and for a peer-reflexive candidate.
    """

    kind: CandidateKind
    address: SocketAddress
    base: SocketAddress
    protocol: Protocol = Protocol.UDP
    tcptype: TcpType | None = None

    @staticmethod
    def host(address: SocketAddress, protocol: Protocol = Protocol.UDP, tcptype: TcpType | None = None) -> Candidate:
        """Creates a host candidate: the address of a local socket."""
        return Candidate(CandidateKind.HOST, address, address, protocol, tcptype)

    @staticmethod
    def server_reflexive(address: SocketAddress, base: SocketAddress, protocol: Protocol = Protocol.UDP,
                         tcptype: TcpType | None = None) -> Candidate:
        """Creates a server-reflexive candidate: the address at which a STUN server saw the socket `base`."""
        return Candidate(CandidateKind.SERVER_REFLEXIVE, address, base, protocol, tcptype)

    @staticmethod
    def relayed(address: SocketAddress, local: SocketAddress, protocol: Protocol = Protocol.UDP,
                tcptype: TcpType | None = None) -> Candidate:
        """Creates a relayed candidate: the address that a TURN server allocated for the socket `local`."""
        return Candidate(CandidateKind.RELAYED, address, local, protocol, tcptype)


@dataclass(frozen=True)
class CandidateFields:
    """A candidate as the library reads it from a text, or lists it. `text` is the candidate attribute as the library prints it.

    `local` is the address of the local socket: 0.0.0.0, port 0, if the candidate was signaled and is no host. None if it has none:
    `related`, the related address (raddr and rport); `tcptype`; `ufrag`, the username fragment.
    """

    text: str
    foundation: str
    component: int
    protocol: Protocol
    priority: int
    address: SocketAddress
    kind: CandidateKind
    local: SocketAddress
    related: SocketAddress | None
    tcptype: TcpType | None
    ufrag: str | None


def fields_of(text: bytes, fields: _abi.Fields) -> CandidateFields:
    """Converts from the library's struct and the text that came with it."""
    foundation = text[_abi.FOUNDATION_START : _abi.FOUNDATION_START + fields.foundation_length]
    ufrag = text[len(text) - fields.ufrag_length :]
    return CandidateFields(
        text.decode(), foundation.decode(), fields.component, PROTOCOLS[fields.protocol], fields.priority, socket_of(fields.address),
        CandidateKind(fields.kind), socket_of(fields.local), socket_of(fields.related) if fields.related.family else None,
        TcpType(fields.tcptype) if fields.tcptype else None, ufrag.decode() or None)


@dataclass(frozen=True)
class KindPreferences:
    """Local preferences by kind, for one IP version: numbers up to 65535 (RFC 8445, section 5.1.2.1)."""

    host: int
    peer_reflexive: int
    server_reflexive: int
    relayed: int


class AddResult(enum.Enum):
    """What became of a remote candidate.

    KNOWN: it equals a remote candidate that the agent has. The others say why it was ignored. OTHER_COMPONENT: it is of another component
    than 1. OTHER_UFRAG: it is of another username fragment than the peer's, as one from before an ICE restart.
    """

    # the codes of is_ice_add_remote
    ADDED = _abi.OK
    KNOWN = _abi.NOTHING
    OTHER_COMPONENT = _abi.OTHER_COMPONENT
    OTHER_UFRAG = _abi.OTHER_UFRAG

    @property
    def is_ignored(self) -> bool:
        """Whether the candidate was ignored."""
        return self in (AddResult.OTHER_COMPONENT, AddResult.OTHER_UFRAG)


def table_of(v4: KindPreferences, v6: KindPreferences) -> _abi.PreferenceTable:
    """Converts to the library's struct."""
    table = _abi.PreferenceTable()
    for name, preferences in (("v4", v4), ("v6", v6)):
        for kind, _ in _abi.KindPreferences._fields_:
            setattr(getattr(table, name), kind, in_range(getattr(preferences, kind), 16, "a preference"))
    return table


def struct_of(candidate: Candidate) -> _abi.Candidate:
    """Converts to the library's struct."""
    struct = _abi.Candidate()
    ctypes.memmove(ctypes.byref(struct, _abi.Candidate.address.offset), ctypes.byref(address_of(candidate.address)), 28)
    ctypes.memmove(ctypes.byref(struct, _abi.Candidate.base.offset), ctypes.byref(address_of(candidate.base)), 28)
    struct.kind = candidate.kind
    struct.protocol = candidate.protocol
    struct.tcptype = candidate.tcptype or _abi.TCP_UNSTATED
    return struct
