"""The candidate attribute of RFC 8839, with its fields."""

from __future__ import annotations

from dataclasses import dataclass, replace

from .address import Protocol
from .candidate import CandidateFields, CandidateKind, TcpType
from .lines import line_fields, line_fields_with_address, line_name

_TRANSPORTS = {Protocol.UDP: "udp", Protocol.TCP: "tcp", Protocol.SSL_TCP: "ssltcp", Protocol.TLS: "tls"}
_TYPES = {CandidateKind.HOST: "host", CandidateKind.PEER_REFLEXIVE: "prflx", CandidateKind.SERVER_REFLEXIVE: "srflx",
          CandidateKind.RELAYED: "relay"}
_TCP_TYPES = {TcpType.ACTIVE: "active", TcpType.PASSIVE: "passive", TcpType.SO: "so"}
_UNSPECIFIED = "0.0.0.0"  # in the place of a name, for the library to read the other fields


@dataclass(frozen=True)
class CandidateAttribute:
    """A candidate as signaling has it. Fields and methods are those of aioice's `Candidate`; `str` returns "candidate:..".

    `host` is an IP address or an mDNS name. The library reads the fields, as for the agent: extensions that it does not know are left
    out, `generation` among them, which is only for callers that set it. The username fragment is left out too.
    """

    foundation: str
    component: int
    transport: str
    priority: int
    host: str
    port: int
    type: str
    related_address: str | None = None
    related_port: int | None = None
    tcptype: str | None = None
    generation: int | None = None

    @classmethod
    def from_sdp(cls, sdp: str) -> CandidateAttribute:
        """Reads a candidate, with or without "candidate:" before it. BadCandidate, a ValueError, says why it is not one."""
        line = "candidate:" + sdp.removeprefix("candidate:")
        if (name := line_name(line)) is None:
            return cls.from_fields(line_fields(line))
        return replace(cls.from_fields(line_fields_with_address(line, _UNSPECIFIED)), host=name)

    @classmethod
    def from_fields(cls, fields: CandidateFields) -> CandidateAttribute:
        """Converts what the library read or listed."""
        return cls(fields.foundation, fields.component, _TRANSPORTS[fields.protocol], fields.priority, fields.address.ip,
                   fields.address.port, _TYPES[fields.kind], fields.related.ip if fields.related else None,
                   fields.related.port if fields.related else None, _TCP_TYPES[fields.tcptype] if fields.tcptype else None)

    def to_sdp(self) -> str:
        """Writes the candidate, without "candidate:" before it."""
        sdp = f"{self.foundation} {self.component} {self.transport} {self.priority} {self.host} {self.port} typ {self.type}"
        for key, value in (("raddr", self.related_address), ("rport", self.related_port), ("tcptype", self.tcptype),
                           ("generation", self.generation)):
            if value is not None:
                sdp += f" {key} {value}"
        return sdp

    def __str__(self) -> str:
        return "candidate:" + self.to_sdp()
