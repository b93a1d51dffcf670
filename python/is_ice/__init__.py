"""A proved ICE agent (RFC 8445) for Python: a class over the C interface.

The agent has no sockets, threads or clocks. The caller passes in the time, candidates and datagrams. The agent returns
packets to send, events, and the time of its next timeout. README.md shows the loop, and `peer.py` is a program over UDP
sockets: both are in `python/` of a clone, and in `share/doc/is_ice/` of an environment that has the wheel.
"""

__version__ = "0.12.1"

from .address import Protocol, SocketAddress
from .agent import IceAgent, new_creds
from .candidate import AddResult, Candidate, CandidateFields, CandidateKind, KindPreferences, TcpType
from .errors import (
    BadAddress,
    BadCandidate,
    BadLimit,
    BadMessage,
    BadUrl,
    CredentialsTooLong,
    HasAgent,
    HasServers,
    IceError,
    LiteStaysControlled,
    MessageTooLong,
    MtuTooSmall,
    NoAgent,
    NoServers,
    NotUtf8,
    OutOfMemory,
    PairIdsExhausted,
    PriorityTooHigh,
    TooFewRandomBytes,
    TooManyCandidates,
    Unparsed,
)
from .events import (
    CandidatePair,
    CheckState,
    DiscoveredRecv,
    FailedSend,
    Heard,
    IceAgentEvent,
    IceAgentStats,
    IceConnectionState,
    IceConnectionStateChange,
    IceCreds,
    IceRestart,
    MediaPath,
    NominatedPair,
    NominatedSend,
    Rejection,
    Removal,
    RemovedPair,
    Silent,
    Transmit,
    Unserved,
)
from .gatherer import GatheringComplete, GatheringEvent, IceGatherer, IceServer, LocalCandidate, Server, servers_of
from .lines import (
    candidate_fields,
    candidate_line,
    default_local_preference,
    has_mdns_name,
    line_fields,
    line_from_json,
    line_name,
    line_refusal,
    line_to_json,
    line_with_address,
    line_with_ufrag,
)
from .servers import (
    Datagram,
    EndedWhy,
    Scheme,
    ServerAllocated,
    ServerEnded,
    ServerEvent,
    ServerMapped,
    ServerNotPermitted,
    Servers,
    ServerUrl,
    frame_length,
    server_url,
)
from .settings import Consent, Profile, Settings

__all__ = [
    "AddResult", "BadAddress", "BadCandidate", "BadLimit", "BadMessage", "BadUrl", "Candidate", "CandidateFields", "CandidateKind",
    "CandidatePair", "CheckState", "Consent", "CredentialsTooLong", "Datagram", "DiscoveredRecv", "EndedWhy", "FailedSend",
    "GatheringComplete", "GatheringEvent", "HasAgent", "HasServers", "Heard", "IceAgent", "IceAgentEvent", "IceAgentStats",
    "IceConnectionState", "IceConnectionStateChange", "IceCreds", "IceError", "IceGatherer", "IceRestart", "IceServer", "KindPreferences",
    "LiteStaysControlled", "LocalCandidate", "MediaPath", "MessageTooLong", "MtuTooSmall", "NoAgent", "NominatedPair", "NominatedSend",
    "NoServers", "NotUtf8", "OutOfMemory", "PairIdsExhausted", "PriorityTooHigh", "Profile", "Protocol", "Rejection", "Removal",
    "RemovedPair", "Scheme", "Server", "ServerAllocated", "ServerEnded", "ServerEvent", "ServerMapped", "ServerNotPermitted", "Servers",
    "ServerUrl", "Settings", "Silent", "SocketAddress", "TcpType", "TooFewRandomBytes", "TooManyCandidates", "Transmit", "Unparsed",
    "Unserved", "candidate_fields", "candidate_line", "default_local_preference", "frame_length", "has_mdns_name", "line_fields",
    "line_from_json", "line_name", "line_refusal", "line_to_json", "line_with_address", "line_with_ufrag", "new_creds", "server_url",
    "servers_of",
]
