# Made by `c/abi/make` from c/is_ice.h: edit that, and run it again.
"""The C interface (c/is_ice.h) for ctypes: numbers, structs and prototypes."""

from __future__ import annotations

import ctypes
from ctypes import POINTER, c_bool, c_char_p, c_int32, c_size_t, c_uint16, c_uint32, c_uint64, c_uint8, c_void_p

VERSION = 8

OK = 0
NOTHING = 1
OTHER_COMPONENT = 2
OTHER_UFRAG = 3
REJECTED_METHOD = 4
REJECTED_CLASS = 5
REJECTED_LOCAL_UFRAG = 6
REJECTED_REMOTE_UFRAG = 7
REJECTED_LOCAL_PASSWORD = 8
REJECTED_NO_CHECK = 9
REJECTED_PATH = 10
REJECTED_REMOTE_PASSWORD = 11
UNSERVED_EARLY = 12
UNSERVED_DESTINATION = 13
UNSERVED_USE_CANDIDATE = 14
UNSERVED_SENDER = 15
UNSERVED_LIMIT = 16
UNSERVED_LOCAL = 17
NO_RELAY = 18
NO_AGENT = -1
HAS_AGENT = -2
NOT_UTF8 = -3
BAD_ADDRESS = -4
UNPARSED = -5
BUFFER_TOO_SHORT = -6
OUT_OF_MEMORY = -7
BAD_CANDIDATE = -8
PAIR_IDS_EXHAUSTED = -9
MTU_TOO_SMALL = -10
CREDENTIALS_TOO_LONG = -11
PRIORITY_TOO_HIGH = -12
BAD_LIMIT = -13
TOO_FEW_RANDOM_BYTES = -14
BAD_MESSAGE = -15
MESSAGE_TOO_LONG = -16
TOO_MANY_CANDIDATES = -17
LITE_STAYS_CONTROLLED = -18
BAD_URL = -19
NO_SERVERS = -20
HAS_SERVERS = -21

UDP = 0
TCP = 1
SSL_TCP = 2
TLS = 3

HOST = 0
SERVER_REFLEXIVE = 1
RELAYED = 2
PEER_REFLEXIVE = 3

TCP_UNSTATED = 0
TCP_ACTIVE = 1
TCP_PASSIVE = 2
TCP_SO = 3

FOUNDATION_START = 10

NEW = 0
CHECKING = 1
CONNECTED = 2
COMPLETED = 3
DISCONNECTED = 4

RESTARTED = 1
STATE_CHANGED = 2
DISCOVERED_RECV = 3
NOMINATED_SEND = 4
SILENT = 5
HEARD = 6

PAIR_WAITING = 0
PAIR_IN_PROGRESS = 1
PAIR_SUCCEEDED = 2

REMOVED_NO_RESPONSE = 1
REMOVED_CONSENT_LOST = 2
REMOVED_PEER_SILENT = 3
REMOVED_EVICTED = 4
REMOVED_REPLACED = 5
REMOVED_INVALIDATED = 6

CREDENTIALS_RANDOM = 38
UFRAG_LENGTH = 16
PASS_LENGTH = 22

TEXT_UFRAG = 0
TEXT_PASS = 1
TEXT_FOUNDATION = 2

TIMEOUT_RANDOM = 12

STUN_REQUEST_LENGTH = 28

STUN_USERNAME = 6
STUN_ERROR_CODE = 9
STUN_DATA = 19
STUN_REALM = 20
STUN_NONCE = 21
STUN_SOFTWARE = 34

STUN_REQUEST = 0
STUN_INDICATION = 1
STUN_SUCCESS = 2
STUN_FAILURE = 3

STUN_OTHER = 0
STUN_BINDING = 1
STUN_ALLOCATE = 3
STUN_REFRESH = 4
STUN_SEND = 6
STUN_DATA_INDICATION = 7
STUN_CREATE_PERMISSION = 8
STUN_CHANNEL_BIND = 9

STUN_UDP = 17

HMAC_LENGTH = 20

STUN_WRITE_LENGTH = 1252

SERVER_MAPPED = 1
SERVER_ALLOCATED = 2
SERVER_NOT_PERMITTED = 3
SERVER_ENDED = 4

ENDED_FAILED = 0
ENDED_LOST = 1
ENDED_CLOSED = 2

STUN = 0
TURN = 1

SERVERS_PLACES = 64

SERVERS_RANDOM = 12
WRAPPING_LENGTH = 64

SERVERS_PACKET_LENGTH = 2200

FRAME_LENGTH = 65555

# The text of each code.
TEXTS = {
    OK: "done",
    NOTHING: "nothing",
    OTHER_COMPONENT: "candidate of another component",
    OTHER_UFRAG: "candidate of another username fragment",
    REJECTED_METHOD: "not a Binding message",
    REJECTED_CLASS: "neither a request nor a response",
    REJECTED_LOCAL_UFRAG: "request to another username fragment than the agent's",
    REJECTED_REMOTE_UFRAG: "request from another username fragment than the peer's",
    REJECTED_LOCAL_PASSWORD: "request signed with another password than the agent's",
    REJECTED_NO_CHECK: "response to no pending check",
    REJECTED_PATH: "response on another path than that of its check",
    REJECTED_REMOTE_PASSWORD: "response signed with another password than the peer's",
    UNSERVED_EARLY: "request before the peer's credentials are set",
    UNSERVED_DESTINATION: "request to an address that no local candidate has",
    UNSERVED_USE_CANDIDATE: "request with USE-CANDIDATE to a controlling agent",
    UNSERVED_SENDER: "request from an invalidated remote candidate",
    UNSERVED_LIMIT: "request from an unknown address while the limit on discovered candidates is reached",
    UNSERVED_LOCAL: "request to an invalidated local candidate",
    NO_RELAY: "relayed address gone, or not for this peer",
    NO_AGENT: "no agent",
    HAS_AGENT: "there is an agent already",
    NOT_UTF8: "text is not UTF-8",
    BAD_ADDRESS: "bad address family, protocol or kind",
    UNPARSED: "no STUN message",
    BUFFER_TOO_SHORT: "buffer too short",
    OUT_OF_MEMORY: "out of memory",
    BAD_CANDIDATE: "bad candidate",
    PAIR_IDS_EXHAUSTED: "pair ids exhausted",
    MTU_TOO_SMALL: "MTU target too small",
    CREDENTIALS_TOO_LONG: "ICE credentials too long",
    PRIORITY_TOO_HIGH: "candidate priority too high",
    BAD_LIMIT: "bad limit",
    TOO_FEW_RANDOM_BYTES: "too few random bytes",
    BAD_MESSAGE: "STUN message that cannot be written",
    MESSAGE_TOO_LONG: "STUN message or one of its texts too long",
    TOO_MANY_CANDIDATES: "too many candidates",
    LITE_STAYS_CONTROLLED: "lite agent stays controlled",
    BAD_URL: "bad URL of a STUN or TURN server",
    NO_SERVERS: "no servers",
    HAS_SERVERS: "there are servers already",
}


class Agent(ctypes.Structure):
    """Refers to an agent. All zero: there is none. Only the library reads and writes its fields."""

    _fields_ = [("is_held", c_bool), ("at", c_void_p)]


class Address(ctypes.Structure):
    """is_ice_address."""

    _fields_ = [("family", c_uint8), ("bytes", c_uint8 * 16), ("port", c_uint16), ("flow", c_uint32), ("scope", c_uint32)]


class Candidate(ctypes.Structure):
    """is_ice_candidate."""

    _fields_ = [("address", Address), ("base", Address), ("kind", c_uint8), ("protocol", c_uint8), ("tcptype", c_uint8)]


class Fields(ctypes.Structure):
    """is_ice_fields."""

    _fields_ = [
        ("address", Address),
        ("local", Address),
        ("related", Address),
        ("foundation_length", c_size_t),
        ("ufrag_length", c_size_t),
        ("priority", c_uint32),
        ("component", c_uint16),
        ("kind", c_uint8),
        ("protocol", c_uint8),
        ("tcptype", c_uint8),
    ]


class Packet(ctypes.Structure):
    """is_ice_packet."""

    _fields_ = [("source", Address), ("destination", Address), ("length", c_size_t), ("protocol", c_uint8)]


class Event(ctypes.Structure):
    """is_ice_event."""

    _fields_ = [("source", Address), ("destination", Address), ("kind", c_int32), ("state", c_int32), ("protocol", c_uint8)]


class AgentStatus(ctypes.Structure):
    """is_ice_agent_status."""

    _fields_ = [
        ("state", c_int32),
        ("controlling", c_bool),
        ("lite", c_bool),
        ("mtu", c_size_t),
        ("mtu_warn", c_size_t),
        ("ice_timeout", c_uint64),
        ("max_candidates", c_size_t),
    ]


class AgentStats(ctypes.Structure):
    """is_ice_agent_stats."""

    _fields_ = [
        ("bind_request_sent", c_uint64),
        ("bind_success_recv", c_uint64),
        ("bind_request_recv", c_uint64),
        ("discovered_recv_count", c_uint64),
        ("nomination_send_count", c_uint64),
    ]


class NominatedPair(ctypes.Structure):
    """is_ice_nominated_pair."""

    _fields_ = [
        ("source", Address),
        ("destination", Address),
        ("total_rtt", c_uint64),
        ("responses", c_uint64),
        ("rtt", c_uint64),
        ("protocol", c_uint8),
        ("has_rtt", c_bool),
    ]


class MediaPath(ctypes.Structure):
    """is_ice_media_path."""

    _fields_ = [("source", Address), ("destination", Address), ("protocol", c_uint8)]


class FailedSend(ctypes.Structure):
    """is_ice_failed_send."""

    _fields_ = [("source", Address), ("destination", Address), ("times", c_uint64), ("reason", c_uint32), ("protocol", c_uint8)]


class Pair(ctypes.Structure):
    """is_ice_pair."""

    _fields_ = [
        ("local", c_size_t),
        ("remote", c_size_t),
        ("priority", c_uint64),
        ("checks_sent", c_uint64),
        ("requests_received", c_uint64),
        ("responses", c_uint64),
        ("total_rtt", c_uint64),
        ("rtt", c_uint64),
        ("last_request", c_uint64),
        ("due", c_uint64),
        ("state", c_int32),
        ("nominated", c_bool),
        ("selected", c_bool),
        ("has_rtt", c_bool),
        ("has_request", c_bool),
        ("has_due", c_bool),
    ]


class RemovedPair(ctypes.Structure):
    """is_ice_removed_pair."""

    _fields_ = [
        ("priority", c_uint64),
        ("checks_sent", c_uint64),
        ("responses", c_uint64),
        ("path", MediaPath),
        ("state", c_int32),
        ("reason", c_int32),
        ("error", c_int32),
        ("has_path", c_bool),
    ]


class KindPreferences(ctypes.Structure):
    """is_ice_kind_preferences."""

    _fields_ = [("host", c_uint16), ("peer_reflexive", c_uint16), ("server_reflexive", c_uint16), ("relayed", c_uint16)]


class PreferenceTable(ctypes.Structure):
    """is_ice_preference_table."""

    _fields_ = [("v4", KindPreferences), ("v6", KindPreferences)]


class AgentSettings(ctypes.Structure):
    """is_ice_agent_settings."""

    _fields_ = [
        ("timing_advance", c_uint64),
        ("initial_rto", c_uint64),
        ("max_rto", c_uint64),
        ("lite_timeout", c_uint64),
        ("consent_timeout", c_uint64),
        ("max_retransmits", c_size_t),
        ("max_pairs", c_size_t),
        ("max_discovered", c_size_t),
        ("max_candidates", c_size_t),
        ("room", c_uint64 * 4),
        ("modern", c_bool),
        ("strict_consent", c_bool),
        ("renomination", c_bool),
    ]


class StunTransaction(ctypes.Structure):
    """is_ice_stun_transaction."""

    _fields_ = [("bytes", c_uint8 * 12)]


class StunResult(ctypes.Structure):
    """is_ice_stun_result."""

    _fields_ = [("mapped", Address), ("error_code", c_uint16)]


class StunNumber(ctypes.Structure):
    """is_ice_stun_number."""

    _fields_ = [("value", c_uint64), ("is_set", c_bool)]


class StunMessage(ctypes.Structure):
    """is_ice_stun_message."""

    _fields_ = [
        ("priority", StunNumber),
        ("controlled", StunNumber),
        ("controlling", StunNumber),
        ("error_code", StunNumber),
        ("lifetime", StunNumber),
        ("channel_number", StunNumber),
        ("network_id", StunNumber),
        ("network_cost", StunNumber),
        ("nomination", StunNumber),
        ("mapped", Address),
        ("peer", Address),
        ("relayed", Address),
        ("id", StunTransaction),
        ("method", c_uint16),
        ("cls", c_uint8),
        ("use_candidate", c_bool),
        ("has_integrity", c_bool),
        ("has_fingerprint", c_bool),
        ("requested_transport", c_uint8),
        ("requested_family", c_uint8),
    ]


class StunSpan(ctypes.Structure):
    """is_ice_stun_span."""

    _fields_ = [("start", c_size_t), ("length", c_size_t), ("is_set", c_bool)]


class StunTexts(ctypes.Structure):
    """is_ice_stun_texts."""

    _fields_ = [
        ("username", StunSpan),
        ("reason", StunSpan),
        ("data", StunSpan),
        ("realm", StunSpan),
        ("nonce", StunSpan),
        ("software", StunSpan),
    ]


class Servers(ctypes.Structure):
    """Refers to the clients of STUN and TURN servers. All zero: there are none. Only the library reads and writes its fields."""

    _fields_ = [("is_held", c_bool), ("at", c_void_p)]


class Datagram(ctypes.Structure):
    """is_ice_datagram."""

    _fields_ = [("source", Address), ("destination", Address), ("offset", c_size_t), ("length", c_size_t)]


class ServerEvent(ctypes.Structure):
    """is_ice_server_event."""

    _fields_ = [
        ("local", Address),
        ("server", Address),
        ("relayed", Address),
        ("mapped", Address),
        ("peer", Address),
        ("kind", c_int32),
        ("why", c_int32),
        ("code", c_uint16),
        ("unverified", c_uint16),
        ("protocol", c_uint8),
        ("has_mapped", c_bool),
    ]


class ServerUrl(ctypes.Structure):
    """is_ice_server_url."""

    _fields_ = [("host_start", c_size_t), ("host_length", c_size_t), ("port", c_uint16), ("scheme", c_uint8), ("protocol", c_uint8)]


# The size that the header asserts of each struct.
SIZES: dict[type[ctypes.Structure], int] = {
    Agent: 16,
    Address: 28,
    Candidate: 60,
    Fields: 120,
    Packet: 72,
    Event: 68,
    AgentStatus: 40,
    AgentStats: 40,
    NominatedPair: 88,
    MediaPath: 60,
    FailedSend: 72,
    Pair: 96,
    RemovedPair: 104,
    KindPreferences: 8,
    PreferenceTable: 16,
    AgentSettings: 112,
    StunTransaction: 12,
    StunResult: 32,
    StunNumber: 16,
    StunMessage: 248,
    StunSpan: 24,
    StunTexts: 144,
    Servers: 16,
    Datagram: 72,
    ServerEvent: 156,
    ServerUrl: 24,
}

# The arguments of each call that returns a code.
PROTOTYPES: dict[str, list[object]] = {
    "is_ice_make_credentials": [c_char_p, c_size_t, c_void_p, c_size_t, c_void_p, c_size_t],
    "is_ice_check_text": [c_uint8, c_char_p, c_size_t],
    "is_ice_agent_new": [POINTER(Agent), c_char_p, c_size_t, c_char_p, c_size_t, c_uint64],
    "is_ice_set_controlling": [POINTER(Agent), c_bool],
    "is_ice_role": [c_bool, c_bool, c_bool],
    "is_ice_set_lite": [POINTER(Agent), c_bool],
    "is_ice_set_renomination": [POINTER(Agent), c_bool],
    "is_ice_set_lite_timeout": [POINTER(Agent), c_uint64],
    "is_ice_set_tie_breaker": [POINTER(Agent), c_uint64],
    "is_ice_set_max_pairs": [POINTER(Agent), c_size_t],
    "is_ice_set_max_discovered": [POINTER(Agent), c_size_t],
    "is_ice_set_max_candidates": [POINTER(Agent), c_size_t],
    "is_ice_set_timing_advance": [POINTER(Agent), c_uint64],
    "is_ice_set_initial_rto": [POINTER(Agent), c_uint64],
    "is_ice_set_max_rto": [POINTER(Agent), c_uint64],
    "is_ice_set_max_retransmits": [POINTER(Agent), c_size_t],
    "is_ice_retransmit_timeout": [c_uint64, c_uint64, c_size_t, POINTER(c_uint64)],
    "is_ice_retransmit_delay": [c_uint64, c_uint64, c_size_t, c_size_t, POINTER(c_uint64)],
    "is_ice_modern_settings": [POINTER(AgentSettings)],
    "is_ice_original_settings": [POINTER(AgentSettings)],
    "is_ice_set_settings": [POINTER(Agent), POINTER(AgentSettings)],
    "is_ice_set_mtu": [POINTER(Agent), c_size_t, c_size_t],
    "is_ice_skip_pair_ids": [POINTER(Agent), c_uint64],
    "is_ice_set_local_preference": [POINTER(Agent), c_uint16],
    "is_ice_set_preference_table": [POINTER(Agent), POINTER(PreferenceTable)],
    "is_ice_reset_local_preference": [POINTER(Agent)],
    "is_ice_set_silence": [POINTER(Agent), c_uint64],
    "is_ice_set_local_credentials": [POINTER(Agent), c_char_p, c_size_t, c_char_p, c_size_t],
    "is_ice_set_remote_credentials": [POINTER(Agent), c_char_p, c_size_t, c_char_p, c_size_t],
    "is_ice_is_host_address": [POINTER(Address)],
    "is_ice_add_local": [POINTER(Agent), POINTER(Candidate), POINTER(c_size_t)],
    "is_ice_add_local_line": [POINTER(Agent), c_char_p, c_size_t, POINTER(c_size_t)],
    "is_ice_add_remote": [POINTER(Agent), c_char_p, c_size_t, POINTER(c_size_t)],
    "is_ice_invalidate_local": [POINTER(Agent), POINTER(Candidate)],
    "is_ice_invalidate": [POINTER(Agent), c_char_p, c_size_t],
    "is_ice_local_candidate": [POINTER(Agent), c_size_t, c_void_p, c_size_t, POINTER(c_size_t)],
    "is_ice_remote_candidate": [POINTER(Agent), c_size_t, c_void_p, c_size_t, POINTER(c_size_t)],
    "is_ice_local_fields": [POINTER(Agent), c_size_t, c_void_p, c_size_t, POINTER(c_size_t), POINTER(Fields)],
    "is_ice_remote_fields": [POINTER(Agent), c_size_t, c_void_p, c_size_t, POINTER(c_size_t), POINTER(Fields)],
    "is_ice_line_refusal": [c_char_p, c_size_t, c_void_p, c_size_t, POINTER(c_size_t)],
    "is_ice_candidate_refusal": [POINTER(Candidate), c_void_p, c_size_t, POINTER(c_size_t)],
    "is_ice_alike_local": [POINTER(Agent), POINTER(Candidate), POINTER(c_size_t)],
    "is_ice_candidate_line": [POINTER(Candidate), c_void_p, c_size_t, POINTER(c_size_t)],
    "is_ice_line_fields": [c_char_p, c_size_t, c_void_p, c_size_t, POINTER(c_size_t), POINTER(Fields)],
    "is_ice_fields_line": [POINTER(Fields), c_char_p, c_size_t, c_void_p, c_size_t, POINTER(c_size_t), POINTER(Fields)],
    "is_ice_candidate_fields": [POINTER(Candidate), c_void_p, c_size_t, POINTER(c_size_t), POINTER(Fields)],
    "is_ice_line_name": [c_char_p, c_size_t, c_void_p, c_size_t, POINTER(c_size_t)],
    "is_ice_line_with_address": [c_char_p, c_size_t, POINTER(Address), c_void_p, c_size_t, POINTER(c_size_t)],
    "is_ice_line_with_ufrag": [c_char_p, c_size_t, c_char_p, c_size_t, c_void_p, c_size_t, POINTER(c_size_t)],
    "is_ice_line_with_address_fields": [c_char_p, c_size_t, POINTER(Address), c_void_p, c_size_t, POINTER(c_size_t), POINTER(Fields)],
    "is_ice_line_with_ufrag_fields": [c_char_p, c_size_t, c_char_p, c_size_t, c_void_p, c_size_t, POINTER(c_size_t), POINTER(Fields)],
    "is_ice_line_to_json": [c_char_p, c_size_t, c_void_p, c_size_t, POINTER(c_size_t)],
    "is_ice_line_from_json": [c_char_p, c_size_t, c_void_p, c_size_t, POINTER(c_size_t)],
    "is_ice_json_fields": [c_char_p, c_size_t, c_void_p, c_size_t, POINTER(c_size_t), POINTER(Fields)],
    "is_ice_json_refusal": [c_char_p, c_size_t, c_void_p, c_size_t, POINTER(c_size_t)],
    "is_ice_candidate_preference": [POINTER(Candidate), c_size_t, POINTER(c_uint32)],
    "is_ice_line_preference": [c_char_p, c_size_t, c_size_t, POINTER(c_uint32)],
    "is_ice_handle_timeout": [POINTER(Agent), c_uint64, c_char_p, c_size_t],
    "is_ice_handle_packet": [POINTER(Agent), c_uint64, c_uint8, POINTER(Address), POINTER(Address), c_char_p, c_size_t],
    "is_ice_accepts_packet": [POINTER(Agent), c_uint8, POINTER(Address), POINTER(Address), c_char_p, c_size_t],
    "is_ice_rejection": [POINTER(Agent), c_uint8, POINTER(Address), POINTER(Address), c_char_p, c_size_t],
    "is_ice_unserved": [POINTER(Agent), c_uint8, POINTER(Address), POINTER(Address), c_char_p, c_size_t],
    "is_ice_accepts_message": [POINTER(Agent), c_char_p, c_size_t],
    "is_ice_poll_timeout": [POINTER(Agent), POINTER(c_uint64)],
    "is_ice_poll_transmit": [POINTER(Agent), c_void_p, c_size_t, POINTER(Packet)],
    "is_ice_poll_event": [POINTER(Agent), POINTER(Event)],
    "is_ice_restart": [POINTER(Agent), c_char_p, c_size_t, c_char_p, c_size_t, c_bool],
    "is_ice_send_failed": [POINTER(Agent), c_uint8, POINTER(Address), POINTER(Address), c_uint32],
    "is_ice_recreate_pairs": [POINTER(Agent)],
    "is_ice_status": [POINTER(Agent), POINTER(AgentStatus)],
    "is_ice_settings": [POINTER(Agent), POINTER(AgentSettings)],
    "is_ice_stats": [POINTER(Agent), POINTER(AgentStats)],
    "is_ice_nominated": [POINTER(Agent), POINTER(NominatedPair)],
    "is_ice_valid_path": [POINTER(Agent), POINTER(MediaPath)],
    "is_ice_path_for_media": [POINTER(Agent), c_uint64, POINTER(MediaPath)],
    "is_ice_takes_media_from": [POINTER(Agent), c_uint64, POINTER(Address)],
    "is_ice_silent_since": [POINTER(Agent), POINTER(c_uint64)],
    "is_ice_failed_send_count": [POINTER(Agent), POINTER(c_size_t)],
    "is_ice_failed_send_at": [POINTER(Agent), c_size_t, POINTER(FailedSend)],
    "is_ice_early_count": [POINTER(Agent), POINTER(c_size_t)],
    "is_ice_pair_count": [POINTER(Agent), POINTER(c_size_t)],
    "is_ice_pair_at": [POINTER(Agent), c_size_t, POINTER(Pair)],
    "is_ice_removed_count": [POINTER(Agent), POINTER(c_size_t)],
    "is_ice_removed_at": [POINTER(Agent), c_size_t, POINTER(RemovedPair)],
    "is_ice_event_line": [POINTER(Agent), POINTER(Event), c_void_p, c_size_t, POINTER(c_size_t)],
    "is_ice_removed_line": [POINTER(Agent), c_size_t, c_void_p, c_size_t, POINTER(c_size_t)],
    "is_ice_packet_line": [
        POINTER(Agent),
        c_uint8,
        POINTER(Address),
        POINTER(Address),
        c_char_p,
        c_size_t,
        c_void_p,
        c_size_t,
        POINTER(c_size_t),
    ],
    "is_ice_packet_kind": [
        POINTER(Agent),
        c_uint8,
        POINTER(Address),
        POINTER(Address),
        c_char_p,
        c_size_t,
        c_void_p,
        c_size_t,
        POINTER(c_size_t),
    ],
    "is_ice_find_pair": [POINTER(Agent), c_char_p, c_size_t, POINTER(Pair)],
    "is_ice_has_viable_remote": [POINTER(Agent), POINTER(Address)],
    "is_ice_local_ufrag": [POINTER(Agent), c_void_p, c_size_t, POINTER(c_size_t)],
    "is_ice_local_pass": [POINTER(Agent), c_void_p, c_size_t, POINTER(c_size_t)],
    "is_ice_remote_ufrag": [POINTER(Agent), c_void_p, c_size_t, POINTER(c_size_t)],
    "is_ice_remote_pass": [POINTER(Agent), c_void_p, c_size_t, POINTER(c_size_t)],
    "is_ice_stun_request": [POINTER(StunTransaction), c_void_p, c_size_t, POINTER(c_size_t)],
    "is_ice_stun_response": [POINTER(StunTransaction), c_char_p, c_size_t, POINTER(StunResult)],
    "is_ice_stun_text": [c_uint16, c_char_p, c_size_t, c_void_p, c_size_t, POINTER(c_size_t)],
    "is_ice_is_stun": [c_char_p, c_size_t],
    "is_ice_stun_read": [c_char_p, c_size_t, POINTER(StunMessage)],
    "is_ice_stun_read_strict": [c_char_p, c_size_t, POINTER(StunMessage)],
    "is_ice_stun_username": [c_char_p, c_size_t, c_void_p, c_size_t, POINTER(c_size_t), POINTER(c_size_t)],
    "is_ice_username_parts": [c_char_p, c_size_t, POINTER(c_size_t)],
    "is_ice_stun_verify": [c_char_p, c_size_t, c_char_p, c_size_t],
    "is_ice_hmac_sha1": [c_char_p, c_size_t, c_char_p, c_size_t, c_void_p, c_size_t, POINTER(c_size_t)],
    "is_ice_stun_write": [
        POINTER(StunMessage),
        POINTER(StunTexts),
        c_char_p,
        c_size_t,
        c_char_p,
        c_size_t,
        c_void_p,
        c_size_t,
        POINTER(c_size_t),
    ],
    "is_ice_servers_new": [POINTER(Servers)],
    "is_ice_servers_add_stun": [POINTER(Servers), c_uint64, POINTER(Address), POINTER(Address)],
    "is_ice_servers_add_turn": [
        POINTER(Servers),
        c_uint64,
        c_uint8,
        POINTER(Address),
        POINTER(Address),
        c_uint8,
        c_size_t,
        c_char_p,
        c_size_t,
        c_char_p,
        c_size_t,
    ],
    "is_ice_servers_receive": [
        POINTER(Servers),
        c_uint64,
        c_uint8,
        POINTER(Address),
        POINTER(Address),
        c_char_p,
        c_size_t,
        POINTER(Datagram),
    ],
    "is_ice_servers_outgoing": [
        POINTER(Servers),
        c_uint64,
        POINTER(Address),
        POINTER(Address),
        c_char_p,
        c_size_t,
        c_char_p,
        c_size_t,
        c_void_p,
        c_size_t,
        POINTER(Packet),
    ],
    "is_ice_servers_permit": [POINTER(Servers), c_uint64, POINTER(Address)],
    "is_ice_servers_probe": [POINTER(Servers), c_uint64],
    "is_ice_servers_close": [POINTER(Servers), c_uint64],
    "is_ice_servers_lose": [POINTER(Servers), c_uint8, POINTER(Address)],
    "is_ice_servers_handle_timeout": [POINTER(Servers), c_uint64, c_char_p, c_size_t],
    "is_ice_servers_poll_timeout": [POINTER(Servers), POINTER(c_uint64)],
    "is_ice_servers_poll_transmit": [POINTER(Servers), c_void_p, c_size_t, POINTER(Packet)],
    "is_ice_servers_poll_event": [POINTER(Servers), POINTER(ServerEvent)],
    "is_ice_servers_gathering": [POINTER(Servers)],
    "is_ice_servers_event_line": [POINTER(ServerEvent), c_void_p, c_size_t, POINTER(c_size_t)],
    "is_ice_server_url_of": [c_char_p, c_size_t, POINTER(ServerUrl)],
    "is_ice_frame_length": [c_char_p, c_size_t, POINTER(c_size_t)],
}
