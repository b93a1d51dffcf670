"""What pictures, guarantees and the model of pairs need of a STUN message, which the library reads, except for NOMINATION. Nothing is
verified."""

from __future__ import annotations

from dataclasses import dataclass
from functools import lru_cache
from struct import unpack_from

from is_ice.stun import StunClass, StunMessage

_KINDS = {StunClass.REQUEST: "request", StunClass.SUCCESS: "success", StunClass.FAILURE: "failure", StunClass.INDICATION: "indication"}

NOMINATION, MESSAGE_INTEGRITY = 0xC001, 0x0008


@dataclass(frozen=True)
class Message:
    """A Binding message. `kind` is request, success, failure or indication; `code` is that of a failure, else 0."""

    kind: str
    transaction: bytes
    use_candidate: bool
    code: int


@lru_cache(maxsize=256)
def message_of(contents: bytes) -> Message:
    """Reads a Binding message (RFC 8489, section 5): its class, its transaction ID, and two of its attributes."""
    message = StunMessage(contents)
    return Message(_KINDS[message.class_], message.transaction, message.use_candidate, message.error_code or 0)


def nomination_of(contents: bytes) -> int | None:
    """Reads NOMINATION (draft-thatcher-ice-renomination): the last one of 4 bytes before MESSAGE-INTEGRITY."""
    at, found = 20, None
    while at + 4 <= len(contents):
        kind, length = unpack_from("!HH", contents, at)
        if kind == MESSAGE_INTEGRITY:
            break
        if (kind, length) == (NOMINATION, 4):
            found = int(unpack_from("!I", contents, at + 4)[0])
        at += 4 + length + -length % 4
    return found
