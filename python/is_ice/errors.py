"""The errors of calls as exceptions. A call that fails leaves the agent unchanged and can be repeated."""

from __future__ import annotations

from . import _abi


class IceError(Exception):
    """A call failed. `code` is its return code in c/is_ice.h, and `text` the text of that."""

    code = 0
    text = "unknown code"

    def __init__(self, detail: str = "") -> None:
        super().__init__(f"{self.text}: {detail}" if detail else self.text)


class NoAgent(IceError):
    """The agent was closed."""

    code = _abi.NO_AGENT


class HasAgent(IceError):
    """An agent was created in the place of another one."""

    code = _abi.HAS_AGENT


class NotUtf8(IceError, ValueError):
    """A text is not UTF-8: a `str` has a lone surrogate."""

    code = _abi.NOT_UTF8


class BadAddress(IceError):
    """An unknown IP version, protocol or kind of candidate."""

    code = _abi.BAD_ADDRESS


class Unparsed(IceError):
    """The bytes are not a STUN message, as media, or are one without MESSAGE-INTEGRITY, as a STUN server's response."""

    code = _abi.UNPARSED


class BufferTooShort(IceError):
    """A buffer is too short. The module enlarges its buffers, so no call raises this."""

    code = _abi.BUFFER_TOO_SHORT


class OutOfMemory(IceError):
    """An allocation failed."""

    code = _abi.OUT_OF_MEMORY


class BadCandidate(IceError, ValueError):
    """An address that no candidate may have, or a text that is not a candidate. The message says what is wrong."""

    code = _abi.BAD_CANDIDATE


class PairIdsExhausted(IceError):
    """The call may form more pairs than there are pair numbers left."""

    code = _abi.PAIR_IDS_EXHAUSTED


class MtuTooSmall(IceError):
    """An MTU below 588 bytes, the length of the longest connectivity check without NOMINATION."""

    code = _abi.MTU_TOO_SMALL


class CredentialsTooLong(IceError):
    """Both username fragments and a colon are longer than 508 bytes; or the USERNAME of a TURN client is, or its password than 763."""

    code = _abi.CREDENTIALS_TOO_LONG


class PriorityTooHigh(IceError):
    """A local candidate of priority 4294967295."""

    code = _abi.PRIORITY_TOO_HIGH


class BadLimit(IceError):
    """A limit of 0 retransmits."""

    code = _abi.BAD_LIMIT


class TooFewRandomBytes(IceError):
    """Fewer random bytes than the call needs."""

    code = _abi.TOO_FEW_RANDOM_BYTES


class BadMessage(IceError):
    """A STUN message that cannot be written: an unknown method, or an error code outside 300 to 699."""

    code = _abi.BAD_MESSAGE


class MessageTooLong(IceError):
    """USERNAME is longer than 508 bytes, another text than 128, or DATA or all attributes are longer than 65535."""

    code = _abi.MESSAGE_TOO_LONG


class TooManyCandidates(IceError):
    """There are as many candidates of the side as `IceAgent.set_max_candidates` allows."""

    code = _abi.TOO_MANY_CANDIDATES


class LiteStaysControlled(IceError):
    """A lite agent with `Profile.MODERN` was to be controlling."""

    code = _abi.LITE_STAYS_CONTROLLED


class BadUrl(IceError, ValueError):
    """A text that is not the URL of a STUN or TURN server, or one of TURN over DTLS."""

    code = _abi.BAD_URL


class NoServers(IceError):
    """The clients of the servers were freed."""

    code = _abi.NO_SERVERS


class HasServers(IceError):
    """Clients of servers were made in the place of others."""

    code = _abi.HAS_SERVERS


_BY_CODE: dict[int, type[IceError]] = {kind.code: kind for kind in IceError.__subclasses__()}
for _code, _kind in _BY_CODE.items():
    _kind.text = _abi.TEXTS[_code]


def error_of(code: int, detail: str = "") -> IceError:
    """Returns the exception for a code below 0."""
    kind = _BY_CODE.get(code)
    return kind(detail) if kind else IceError(f"{code}")


def done(code: int) -> bool:
    """Returns True for IS_ICE_OK and False for another code that is no error; raises the exception of an error."""
    if code >= 0:
        return code == _abi.OK
    raise error_of(code)


def utf8(text: str) -> bytes:
    """Returns a text for the library. NotUtf8 for a lone surrogate. The exception does not have the text, which may be a password."""
    try:
        return text.encode()
    except UnicodeEncodeError:
        pass
    raise NotUtf8
