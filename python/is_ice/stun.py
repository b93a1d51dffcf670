"""STUN messages (RFC 8489): a client's request and its response, and any message by its attributes, read and written by the library."""

from __future__ import annotations

import enum
from ctypes import byref, c_size_t, create_string_buffer
from dataclasses import dataclass

from . import _abi
from ._library import bytes_from, library
from .address import SocketAddress, address_of, in_range, socket_of
from .errors import done, utf8

TRANSACTION_LENGTH = 12


class StunMethod(enum.IntEnum):
    """The method of a message (RFC 8489, section 18.2; RFC 8656, section 17). `OTHER`: any method that is not listed here."""

    OTHER = _abi.STUN_OTHER
    BINDING = _abi.STUN_BINDING
    ALLOCATE = _abi.STUN_ALLOCATE
    REFRESH = _abi.STUN_REFRESH
    SEND = _abi.STUN_SEND
    DATA = _abi.STUN_DATA_INDICATION
    CREATE_PERMISSION = _abi.STUN_CREATE_PERMISSION
    CHANNEL_BIND = _abi.STUN_CHANNEL_BIND


class StunClass(enum.IntEnum):
    """The class of a message (RFC 8489, section 5)."""

    REQUEST = _abi.STUN_REQUEST
    INDICATION = _abi.STUN_INDICATION
    SUCCESS = _abi.STUN_SUCCESS
    FAILURE = _abi.STUN_FAILURE


class StunText(enum.IntEnum):
    """The attributes that contain a text or data, by their type. `ERROR_CODE` stands for its reason phrase."""

    USERNAME = _abi.STUN_USERNAME
    ERROR_CODE = _abi.STUN_ERROR_CODE
    DATA = _abi.STUN_DATA
    REALM = _abi.STUN_REALM
    NONCE = _abi.STUN_NONCE
    SOFTWARE = _abi.STUN_SOFTWARE


def _id_of(transaction: bytes) -> _abi.StunTransaction:
    if len(transaction) != TRANSACTION_LENGTH:
        raise ValueError(f"a transaction ID has {TRANSACTION_LENGTH} bytes, not {len(transaction)}")
    return _abi.StunTransaction.from_buffer_copy(transaction)


def binding_request(transaction: bytes) -> bytes:
    """Returns a Binding request without credentials: header and FINGERPRINT. The transaction ID is 12 random bytes."""
    buffer, length = create_string_buffer(_abi.STUN_REQUEST_LENGTH), c_size_t()
    done(library.calls.is_ice_stun_request(byref(_id_of(transaction)), buffer, len(buffer), byref(length)))
    return buffer.raw[:length.value]


@dataclass(frozen=True)
class BindingResponse:
    """What a response says: the address at which the server saw the client; or an error's code, 300 to 699, and its reason."""

    mapped: SocketAddress | None = None
    error_code: int | None = None
    reason: str = ""


def binding_response(transaction: bytes, data: bytes) -> BindingResponse | None:
    """Reads the response to the Binding request with this transaction ID, or returns None if the datagram is not that response.

    A success response without XOR-MAPPED-ADDRESS is None too, as is a failure without ERROR-CODE. Nothing is verified.
    """
    result = _abi.StunResult()
    code = library.calls.is_ice_stun_response(byref(_id_of(transaction)), data, len(data), byref(result))
    if code == _abi.UNPARSED or not done(code):
        return None
    if result.error_code == 0:
        return BindingResponse(mapped=socket_of(result.mapped))
    return BindingResponse(error_code=result.error_code, reason=(_value(StunText.ERROR_CODE, data) or b"").decode())


def _value(attribute: StunText, data: bytes) -> bytes | None:
    return bytes_from(lambda *into: library.calls.is_ice_stun_text(int(attribute), data, len(data), *into), max(len(data), 1))


def _number(number: _abi.StunNumber) -> int | None:
    return number.value if number.is_set else None


def _address(address: _abi.Address) -> SocketAddress | None:
    return socket_of(address) if address.family else None


def _spans(**texts: bytes | None) -> tuple[_abi.StunTexts, bytes]:
    """All texts in one array, and where each is in it."""
    spans, joined = _abi.StunTexts(), b""
    for name, text in texts.items():
        if text is not None:
            setattr(spans, name, _abi.StunSpan(len(joined), len(text), True))
            joined += text
    return spans, joined


def _write(flat: _abi.StunMessage, texts: dict[str, bytes | None], key: bytes | None) -> bytes:
    spans, joined = _spans(**texts)
    flat.has_integrity = key is not None
    buffer, length = create_string_buffer(_abi.STUN_WRITE_LENGTH + len(joined) + 8), c_size_t()
    key = key or b""
    done(library.calls.is_ice_stun_write(
        byref(flat), byref(spans), joined, len(joined), key, len(key), buffer, len(buffer), byref(length)))
    return buffer.raw[:length.value]


def _bytes_of(text: str | None) -> bytes | None:
    return None if text is None else utf8(text)


def write_message(
    method: StunMethod, class_: StunClass, transaction: bytes, *, key: bytes | None = None,
    username: str | None = None, priority: int | None = None, use_candidate: bool = False,
    ice_controlled: int | None = None, ice_controlling: int | None = None,
    mapped_address: SocketAddress | None = None, error: tuple[int, str] | None = None,
    realm: str | None = None, nonce: str | None = None, software: str | None = None,
    peer_address: SocketAddress | None = None, relayed_address: SocketAddress | None = None, data: bytes | None = None,
    lifetime: int | None = None, channel_number: int | None = None, network_cost: tuple[int, int] | None = None,
    nomination: int | None = None, requested_transport: int | None = None, requested_family: int | None = None,
) -> bytes:
    """Writes a message: the attributes that are not None, MESSAGE-INTEGRITY if there is a key, and FINGERPRINT.

    The names are those of `StunMessage`; `error` is the code and the reason phrase. In ICE the key is the password of the request's
    receiver, at a TURN server the MD5 digest of USERNAME, realm and password with colons between them (RFC 8489, section 9.2.2).
    To a TURN server write no `software`: its type here is another attribute there. Raises BadMessage or MessageTooLong, BadAddress
    for a family other than 4 and 6, and ValueError for a number that does not fit its attribute.
    """
    network, cost = network_cost or (None, None)
    flat = _abi.StunMessage(id=_id_of(transaction), method=int(method), cls=int(class_), use_candidate=use_candidate)
    numbers = (("priority", priority, 32), ("controlled", ice_controlled, 64), ("controlling", ice_controlling, 64),
               ("error_code", error and error[0], 16), ("lifetime", lifetime, 32), ("channel_number", channel_number, 16),
               ("network_id", network, 16), ("network_cost", cost, 16), ("nomination", nomination, 32))
    for name, number, bits in numbers:
        if number is not None:
            setattr(flat, name, _abi.StunNumber(in_range(number, bits, name), True))
    for name, byte in (("requested_transport", requested_transport), ("requested_family", requested_family)):
        if byte is not None:
            setattr(flat, name, in_range(byte, 8, name))
    for name, address in (("mapped", mapped_address), ("peer", peer_address), ("relayed", relayed_address)):
        if address is not None:
            setattr(flat, name, address_of(address))
    return _write(flat, {
        "username": _bytes_of(username), "reason": _bytes_of(error and error[1]), "data": data, "realm": _bytes_of(realm),
        "nonce": _bytes_of(nonce), "software": _bytes_of(software)}, key)


def stun_username(data: bytes) -> tuple[str, str] | None:
    """Returns the two parts of a message's USERNAME, or None if it has none with a colon. Unparsed if it is not a STUN message.

    In a Binding request they are the username fragments of the receiver and of the sender (RFC 8445, section 7.2.2). So a socket
    finds its agent in a `dict` by the first one, without asking each agent.
    """
    receiver = c_size_t()
    name = bytes_from(lambda *into: library.calls.is_ice_stun_username(data, len(data), *into, byref(receiver)))
    return None if name is None else (name[: receiver.value].decode(), name[receiver.value + 1 :].decode())


class StunMessage:
    """A STUN message of any method and class. An attribute that it does not have is None."""

    def __init__(self, data: bytes, strict: bool = False) -> None:
        """Reads a datagram. Unparsed if it is not a STUN message or has a malformed attribute. Nothing is verified.

        `strict`: as `IceAgent.handle_packet` reads it. Unparsed also for a Binding request or success response without an attribute
        that ICE requires.
        """
        self._flat = _abi.StunMessage()
        self.data = bytes(data)
        read = library.calls.is_ice_stun_read_strict if strict else library.calls.is_ice_stun_read
        done(read(self.data, len(self.data), byref(self._flat)))

    @property
    def method(self) -> StunMethod:
        """The method."""
        return StunMethod(self._flat.method)

    @property
    def class_(self) -> StunClass:
        """The class."""
        return StunClass(self._flat.cls)

    @property
    def transaction(self) -> bytes:
        """The transaction ID. A response has that of its request."""
        return bytes(self._flat.id)

    @property
    def priority(self) -> int | None:
        """PRIORITY (RFC 8445, section 16.1)."""
        return _number(self._flat.priority)

    @property
    def use_candidate(self) -> bool:
        """Whether the message has USE-CANDIDATE (RFC 8445, section 16.1)."""
        return bool(self._flat.use_candidate)

    @property
    def ice_controlled(self) -> int | None:
        """The tie-breaker of ICE-CONTROLLED (RFC 8445, section 16.1)."""
        return _number(self._flat.controlled)

    @property
    def ice_controlling(self) -> int | None:
        """The tie-breaker of ICE-CONTROLLING (RFC 8445, section 16.1)."""
        return _number(self._flat.controlling)

    @property
    def mapped_address(self) -> SocketAddress | None:
        """XOR-MAPPED-ADDRESS (RFC 8489, section 14.2)."""
        return _address(self._flat.mapped)

    @property
    def peer_address(self) -> SocketAddress | None:
        """XOR-PEER-ADDRESS (RFC 8656, section 18.3)."""
        return _address(self._flat.peer)

    @property
    def relayed_address(self) -> SocketAddress | None:
        """XOR-RELAYED-ADDRESS (RFC 8656, section 18.5)."""
        return _address(self._flat.relayed)

    @property
    def error_code(self) -> int | None:
        """The code of ERROR-CODE, 300 to 699 (RFC 8489, section 14.8). `text(StunText.ERROR_CODE)` is its reason phrase."""
        return _number(self._flat.error_code)

    @property
    def lifetime(self) -> int | None:
        """LIFETIME, in seconds (RFC 8656, section 18.2)."""
        return _number(self._flat.lifetime)

    @property
    def channel_number(self) -> int | None:
        """CHANNEL-NUMBER (RFC 8656, section 18.1)."""
        return _number(self._flat.channel_number)

    @property
    def network_cost(self) -> tuple[int, int] | None:
        """NETWORK-COST: the ID of the sender's network, and its cost."""
        network, cost = _number(self._flat.network_id), _number(self._flat.network_cost)
        return None if network is None or cost is None else (network, cost)

    @property
    def nomination(self) -> int | None:
        """NOMINATION: the number of a nomination (draft-thatcher-ice-renomination)."""
        return _number(self._flat.nomination)

    @property
    def requested_transport(self) -> int | None:
        """REQUESTED-TRANSPORT (RFC 8656, section 18.7): the protocol that an Allocate request requests. 17 is UDP."""
        return self._flat.requested_transport or None

    @property
    def requested_family(self) -> int | None:
        """REQUESTED-ADDRESS-FAMILY (RFC 8656, section 18.6): 4 or 6, the family that an Allocate request requests."""
        return self._flat.requested_family or None

    @property
    def username(self) -> str | None:
        """USERNAME (RFC 8489, section 14.3)."""
        return self.text(StunText.USERNAME)

    @property
    def value_of_data(self) -> bytes | None:
        """DATA (RFC 8656, section 18.4)."""
        return _value(StunText.DATA, self.data)

    def text(self, attribute: StunText) -> str | None:
        """Returns the text of an attribute. DATA, which need not be text, is `value_of_data`."""
        value = _value(attribute, self.data)
        return None if value is None else value.decode()

    @property
    def has_integrity(self) -> bool:
        """Whether the message has MESSAGE-INTEGRITY (RFC 8489, section 14.5), which `verify` verifies."""
        return bool(self._flat.has_integrity)

    @property
    def has_fingerprint(self) -> bool:
        """Whether the message has FINGERPRINT (RFC 8489, section 14.7), which is not verified."""
        return bool(self._flat.has_fingerprint)

    def to_bytes(self, key: bytes | None = None) -> bytes:
        """Writes the message again, with the MESSAGE-INTEGRITY of this key, if there is one, and FINGERPRINT.

        Raises BadMessage for `StunMethod.OTHER`, and MessageTooLong for texts that may be read and not written.
        """
        texts = {"username": StunText.USERNAME, "reason": StunText.ERROR_CODE, "data": StunText.DATA, "realm": StunText.REALM,
                 "nonce": StunText.NONCE, "software": StunText.SOFTWARE}
        flat = _abi.StunMessage.from_buffer_copy(self._flat)
        return _write(flat, {name: _value(attribute, self.data) for name, attribute in texts.items()}, key)

    def verify(self, key: bytes) -> bool:
        """Returns whether the message has the MESSAGE-INTEGRITY of this key (RFC 8489, section 14.5). In ICE the key is a password."""
        return done(library.calls.is_ice_stun_verify(self.data, len(self.data), key, len(key)))
