"""STUN messages and ChannelData, as the TURN server reads and writes them: by RFC 8489 and RFC 8656, without the library."""

from __future__ import annotations

import hashlib
import hmac
import ipaddress
from dataclasses import dataclass, field
from struct import pack, unpack_from

from is_ice import SocketAddress

COOKIE = 0x2112A442
HEADER = 20
# Methods (RFC 8489, section 18.2; RFC 8656, section 17), and classes as they stand in the type of a message.
BINDING, ALLOCATE, REFRESH, SEND, DATA, CREATE_PERMISSION, CHANNEL_BIND = 0x001, 0x003, 0x004, 0x006, 0x007, 0x008, 0x009
REQUEST, INDICATION, SUCCESS, FAILURE = 0x000, 0x010, 0x100, 0x110
NAMES = {BINDING: "Binding", ALLOCATE: "Allocate", REFRESH: "Refresh", SEND: "Send", DATA: "Data", CREATE_PERMISSION: "CreatePermission",
         CHANNEL_BIND: "ChannelBind"}
# Attributes (RFC 8489, section 18.3; RFC 8656, section 18).
USERNAME, MESSAGE_INTEGRITY, ERROR_CODE, UNKNOWN_ATTRIBUTES, CHANNEL_NUMBER, LIFETIME = 0x0006, 0x0008, 0x0009, 0x000A, 0x000C, 0x000D
XOR_PEER_ADDRESS, DATA_VALUE, REALM, NONCE, XOR_RELAYED_ADDRESS = 0x0012, 0x0013, 0x0014, 0x0015, 0x0016
REQUESTED_ADDRESS_FAMILY, REQUESTED_TRANSPORT, XOR_MAPPED_ADDRESS = 0x0017, 0x0019, 0x0020
# The first attributes that a server may ignore.
OPTIONAL = 0x8000
FAMILIES = {4: 1, 6: 2}


@dataclass
class Message:
    """A message. Of an attribute that comes twice the first one counts, and none that follows MESSAGE-INTEGRITY (RFC 8489, section 14)."""

    method: int
    kind: int
    transaction: bytes
    values: dict[int, bytes] = field(default_factory=dict)
    signed: bytes = b""  # what MESSAGE-INTEGRITY is made of, if there is one

    def number(self, attribute: int) -> int | None:
        """Returns the value of an attribute that is a number of four bytes."""
        value = self.values.get(attribute)
        return int(unpack_from("!I", value)[0]) if value is not None and len(value) == 4 else None

    def address(self, attribute: int) -> SocketAddress | None:
        """Returns the value of an attribute that is an XOR address (RFC 8489, section 14.2)."""
        value = self.values.get(attribute, b"")
        lengths = {8: 1, 20: 2}
        if len(value) not in lengths or value[1] != lengths[len(value)]:
            return None
        ip = ipaddress.ip_address(_xored(value[4:], self.transaction))
        return SocketAddress(str(ip), unpack_from("!H", value, 2)[0] ^ COOKIE >> 16)

    def is_by(self, key: bytes) -> bool:
        """Whether it is signed under this key."""
        return hmac.compare_digest(hmac.new(key, self.signed, hashlib.sha1).digest(), self.values.get(MESSAGE_INTEGRITY, b""))

    @property
    def code(self) -> int:
        """The error code, or 0."""
        value = self.values.get(ERROR_CODE, bytes(4))
        return value[2] * 100 + value[3]


def read(contents: bytes) -> Message | None:
    """Reads a STUN message, or returns None: it is none, or cut wrongly."""
    if len(contents) < HEADER or contents[0] >= 0x40:
        return None
    kind, length, cookie = unpack_from("!HHI", contents)
    if cookie != COOKIE or length != len(contents) - HEADER or length % 4:
        return None
    message = Message(kind & ~0x110, kind & 0x110, contents[8:HEADER])
    at = HEADER
    while at < len(contents):
        if at + 4 > len(contents):
            return None
        attribute, size = unpack_from("!HH", contents, at)
        end = at + 4 + size + -size % 4
        if end > len(contents):
            return None
        if MESSAGE_INTEGRITY not in message.values:
            message.values.setdefault(attribute, contents[at + 4 : at + 4 + size])
            if attribute == MESSAGE_INTEGRITY:  # signed as if it were the last attribute
                message.signed = pack("!HH", kind, end - HEADER) + contents[4:at]
        at = end
    return message


def written(method: int, kind: int, transaction: bytes, rows: list[tuple[int, bytes]], key: bytes | None = None) -> bytes:
    """Writes a message, signed if there is a key."""
    body = b"".join(pack("!HH", attribute, len(value)) + value + bytes(-len(value) % 4) for attribute, value in rows)
    if key is None:
        return pack("!HHI", method | kind, len(body), COOKIE) + transaction + body
    signed = pack("!HHI", method | kind, len(body) + 24, COOKIE) + transaction + body
    return signed + pack("!HH", MESSAGE_INTEGRITY, 20) + hmac.new(key, signed, hashlib.sha1).digest()


def xor_address(address: SocketAddress, transaction: bytes) -> bytes:
    """Writes an XOR address."""
    ip = ipaddress.ip_address(address.ip)
    return pack("!BBH", 0, FAMILIES[ip.version], address.port ^ COOKIE >> 16) + _xored(ip.packed, transaction)


def _xored(ip: bytes, transaction: bytes) -> bytes:
    return bytes(a ^ b for a, b in zip(ip, pack("!I", COOKIE) + transaction))


def channel_data(number: int, contents: bytes) -> bytes:
    """Writes ChannelData for UDP (RFC 8656, section 12.4)."""
    return pack("!HH", number, len(contents)) + contents


def read_channel_data(contents: bytes) -> tuple[int, bytes] | None:
    """Returns the channel number and the data, or None: it is no ChannelData. Padding is allowed over UDP, too (section 12.5)."""
    if len(contents) < 4 or not 0x40 <= contents[0] <= 0x4F:
        return None
    number, length = unpack_from("!HH", contents)
    return (number, contents[4 : 4 + length]) if 4 + length <= len(contents) else None
