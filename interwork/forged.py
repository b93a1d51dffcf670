"""Ten kinds of forged datagrams. Who sends them knows the USERNAME and both addresses of a session, but no password."""
import secrets
import socket
import struct
import zlib

COOKIE = 0x2112A442
REQUEST, INDICATION, SUCCESS, ERROR = 0x0001, 0x0011, 0x0101, 0x0111
USERNAME, MESSAGE_INTEGRITY, ERROR_CODE, XOR_MAPPED_ADDRESS = 0x0006, 0x0008, 0x0009, 0x0020
PRIORITY, USE_CANDIDATE, SOFTWARE, FINGERPRINT, ICE_CONTROLLED, ICE_CONTROLLING = 0x0024, 0x0025, 0x8022, 0x8028, 0x8029, 0x802A
LARGEST = 65507  # bytes in a UDP datagram over IPv4


def header(kind, length):
    return struct.pack("!HHI", kind, length, COOKIE)


def attribute(kind, value):
    return struct.pack("!HH", kind, len(value)) + value + bytes(-len(value) % 4)


def message(kind, attributes, with_mac=True):
    """A STUN message with random bytes as its MESSAGE-INTEGRITY, and a correct FINGERPRINT."""
    transaction, body = secrets.token_bytes(12), b"".join(attributes)
    if with_mac:
        body += attribute(MESSAGE_INTEGRITY, secrets.token_bytes(20))
    crc = zlib.crc32(header(kind, len(body) + 8) + transaction + body) ^ 0x5354554E
    body += attribute(FINGERPRINT, struct.pack("!I", crc))
    return header(kind, len(body)) + transaction + body


def request(user, more=(), **options):
    role = secrets.choice((ICE_CONTROLLED, ICE_CONTROLLING))
    fields = [attribute(USERNAME, user.encode()), attribute(PRIORITY, struct.pack("!I", 0x6E7F00FF))]
    return message(REQUEST, [*fields, attribute(role, secrets.token_bytes(8)), *more], **options)


def mapped(address):
    """XOR-MAPPED-ADDRESS of an IPv4 address."""
    ip, port = address
    number = struct.unpack("!I", socket.inet_aton(ip))[0] ^ COOKIE
    return attribute(XOR_MAPPED_ADDRESS, struct.pack("!BBHI", 0, 1, port ^ (COOKIE >> 16), number))


def error_487():
    return message(ERROR, [attribute(ERROR_CODE, struct.pack("!HBB", 0, 4, 87))], secrets.choice((True, False)))


def random_bytes(number):
    """Random bytes, half of them after the header of a request."""
    if number % 2:
        return secrets.token_bytes(1 + number % 1400)
    length = 4 * (number % 300)
    return header(REQUEST, length) + secrets.token_bytes(12 + length)


def large(number):
    """300 attributes, or the largest datagrams."""
    if number % 3 == 0:
        return message(REQUEST, [attribute(0x8000 + i, b"") for i in range(300)])
    if number % 3 == 1:
        return (header(REQUEST, 65484) + secrets.token_bytes(12) + attribute(SOFTWARE, b"") * 16372)[:LARGEST]
    return secrets.token_bytes(LARGEST)


def kinds(user, other, count=2000):
    """Datagrams of each kind, by name. `user` is the USERNAME of checks to the agent, `other` the peer's address."""
    def every(make, number=count):
        return [make(i) for i in range(number)]

    return {
        "requests with a wrong MAC": every(lambda _: request(user)),
        "the same with USE-CANDIDATE": every(lambda _: request(user, [attribute(USE_CANDIDATE, b"")])),
        "requests without a MAC": every(lambda _: request(user, with_mac=False)),
        "requests to another agent": every(lambda _: request("abcd:efgh")),
        "success responses": every(lambda _: message(SUCCESS, [mapped(other)])),
        "error responses 487": every(lambda _: error_487()),
        "indications": every(lambda i: message(INDICATION, [], i % 2 == 0)),
        "requests that are cut short": every(lambda i: request(user)[:1 + i % 100]),
        "random bytes": every(random_bytes),
        "large datagrams": every(large, 30),
    }
