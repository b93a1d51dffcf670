"""A strict TURN server for tests (RFC 8656): in the time that a test passes, or over loopback.

It reads and writes STUN itself. What it granted ends to the nanosecond, and it drops whatever is not permitted. It has the long-term
credentials of `USER`.
"""

from __future__ import annotations

import asyncio
import contextlib
import hashlib
import hmac
import os
import socket
import struct
import zlib
from collections.abc import Callable
from dataclasses import dataclass, field
from ipaddress import ip_address
from typing import Any

Address = tuple[str, int]
SECOND = 10**9
USER, PASSWORD, REALM = "user", "secret", "example.org"
KEY = hashlib.md5(f"{USER}:{REALM}:{PASSWORD}".encode()).digest()  # RFC 8489, section 9.2.2

_MAGIC = b"\x21\x12\xa4\x42"
BINDING, ALLOCATE, REFRESH, SEND, DATA, PERMIT, BIND = 1, 3, 4, 6, 7, 8, 9
_REQUEST, _INDICATION, _SUCCESS, _FAILURE = 0x000, 0x010, 0x100, 0x110
_INTEGRITY, _ERROR, _NUMBER, _LIFETIME, _PEER, _DATA, _REALM, _NONCE = 0x8, 0x9, 0xC, 0xD, 0x12, 0x13, 0x14, 0x15
_RELAYED, _FAMILY, _TRANSPORT, _MAPPED, _ALTERNATE, _FINGERPRINT = 0x16, 0x17, 0x19, 0x20, 0x8023, 0x8028


def _xored(ip: bytes, transaction: bytes) -> bytes:
    return bytes(a ^ b for a, b in zip(ip, _MAGIC + transaction))


def _address(value: bytes, transaction: bytes) -> Address:
    return str(ip_address(_xored(value[4:], transaction))), int.from_bytes(value[2:4], "big") ^ 0x2112


def _value(address: Address, transaction: bytes) -> bytes:
    ip = ip_address(address[0]).packed
    return struct.pack("!BBH", 0, 1 if len(ip) == 4 else 2, address[1] ^ 0x2112) + _xored(ip, transaction)


def _written(kind: int, transaction: bytes, rows: list[tuple[int, bytes]], key: bytes | None) -> bytes:
    body = b"".join(struct.pack("!HH", code, len(value)) + value + bytes(-len(value) % 4) for code, value in rows)

    def header(length: int) -> bytes:
        return struct.pack("!HH", kind, length) + _MAGIC + transaction

    if key:
        body += struct.pack("!HH", _INTEGRITY, 20) + hmac.digest(key, header(len(body) + 24) + body, "sha1")
    text = header(len(body) + 8) + body
    return text + struct.pack("!HHI", _FINGERPRINT, 4, zlib.crc32(text) ^ 0x5354554E)


class Request:
    """A message of a client. `is_signed`: under `KEY`."""

    def __init__(self, data: bytes) -> None:
        kind, self.transaction = int.from_bytes(data[:2], "big"), data[8:20]
        self.method, self.kind = kind & 0x3EEF, kind & 0x110
        self.values: dict[int, bytes] = {}
        self.is_signed = False
        place = 20
        while place < len(data):
            code, length = struct.unpack_from("!HH", data, place)
            value = data[place + 4 : place + 4 + length]
            if code == _INTEGRITY:
                text = data[:2] + struct.pack("!H", place + 4) + data[4:place]
                self.is_signed = hmac.compare_digest(value, hmac.digest(KEY, text, "sha1"))
                break
            self.values[code] = value
            place += 4 + (length + 3) // 4 * 4

    @property
    def peer(self) -> Address:
        """XOR-PEER-ADDRESS."""
        return _address(self.values[_PEER], self.transaction)


@dataclass
class Allocation:
    """What the server granted to a client: ends are times."""

    relayed: Address
    transaction: bytes
    until: int
    permissions: dict[str, int] = field(default_factory=dict)
    channels: dict[int, tuple[Address, int]] = field(default_factory=dict)

    def permits(self, now: int, peer: Address) -> bool:
        """Whether the IP address of a peer has a permission."""
        return self.permissions.get(peer[0], 0) > now

    def number_of(self, now: int, peer: Address) -> int | None:
        """The channel of a peer."""
        return next((number for number, (bound, until) in self.channels.items() if bound == peer and until > now), None)


class StrictServer:
    """The server. `new_relay` returns a new relayed address, `refused` has IP addresses of peers that are not let in (403).

    `requests` counts by method, `dropped` is what was not permitted, `channel_data` and `indications` count data by how it came.
    """

    def __init__(self, new_relay: Callable[[Address, int], Address], stale: int = 60 * SECOND, lifetime: int = 600) -> None:
        self._new_relay, self._stale, self._lifetime = new_relay, stale, lifetime
        self._nonces: dict[bytes, int] = {}
        self.allocations: dict[Address, Allocation] = {}
        self.refused: set[str] = set()
        self.requests: dict[int, int] = {}
        self.dropped: list[str] = []
        self.channel_data = self.indications = self.freed = self.stale_nonces = 0

    def handle(self, now: int, source: Address, data: bytes) -> tuple[bytes | None, tuple[Address, Address, bytes] | None]:
        """Takes what a client sent. Returns the response, and data with the relayed address and the peer that it goes to."""
        self.allocations = {client: it for client, it in self.allocations.items() if it.until > now}
        mine = self.allocations.get(source)
        if data[0] >> 6 == 1:
            return None, self._of_channel(now, mine, data)
        message = Request(data)
        if (message.method, message.kind) == (SEND, _INDICATION):
            return None, self._of_indication(now, mine, message)
        if message.kind != _REQUEST:
            return None, None
        self.requests[message.method] = self.requests.get(message.method, 0) + 1
        if message.method == BINDING:
            return _written(BINDING | _SUCCESS, message.transaction, [(_MAPPED, _value(source, message.transaction))], None), None
        if not message.is_signed:
            return self._challenge(now, message, 401), None
        if now - self._nonces.get(message.values[_NONCE], -1 << 62) >= self._stale:
            self.stale_nonces += 1
            return self._challenge(now, message, 438), None
        return self._serve(now, source, mine, message), None

    def _challenge(self, now: int, message: Request, code: int) -> bytes:
        nonce = os.urandom(8).hex().encode()
        self._nonces[nonce] = now
        return self._error(message, code, [(_REALM, REALM.encode()), (_NONCE, nonce)], None)

    def _error(self, message: Request, code: int, rows: list[tuple[int, bytes]], key: bytes | None) -> bytes:
        return _written(message.method | _FAILURE, message.transaction, [(_ERROR, bytes([0, 0, code // 100, code % 100])), *rows], key)

    def _serve(self, now: int, source: Address, mine: Allocation | None, message: Request) -> bytes:
        def done(*rows: tuple[int, bytes]) -> bytes:
            return _written(message.method | _SUCCESS, message.transaction, list(rows), KEY)

        lifetime = struct.pack("!I", self._lifetime)
        if message.method == ALLOCATE:
            if mine and mine.transaction != message.transaction:
                return self._error(message, 437, [], KEY)
            if not mine:
                family = {b"\2": 6}.get(message.values.get(_FAMILY, b"\1")[:1], 4)
                mine = Allocation(self._new_relay(source, family), message.transaction, now + self._lifetime * SECOND)
                self.allocations[source] = mine
            return done((_RELAYED, _value(mine.relayed, message.transaction)), (_LIFETIME, lifetime),
                        (_MAPPED, _value(source, message.transaction)))
        if message.method == REFRESH and message.values.get(_LIFETIME) == bytes(4):
            self.freed += self.allocations.pop(source, None) is not None
            return done((_LIFETIME, bytes(4)))
        if not mine:
            return self._error(message, 437, [], KEY)
        if message.method == REFRESH:
            mine.until = now + self._lifetime * SECOND
            return done((_LIFETIME, lifetime))
        if message.peer[0] in self.refused:
            return self._error(message, 403, [], KEY)
        if message.method == BIND:
            mine.channels[int.from_bytes(message.values[_NUMBER][:2], "big")] = message.peer, now + 600 * SECOND
        mine.permissions[message.peer[0]] = now + 300 * SECOND
        return done()

    def _of_channel(self, now: int, mine: Allocation | None, data: bytes) -> tuple[Address, Address, bytes] | None:
        number, length = struct.unpack_from("!HH", data)
        peer, until = mine.channels.get(number, (("", 0), 0)) if mine else (("", 0), 0)
        if mine is None or until <= now or not mine.permits(now, peer):
            self.dropped.append("ChannelData")
            return None
        self.channel_data += 1
        return mine.relayed, peer, data[4 : 4 + length]

    def _of_indication(self, now: int, mine: Allocation | None, message: Request) -> tuple[Address, Address, bytes] | None:
        if mine is None or not mine.permits(now, message.peer):
            self.dropped.append("Send")
            return None
        self.indications += 1
        return mine.relayed, message.peer, message.values[_DATA]

    def from_peer(self, now: int, relayed: Address, peer: Address, data: bytes) -> tuple[Address, bytes] | None:
        """Takes what a peer sent to a relayed address. Returns the client and what it gets."""
        for client, it in self.allocations.items():
            if it.relayed == relayed and it.until > now and it.permits(now, peer):
                if number := it.number_of(now, peer):
                    return client, struct.pack("!HH", number, len(data)) + data
                transaction = os.urandom(12)
                return client, _written(DATA | _INDICATION, transaction, [(_PEER, _value(peer, transaction)), (_DATA, data)], None)
        self.dropped.append("from a peer")
        return None

    def forget(self) -> None:
        """Restarts: it knows no allocation and no nonce."""
        self.allocations.clear()
        self._nonces.clear()


class _Relay(asyncio.DatagramProtocol):
    """The socket of a relayed address."""

    def __init__(self, server: TurnServer) -> None:
        self._server = server

    def connection_made(self, transport: Any) -> None:
        self.transport = transport

    def datagram_received(self, data: bytes, addr: tuple[str, int]) -> None:
        relayed = self.transport.get_extra_info("sockname")[:2]
        if told := self._server.strict.from_peer(self._server.now(), relayed, addr[:2], data):
            self._server.transport.sendto(told[1], told[0])


class TurnServer(asyncio.DatagramProtocol):
    """The server over UDP on loopback. `strict` is the server itself. `lets` says which datagrams of clients arrive."""

    def __init__(self, **more: Any) -> None:
        self.strict = StrictServer(self._open, **more)
        self.lets: Callable[[bytes], bool] = lambda data: True
        self._relays: dict[Address, _Relay] = {}
        self.transport: Any = None

    def now(self) -> int:
        """The time of the event loop."""
        return round(asyncio.get_running_loop().time() * 1e9)

    async def start(self) -> Address:
        """Binds a socket, and returns its address."""
        self.transport, _ = await asyncio.get_running_loop().create_datagram_endpoint(lambda: self, local_addr=("127.0.0.1", 0))
        host, port = self.transport.get_extra_info("sockname")
        return host, port

    def _open(self, client: Address, family: int) -> Address:
        bound = socket.socket(socket.AF_INET, socket.SOCK_DGRAM)
        bound.bind(("127.0.0.1", 0))
        bound.setblocking(False)
        relay = _Relay(self)
        host, port = bound.getsockname()
        self._relays[host, port] = relay
        asyncio.ensure_future(asyncio.get_running_loop().create_datagram_endpoint(lambda: relay, sock=bound))
        return host, port

    def datagram_received(self, data: bytes, addr: tuple[str, int]) -> None:
        if not self.lets(data):
            return
        response, sent = self.strict.handle(self.now(), addr[:2], data)
        if response:
            self.transport.sendto(response, addr)
        if sent:
            relayed, peer, contents = sent
            self._relays[relayed].transport.sendto(contents, peer)

    @property
    def urls(self) -> dict[str, Any]:
        """The server as a value of `iceServers`."""
        host, port = self.transport.get_extra_info("sockname")
        return {"urls": f"turn:{host}:{port}", "username": USER, "credential": PASSWORD}

    def close(self) -> None:
        for relay in self._relays.values():
            relay.transport.close()
        self.transport.close()


class TcpTurnServer(TurnServer):
    """The server over TCP on loopback. With `alternate` it redirects each client to that address, by a 300 that nobody signed."""

    def __init__(self, alternate: Address | None = None, **more: Any) -> None:
        super().__init__(**more)
        self.frames = 0
        self._alternate = alternate
        self._clients: dict[Address, asyncio.StreamWriter] = {}
        self._listening: Any = None

    async def start(self) -> Address:
        """Listens, and returns its address."""
        self.transport = self
        self._listening = await asyncio.start_server(self._serve, "127.0.0.1", 0)
        host, port = self._listening.sockets[0].getsockname()
        return host, port

    async def _serve(self, reader: asyncio.StreamReader, writer: asyncio.StreamWriter) -> None:
        client = writer.get_extra_info("peername")[:2]
        self._clients[client] = writer
        with contextlib.suppress(asyncio.IncompleteReadError, ConnectionError):
            while True:
                head = await reader.readexactly(4)
                length = int.from_bytes(head[2:], "big")
                rest = await reader.readexactly(16 + length if head[0] < 4 else (length + 3) // 4 * 4)
                self.frames += 1
                self.datagram_received(head + rest, client)
        self._clients.pop(client).close()

    def datagram_received(self, data: bytes, addr: tuple[str, int]) -> None:
        """Takes a frame."""
        if self._alternate:
            host, port = self._alternate
            value = struct.pack("!BBH", 0, 1, port) + ip_address(host).packed
            self.sendto(_written(ALLOCATE | _FAILURE, data[8:20], [(_ERROR, bytes([0, 0, 3, 0])), (_ALTERNATE, value)], None), addr)
        else:
            super().datagram_received(data, addr)

    def sendto(self, data: bytes, client: Address) -> None:
        """Writes a frame, with padding."""
        if writer := self._clients.get(client):
            writer.write(data + bytes(-len(data) % 4))

    def close(self) -> None:
        """Ends the connections too."""
        for relay in self._relays.values():
            relay.transport.close()
        for writer in self._clients.values():
            writer.close()
        self._listening.close()
