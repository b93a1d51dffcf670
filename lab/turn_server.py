"""A TURN server: bytes in, bytes out, with the time as an argument. It is strict by RFC 8656, and has no code of the library.

Nothing lasts a nanosecond longer than the server says, and a permission is required of all data, also on a channel (sections 9 and 12).
"""

from __future__ import annotations

import hashlib
from collections import Counter
from dataclasses import dataclass, field
from random import Random
from struct import pack

from is_ice import SocketAddress

from . import turn_bytes as b
from .clock import SECOND
from .turn_bytes import Message

USER, PASSWORD, REALM = "user", "secret", "example.org"
KEY = hashlib.md5(f"{USER}:{REALM}:{PASSWORD}".encode()).digest()
UDP = 17
CHANNELS = range(0x4000, 0x5000)
GUARD = 300 * SECOND  # for so long a channel whose time is over is not bound to another peer (section 12)
# The attributes that the server knows: a request with another one that is not optional fails with 420.
KNOWN = {b.USERNAME, b.MESSAGE_INTEGRITY, b.CHANNEL_NUMBER, b.LIFETIME, b.XOR_PEER_ADDRESS, b.DATA_VALUE, b.REALM, b.NONCE,
         b.REQUESTED_ADDRESS_FAMILY, b.REQUESTED_TRANSPORT}


@dataclass(frozen=True)
class Lifetimes:
    """How long allocations, permissions and channels last, in nanoseconds: by default as RFC 8656 says (sections 3.2, 9 and 12)."""

    allocation: int = 600 * SECOND
    permission: int = 300 * SECOND
    channel: int = 600 * SECOND
    nonce: int = 60 * SECOND


@dataclass(frozen=True)
class Sent:
    """A datagram that the server sends, from its own address or a relayed one."""

    source: SocketAddress
    destination: SocketAddress
    contents: bytes


@dataclass(frozen=True)
class Refusal:
    """Data that the server dropped, of a client for a peer or of a peer for a client."""

    time: int
    client: SocketAddress
    peer: SocketAddress | None
    kind: str  # Send, ChannelData or peer
    why: str


@dataclass
class Allocation:
    """A relayed address. Permissions have their end, by IP address; channels their peer and their end, by number."""

    transaction: bytes
    relayed: SocketAddress
    end: int
    permissions: dict[str, int] = field(default_factory=dict)
    channels: dict[int, tuple[SocketAddress, int]] = field(default_factory=dict)


class TurnServer:
    """A server with one user. `refused` has the data that it dropped, `counts` its responses, `forbidden` the IP addresses that it bars."""

    def __init__(self, address: SocketAddress, random: Random, lifetimes: Lifetimes = Lifetimes(), first_port: int = 50000) -> None:
        self.address, self.lifetimes, self._random = address, lifetimes, random
        self.allocations: dict[SocketAddress, Allocation] = {}  # by client
        self.refused: list[Refusal] = []
        self.counts: Counter[str] = Counter()
        self.forbidden: set[str] = set()
        self._clients: dict[SocketAddress, SocketAddress] = {}  # by relayed address
        self._nonces: dict[bytes, int] = {}
        self._ports = first_port

    # ---- what arrives

    def receive(self, now: int, client: SocketAddress, contents: bytes) -> list[Sent]:
        """Takes a datagram of a client."""
        if (allocation := self.allocations.get(client)) and now >= allocation.end:
            self._free(client)
        if (framed := b.read_channel_data(contents)) is not None:
            return self._from_channel(now, client, *framed)
        message = b.read(contents)
        if message is None:
            return []
        if (message.method, message.kind) == (b.SEND, b.INDICATION):
            return self._from_indication(now, client, message)
        if message.kind != b.REQUEST:
            return []
        response = self._respond(now, client, message)
        answered = b.read(response)
        assert answered is not None
        self.counts[f"{b.NAMES.get(message.method, message.method)} {answered.code or 'success'}"] += 1
        return [Sent(self.address, client, response)]

    def receive_from_peer(self, now: int, relayed: SocketAddress, peer: SocketAddress, contents: bytes) -> list[Sent]:
        """Takes a datagram for a relayed address (sections 11.3 and 12.7)."""
        client = self._clients.get(relayed)
        if client is None:
            return []
        allocation = self.allocations[client]
        if why := self._bar(now, allocation, peer):
            self.refused.append(Refusal(now, client, peer, "peer", why))
            return []
        for number, (bound, end) in allocation.channels.items():
            if bound == peer and now < end:
                return [Sent(self.address, client, b.channel_data(number, contents))]
        transaction = self._random.randbytes(12)
        rows = [(b.XOR_PEER_ADDRESS, b.xor_address(peer, transaction)), (b.DATA_VALUE, contents)]
        return [Sent(self.address, client, b.written(b.DATA, b.INDICATION, transaction, rows))]

    def _from_channel(self, now: int, client: SocketAddress, number: int, contents: bytes) -> list[Sent]:
        allocation = self.allocations.get(client)
        peer, end = allocation.channels.get(number, (None, 0)) if allocation else (None, 0)
        if allocation is None or peer is None or now >= end:
            self.refused.append(Refusal(now, client, peer, "ChannelData", "no channel"))
            return []
        return self._to_peer(now, client, allocation, peer, contents, "ChannelData")

    def _from_indication(self, now: int, client: SocketAddress, message: Message) -> list[Sent]:
        allocation, peer = self.allocations.get(client), message.address(b.XOR_PEER_ADDRESS)
        if allocation is None or peer is None or b.DATA_VALUE not in message.values:
            self.refused.append(Refusal(now, client, peer, "Send", "no allocation" if peer else "no peer"))
            return []
        return self._to_peer(now, client, allocation, peer, message.values[b.DATA_VALUE], "Send")

    def _to_peer(self, now: int, client: SocketAddress, allocation: Allocation, peer: SocketAddress, contents: bytes,
                 kind: str) -> list[Sent]:
        if why := self._bar(now, allocation, peer):
            self.refused.append(Refusal(now, client, peer, kind, why))
            return []
        return [Sent(allocation.relayed, peer, contents)]

    def _bar(self, now: int, allocation: Allocation, peer: SocketAddress) -> str:
        """Why no data of this peer passes, or nothing."""
        if now >= allocation.end:
            return "no allocation"
        return "" if now < allocation.permissions.get(peer.ip, -1) else "no permission"

    # ---- requests

    def _respond(self, now: int, client: SocketAddress, message: Message) -> bytes:
        if message.method == b.BINDING:
            return self._success(message, [(b.XOR_MAPPED_ADDRESS, b.xor_address(client, message.transaction))], None)
        if (code := self._challenge(now, message)) is not None:
            rows = [(b.REALM, REALM.encode()), (b.NONCE, self._nonce(now))]
            return self._failure(message, code, rows, None)
        if unknown := [a for a in message.values if a < b.OPTIONAL and a not in KNOWN]:
            return self._failure(message, 420, [(b.UNKNOWN_ATTRIBUTES, b"".join(pack("!H", a) for a in unknown))])
        answers = {b.ALLOCATE: self._allocate, b.REFRESH: self._refresh, b.CREATE_PERMISSION: self._permit, b.CHANNEL_BIND: self._bind}
        answer = answers.get(message.method)
        told = answer(now, client, message) if answer else 400
        return self._failure(message, told, []) if isinstance(told, int) else self._success(message, told)

    def _challenge(self, now: int, message: Message) -> int | None:
        """The error of a request that is not signed, or whose nonce is stale (RFC 8489, section 9.2.4)."""
        if b.MESSAGE_INTEGRITY not in message.values:
            return 401
        if not all(a in message.values for a in (b.USERNAME, b.REALM, b.NONCE)):
            return 400
        if message.values[b.USERNAME] != USER.encode() or message.values[b.REALM] != REALM.encode() or not message.is_by(KEY):
            return 401
        return None if now < self._nonces.get(message.values[b.NONCE], -1) else 438

    def _allocate(self, now: int, client: SocketAddress, message: Message) -> list[tuple[int, bytes]] | int:
        """Section 7.2. A repeated request gets the same response."""
        allocation = self.allocations.get(client)
        if allocation is not None and allocation.transaction != message.transaction:
            return 437
        transport = message.values.get(b.REQUESTED_TRANSPORT)
        if transport is None or len(transport) != 4:
            return 400
        if transport[0] != UDP:
            return 442
        family = message.values.get(b.REQUESTED_ADDRESS_FAMILY, b"\x01")[0]
        if family != b.FAMILIES[self.address.version]:
            return 440
        if allocation is None:
            allocation = Allocation(message.transaction, SocketAddress(self.address.ip, self._ports), now + self.lifetimes.allocation)
            self._ports += 1
            self.allocations[client], self._clients[allocation.relayed] = allocation, client
        id = message.transaction
        return [(b.XOR_RELAYED_ADDRESS, b.xor_address(allocation.relayed, id)), (b.LIFETIME, self._lifetime()),
                (b.XOR_MAPPED_ADDRESS, b.xor_address(client, id))]

    def _refresh(self, now: int, client: SocketAddress, message: Message) -> list[tuple[int, bytes]] | int:
        """Section 8.2."""
        allocation = self.allocations.get(client)
        if message.number(b.LIFETIME) == 0:
            if allocation is not None:
                self._free(client)
            return [(b.LIFETIME, bytes(4))]
        if allocation is None:
            return 437
        allocation.end = now + self.lifetimes.allocation
        return [(b.LIFETIME, self._lifetime())]

    def _permit(self, now: int, client: SocketAddress, message: Message) -> list[tuple[int, bytes]] | int:
        """Section 10.2, for one peer in a request."""
        allocation, peer = self.allocations.get(client), message.address(b.XOR_PEER_ADDRESS)
        if (code := self._peer_error(allocation, peer)) or allocation is None or peer is None:
            return code
        allocation.permissions[peer.ip] = now + self.lifetimes.permission
        return []

    def _bind(self, now: int, client: SocketAddress, message: Message) -> list[tuple[int, bytes]] | int:
        """Section 12.2. It permits the peer, too."""
        allocation, peer = self.allocations.get(client), message.address(b.XOR_PEER_ADDRESS)
        if (code := self._peer_error(allocation, peer)) or allocation is None or peer is None:
            return code
        number = int.from_bytes(message.values.get(b.CHANNEL_NUMBER, b"")[:2], "big")
        held = {n: p for n, (p, end) in allocation.channels.items() if now < end + GUARD}
        if number not in CHANNELS or held.get(number, peer) != peer or any(p == peer and n != number for n, p in held.items()):
            return 400
        allocation.channels[number] = peer, now + self.lifetimes.channel
        allocation.permissions[peer.ip] = now + self.lifetimes.permission
        return []

    def _peer_error(self, allocation: Allocation | None, peer: SocketAddress | None) -> int:
        if allocation is None:
            return 437
        if peer is None:
            return 400
        if peer.version != allocation.relayed.version:
            return 443
        return 403 if peer.ip in self.forbidden else 0

    # ---- what is kept and written

    def _free(self, client: SocketAddress) -> None:
        del self._clients[self.allocations.pop(client).relayed]

    def _nonce(self, now: int) -> bytes:
        nonce = self._random.randbytes(8).hex().encode()
        self._nonces[nonce] = now + self.lifetimes.nonce
        return nonce

    def _lifetime(self) -> bytes:
        return pack("!I", self.lifetimes.allocation // SECOND)

    def _success(self, message: Message, rows: list[tuple[int, bytes]], key: bytes | None = KEY) -> bytes:
        return b.written(message.method, b.SUCCESS, message.transaction, rows, key)

    def _failure(self, message: Message, code: int, rows: list[tuple[int, bytes]], key: bytes | None = KEY) -> bytes:
        error = pack("!BBBB", 0, 0, *divmod(code, 100))
        return b.written(message.method, b.FAILURE, message.transaction, [(b.ERROR_CODE, error), *rows], key)
