"""Transport addresses and protocols, and their conversion to and from the library's structs."""

from __future__ import annotations

import ctypes
import enum
import ipaddress
from collections.abc import Callable
from functools import lru_cache
from typing import NamedTuple, TypeVar

from . import _abi

K = TypeVar("K")
V = TypeVar("V")


class Protocol(enum.IntEnum):
    """The transport protocol of a candidate's packets."""

    UDP = _abi.UDP
    TCP = _abi.TCP
    SSL_TCP = _abi.SSL_TCP
    TLS = _abi.TLS


PROTOCOLS = tuple(Protocol)  # by number: a subscript takes less time than `Protocol(number)`
_MOST = 1 << 14  # addresses whose conversion is kept


class SocketAddress(NamedTuple):
    """An IP address and a port, as in the `socket` module. `flow` and `scope` are the flow information and scope ID of IPv6."""

    ip: str
    port: int
    flow: int = 0
    scope: int = 0

    @property
    def version(self) -> int:
        """The IP version: 4 or 6."""
        return 6 if ":" in self.ip else 4

    def __str__(self) -> str:
        return f"[{self.ip}]:{self.port}" if ":" in self.ip else f"{self.ip}:{self.port}"


def in_range(value: int, bits: int, what: str) -> int:
    """Returns the value if it fits into this number of bits, which ctypes does not check. ValueError otherwise."""
    if not 0 <= value < 1 << bits:
        raise ValueError(f"{what} must be from 0 to {(1 << bits) - 1}, not {value}")
    return value


@lru_cache(maxsize=_MOST)
def address_of(socket: SocketAddress) -> _abi.Address:
    """Converts to the library's struct, which is cached because no call writes it. ValueError if it is not an IP address."""
    ip = ipaddress.ip_address(socket.ip.split("%")[0])
    address = _abi.Address()
    address.family = ip.version
    address.bytes[: len(ip.packed)] = list(ip.packed)
    address.port = in_range(socket.port, 16, "a port")
    address.flow = in_range(socket.flow, 32, "flow information")
    address.scope = in_range(socket.scope, 32, "a scope")
    return address


def socket_of(address: _abi.Address) -> SocketAddress:
    """Converts from the library's struct."""
    return _socket_of_bytes(bytes(address))


@lru_cache(maxsize=_MOST)
def _socket_of_bytes(told: bytes) -> SocketAddress:
    address = _abi.Address.from_buffer_copy(told)
    packed = bytes(address.bytes)
    if address.family == 4:
        return SocketAddress(str(ipaddress.IPv4Address(packed[:4])), address.port)
    return SocketAddress(str(ipaddress.IPv6Address(packed)), address.port, address.flow, address.scope)


class _Kept(dict[K, V]):
    """What a function returned for a key: a subscript takes less time than `lru_cache`. It forgets all when it is full."""

    def __init__(self, function: Callable[[K], V]) -> None:
        super().__init__()
        self._function = function

    def __missing__(self, key: K) -> V:
        if len(self) >= _MOST:
            self.clear()
        value = self[key] = self._function(key)
        return value


def _path_of(addresses: bytes) -> tuple[SocketAddress, SocketAddress]:
    half = len(addresses) // 2
    return _socket_of_bytes(addresses[:half]), _socket_of_bytes(addresses[half:])


# A pointer to the library's struct of an address, for a call whose arguments ctypes does not convert.
POINTERS: _Kept[SocketAddress, object] = _Kept(lambda socket: ctypes.byref(address_of(socket)))
# A source and a destination by the bytes of their structs, one after the other.
PATHS: _Kept[bytes, tuple[SocketAddress, SocketAddress]] = _Kept(_path_of)
