"""The addresses of the machine's interfaces, from getifaddrs of the C library (Linux)."""

from __future__ import annotations

import ctypes
import ipaddress
import os
import socket
from collections.abc import Iterator
from ctypes import byref

from ._library import library
from .address import SocketAddress, address_of
from .errors import done

_UP, _LOOPBACK = 0x1, 0x8
# Where an address is in its sockaddr, and its length, by family.
_PLACES: dict[int, tuple[int, int]] = {socket.AF_INET: (4, 4), socket.AF_INET6: (8, 16)}


class _Interface(ctypes.Structure):
    """struct ifaddrs."""


_Interface._fields_ = [
    ("next", ctypes.POINTER(_Interface)), ("name", ctypes.c_char_p), ("flags", ctypes.c_uint), ("address", ctypes.c_void_p),
    ("netmask", ctypes.c_void_p), ("broadcast", ctypes.c_void_p), ("data", ctypes.c_void_p)]


def _addresses() -> Iterator[tuple[int, bytes]]:
    """Finds the flags and the address of each interface, for each of its addresses."""
    system = ctypes.CDLL(None, use_errno=True)
    first = ctypes.POINTER(_Interface)()
    if system.getifaddrs(ctypes.byref(first)):
        raise OSError(ctypes.get_errno(), os.strerror(ctypes.get_errno()))
    try:
        at = first
        while at:
            told = at.contents
            if told.address:
                start, length = _PLACES.get(ctypes.c_uint16.from_address(told.address).value, (0, 0))
                if length:
                    yield told.flags, ctypes.string_at(told.address + start, length)
            at = told.next
    finally:
        system.freeifaddrs(first)


def host_addresses(use_ipv4: bool = True, use_ipv6: bool = True) -> list[str]:
    """Returns the addresses for host candidates: of each interface that is up and no loopback, without those that none should have (RFC
    8445, section 5.1.1.1), as link-local ones."""
    found: dict[str, None] = {}
    for flags, packed in _addresses():
        ip = ipaddress.ip_address(packed)
        usable = flags & _UP and not flags & _LOOPBACK
        if usable and (use_ipv4 if ip.version == 4 else use_ipv6) and _is_host_address(str(ip)):
            found[str(ip)] = None
    return list(found)


def _is_host_address(ip: str) -> bool:
    return done(library.calls.is_ice_is_host_address(byref(address_of(SocketAddress(ip, 0)))))
