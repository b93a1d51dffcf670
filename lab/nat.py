"""A NAT (RFC 4787): its mapping, its filtering and its timeout."""

from __future__ import annotations

import enum
from dataclasses import dataclass, field
from random import Random

from is_ice import SocketAddress

from .clock import SECOND


class Behavior(enum.Enum):
    """The behavior of mapping (RFC 4787, section 4.1) and of filtering (section 5)."""

    ENDPOINT = "endpoint-independent"
    ADDRESS = "address-dependent"
    ADDRESS_AND_PORT = "address-and-port-dependent"

    def key(self, remote: SocketAddress) -> tuple[object, ...]:
        """Returns the part of the remote address that the behavior depends on."""
        if self is Behavior.ENDPOINT:
            return ()
        return (remote.ip,) if self is Behavior.ADDRESS else (remote.ip, remote.port)


@dataclass(frozen=True)
class NatSettings:
    """The settings of a NAT. `outside` is its address in the outer network."""

    outside: str
    mapping: Behavior = Behavior.ENDPOINT
    filtering: Behavior = Behavior.ADDRESS_AND_PORT
    hairpinning: bool = True
    timeout_s: float = 120.0  # how long a mapping stays without an outgoing packet (section 4.3)
    inbound_refresh: bool = False  # incoming packets refresh a mapping too
    preserves_ports: bool = True  # the outside port is the inside one if that is free (section 4.2.1)


@dataclass
class _Mapping:
    inside: SocketAddress
    port: int
    used: int
    # the remotes that pass the filter, with the time of the last packet
    remotes: dict[tuple[object, ...], int] = field(default_factory=dict)


class Nat:
    """Translates the source of outgoing packets and the destination of incoming ones."""

    def __init__(self, settings: NatSettings, random: Random) -> None:
        self.settings = settings
        self._random = random
        self._timeout = round(settings.timeout_s * SECOND)
        self._mappings: dict[tuple[object, ...], _Mapping] = {}
        self._ports: dict[int, _Mapping] = {}

    def outgoing(self, now: int, source: SocketAddress, destination: SocketAddress) -> SocketAddress:
        """Returns the outside source of an outgoing packet."""
        key = (source, *self.settings.mapping.key(destination))
        mapping = self._mappings.get(key)
        if mapping is None or now - mapping.used > self._timeout:
            mapping = self._new(now, key, source)
        mapping.used = now
        mapping.remotes[self.settings.filtering.key(destination)] = now
        return SocketAddress(self.settings.outside, mapping.port)

    def incoming(self, now: int, source: SocketAddress, destination: SocketAddress) -> SocketAddress | None:
        """Returns the inside destination of an incoming packet, or None if there is no mapping or the packet is filtered."""
        mapping = self._ports.get(destination.port)
        if mapping is None or now - mapping.used > self._timeout:
            return None
        key = self.settings.filtering.key(source)
        since = mapping.remotes.get(key)
        if since is None or now - since > self._timeout:
            return None
        if self.settings.inbound_refresh:
            mapping.used = mapping.remotes[key] = now
        return mapping.inside

    def _new(self, now: int, key: tuple[object, ...], source: SocketAddress) -> _Mapping:
        old = self._mappings.get(key)
        if old is not None:
            del self._ports[old.port]
        port = source.port
        while not self.settings.preserves_ports or not self._is_free(now, port):
            port = self._random.randrange(1024, 65536)
            if self._is_free(now, port):
                break
        mapping = _Mapping(source, port, now)
        self._mappings[key] = self._ports[port] = mapping
        return mapping

    def _is_free(self, now: int, port: int) -> bool:
        held = self._ports.get(port)
        return held is None or now - held.used > self._timeout
