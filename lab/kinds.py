"""The kinds of pairs, which take turns; which kind loses a pair at the limit (RFC 8445, section 6.1.4.2)."""

from __future__ import annotations

from collections import Counter
from collections.abc import Sequence
from functools import lru_cache
from ipaddress import IPv4Network, IPv6Network, ip_address

from is_ice import SocketAddress

from .pairs import Pair, Place

# How many kinds of pairs there are.
COUNT = 9
# The kind of all inner pairs.
INNER_KIND = 8
# Peer-reflexive candidates come first, since the peer sent a packet from there. Host candidates come last.
RANKS = {"prflx": 0, "srflx": 1, "relay": 2, "host": 3}
# The IPv4 addresses that are not public: private (RFC 1918), shared (RFC 6598), loopback and link-local ones.
INNER = tuple(map(IPv4Network, ("10.0.0.0/8", "172.16.0.0/12", "192.168.0.0/16", "100.64.0.0/10", "127.0.0.0/8", "169.254.0.0/16")))
# The IPv6 addresses that are public (RFC 4291, section 2.4; RFC 3587).
GLOBAL = IPv6Network("2000::/3")


@lru_cache(maxsize=1 << 14)
def is_public(ip: str) -> bool:
    """Whether the address is routed on the Internet."""
    address = ip_address(ip)
    return address in GLOBAL if address.version == 6 else not any(address in network for network in INNER)


def counted_kind(candidate: Place) -> str:
    """Returns the kind that a candidate counts as: server-reflexive if it is a host candidate with a public address, since a STUN server
    would return the same address, and that candidate would be redundant (RFC 8445, section 5.1.3)."""
    return "srflx" if candidate.kind == "host" and is_public(candidate.address.ip) else candidate.kind


def reflexive_bases(local: Sequence[Place]) -> set[SocketAddress]:
    """Returns the bases of live candidates that count as server-reflexive: packets from these reach the outside."""
    return {c.base for c in local if counted_kind(c) == "srflx" and not c.is_discarded}


@lru_cache(maxsize=1 << 14)
def network_of(ip: str) -> tuple[int, int]:
    """Returns the IP version and the network of an address, as most are numbered: a subnet of 24 bits of IPv4, or a site of 48 bits of IPv6
    (RFC 4193, section 3.1)."""
    address = ip_address(ip)
    return address.version, int(address) >> (128 - 48 if address.version == 6 else 32 - 24)


def is_inner(local: Sequence[Place], own: Place, other: Place) -> bool:
    """Whether packets of the local candidate stay inside: it is not relayed, and bases of its IP version reach the outside, but not its
    own. As long as none of them is known to reach it, the pairs whose addresses are of one network count so."""
    bases = reflexive_bases(local)
    if own.kind == "relay" or own.base in bases:
        return False
    return any(base.version == own.base.version for base in bases) or network_of(own.base.ip) == network_of(other.address.ip)


def kind_between(local: Sequence[Place], own: Place, other: Place) -> int:
    """Returns the kind of a pair of two candidates: the kind that the remote one counts as, and the IP version. All inner pairs are of one
    kind."""
    return INNER_KIND if is_inner(local, own, other) else 2 * RANKS[counted_kind(other)] + (1 if other.address.version == 4 else 0)


def kind_of(local: Sequence[Place], remote: Sequence[Place], pair: Pair) -> int:
    """Returns the kind of a pair, a number from 0 to 8."""
    return kind_between(local, local[pair.local], remote[pair.remote])


def turn_of(next_kind: int, kind: int) -> int:
    """Returns the place of a kind in the round that begins with `next_kind`."""
    return kind if next_kind <= kind else kind + COUNT


def is_brought(remote: Sequence[Place], pair: Pair) -> bool:
    """Whether a request brought it: its remote candidate is peer-reflexive, and it is not valid yet."""
    return remote[pair.remote].kind == "prflx" and not pair.is_valid


def least_of_most(local: Sequence[Place], remote: Sequence[Place], pairs: Sequence[Pair]) -> Pair:
    """Returns a pair of lowest priority of a kind of which there are most; of several such kinds, of the first."""
    kinds = {p.number: kind_of(local, remote, p) for p in pairs}
    counts = Counter(kinds.values())
    most = min(counts, key=lambda kind: (-counts[kind], kind))
    return min((p for p in pairs if kinds[p.number] == most), key=lambda p: p.priority)
