"""Tests the NATs (RFC 4787), without agents."""

import itertools
import unittest
from random import Random
from typing import Any

from is_ice import SocketAddress
from lab.clock import SECOND
from lab.nat import Behavior, Nat, NatSettings

OUTSIDE = "203.0.113.1"
INSIDE = SocketAddress("192.168.1.10", 5000)
SERVER = SocketAddress("198.51.100.1", 3478)
SAME_IP = SocketAddress("198.51.100.1", 9999)
OTHER = SocketAddress("198.51.100.2", 3478)


def nat(mapping: Behavior = Behavior.ENDPOINT, filtering: Behavior = Behavior.ENDPOINT, **more: Any) -> Nat:
    return Nat(NatSettings(OUTSIDE, mapping, filtering, **more), Random(1))


class Mapping(unittest.TestCase):
    """RFC 4787, section 4.1: which destinations share an outside port."""

    def ports(self, behavior: Behavior) -> tuple[bool, bool]:
        box = nat(behavior)
        first, same_ip, other = (box.outgoing(0, INSIDE, to) for to in (SERVER, SAME_IP, OTHER))
        self.assertEqual(first, box.outgoing(1, INSIDE, SERVER))
        return first == same_ip, first == other

    def test_endpoint_independent(self) -> None:
        self.assertEqual(self.ports(Behavior.ENDPOINT), (True, True))

    def test_address_dependent(self) -> None:
        self.assertEqual(self.ports(Behavior.ADDRESS), (True, False))

    def test_address_and_port_dependent(self) -> None:
        self.assertEqual(self.ports(Behavior.ADDRESS_AND_PORT), (False, False))

    def test_sockets_never_share_a_port(self) -> None:
        box = nat()
        sockets = [SocketAddress(f"192.168.1.{n}", 5000) for n in range(1, 50)]
        self.assertEqual(len({box.outgoing(0, s, SERVER) for s in sockets}), len(sockets))

    def test_a_free_port_is_preserved(self) -> None:
        self.assertEqual(nat().outgoing(0, INSIDE, SERVER), SocketAddress(OUTSIDE, 5000))
        self.assertNotEqual(nat(preserves_ports=False).outgoing(0, INSIDE, SERVER).port, 5000)


class Filtering(unittest.TestCase):
    """RFC 4787, section 5: what passes the filter after a packet to SERVER."""

    def let_in(self, mapping: Behavior, filtering: Behavior) -> list[bool]:
        box = nat(mapping, filtering)
        outside = box.outgoing(0, INSIDE, SERVER)
        return [box.incoming(0, source, outside) == INSIDE for source in (SERVER, SAME_IP, OTHER)]

    def test_each_behavior_whatever_the_mapping(self) -> None:
        wanted = {Behavior.ENDPOINT: [True, True, True], Behavior.ADDRESS: [True, True, False],
                  Behavior.ADDRESS_AND_PORT: [True, False, False]}
        for mapping, filtering in itertools.product(Behavior, Behavior):
            with self.subTest(mapping=mapping, filtering=filtering):
                self.assertEqual(self.let_in(mapping, filtering), wanted[filtering])

    def test_nothing_comes_in_without_a_mapping(self) -> None:
        self.assertIsNone(nat().incoming(0, SERVER, SocketAddress(OUTSIDE, 5000)))


class Timeouts(unittest.TestCase):
    """RFC 4787, section 4.3: outgoing packets refresh a mapping; incoming ones if the scenario says so."""

    def test_outgoing_packets_refresh_a_mapping(self) -> None:
        box = nat(timeout_s=30)
        outside = box.outgoing(0, INSIDE, SERVER)
        self.assertEqual(box.outgoing(30 * SECOND, INSIDE, SERVER), outside)
        self.assertEqual(box.incoming(60 * SECOND, SERVER, outside), INSIDE)
        self.assertIsNone(box.incoming(60 * SECOND + 1, SERVER, outside))

    def test_incoming_packets_refresh_it_if_configured(self) -> None:
        for refreshes, seen in ((True, INSIDE), (False, None)):
            box = nat(timeout_s=30, inbound_refresh=refreshes)
            outside = box.outgoing(0, INSIDE, SERVER)
            self.assertEqual(box.incoming(20 * SECOND, SERVER, outside), INSIDE)
            self.assertEqual(box.incoming(40 * SECOND, SERVER, outside), seen)

    def test_permissions_time_out_separately(self) -> None:
        box = nat(filtering=Behavior.ADDRESS, timeout_s=30)
        outside = box.outgoing(0, INSIDE, SERVER)
        box.outgoing(20 * SECOND, INSIDE, OTHER)
        self.assertIsNone(box.incoming(40 * SECOND, SERVER, outside))
        self.assertEqual(box.incoming(40 * SECOND, OTHER, outside), INSIDE)


if __name__ == "__main__":
    unittest.main()
