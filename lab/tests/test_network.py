"""Tests links, routing between networks, hairpinning and servers, without agents."""

import unittest
from random import Random
from typing import Any

from is_ice import SocketAddress
from lab.clock import BEGINNING, MILLISECOND, Clock
from lab.link import Link, LinkSettings
from lab.nat import NatSettings
from lab.network import Datagram, Gateway, Interface, Network, Packet
from lab.servers import BindingRequest, AllocateRequest, Relayed, Server, SuccessResponse

OUTSIDE = "203.0.113.1"
STUN = SocketAddress("198.51.100.10", 3478)


class Links(unittest.TestCase):
    def carried(self, settings: LinkSettings, count: int = 10000, apart: int = MILLISECOND) -> list[list[int]]:
        link = Link(settings, Random(7))
        return [link.carry(BEGINNING + n * apart, 100) for n in range(count)]

    def test_a_plain_link_only_delays(self) -> None:
        self.assertEqual(self.carried(LinkSettings(delay_ms=3), 2), [[BEGINNING + 3 * MILLISECOND], [BEGINNING + 4 * MILLISECOND]])

    def test_loss_is_as_configured(self) -> None:
        lost = sum(not arrivals for arrivals in self.carried(LinkSettings(loss=0.2)))
        self.assertAlmostEqual(lost / 10000, 0.2, delta=0.02)

    def test_bursts_have_their_length(self) -> None:
        fates = [not arrivals for arrivals in self.carried(LinkSettings(burst_every_s=0.1, burst_ms=20), 100000)]
        bursts = sum(now and not before for before, now in zip([False, *fates], fates))
        self.assertAlmostEqual(sum(fates) / bursts, 20, delta=2)
        self.assertAlmostEqual(100000 / bursts, 120, delta=12)

    def test_duplicates_are_as_configured(self) -> None:
        twice = sum(len(arrivals) == 2 for arrivals in self.carried(LinkSettings(duplicate=0.1)))
        self.assertAlmostEqual(twice / 10000, 0.1, delta=0.02)

    def test_jitter_keeps_order_and_reordering_does_not(self) -> None:
        for reorder, kept in ((0.0, True), (0.1, False)):
            arrivals = [a[0] for a in self.carried(LinkSettings(jitter_ms=30, reorder=reorder))]
            self.assertEqual(arrivals == sorted(arrivals), kept)

    def test_a_rate_spaces_packets_and_a_full_queue_drops(self) -> None:
        arrivals = self.carried(LinkSettings(delay_ms=0, rate_kbit=80, queue_ms=25), 10, apart=0)
        self.assertEqual([a[0] - BEGINNING for a in arrivals if a], [10 * MILLISECOND * n for n in (1, 2, 3)])


class Routing(unittest.TestCase):
    def setUp(self) -> None:
        self.clock = Clock()
        self.internet = Network("internet", self.clock, 20 * MILLISECOND)
        self.home = Network("home", self.clock)
        self.heard: list[tuple[str, Packet]] = []

    def interface(self, ip: str, network: Network) -> Interface:
        quick = LinkSettings(delay_ms=1)
        made = Interface(ip, ip, network, quick, quick, Random(1))
        made.take = lambda interface, packet: self.heard.append((interface.ip, packet))
        return made

    def gateway(self, **more: Any) -> Gateway:
        return Gateway("router", NatSettings(OUTSIDE, **more), self.home, self.internet, Random(1))

    def send(self, interface: Interface, port: int, to: SocketAddress, payload: object = "hello") -> Datagram:
        source = SocketAddress(interface.ip, port)
        datagram = Datagram(0, "a", self.clock.now, source, to, b"")
        interface.send(Packet(source, to, payload, 100, datagram))
        while self.clock.step(1 << 62):
            pass
        return datagram

    def test_packets_in_a_lan_stay_there(self) -> None:
        self.gateway()
        here, there = self.interface("10.0.0.1", self.home), self.interface("10.0.0.2", self.home)
        self.send(here, 1, SocketAddress(there.ip, 2))
        self.assertEqual([(ip, p.source) for ip, p in self.heard], [(there.ip, SocketAddress(here.ip, 1))])
        self.assertEqual(self.clock.now, BEGINNING + 2 * MILLISECOND)

    def test_a_gateway_translates_both_ways(self) -> None:
        self.gateway()
        here, there = self.interface("10.0.0.1", self.home), self.interface("192.0.2.1", self.internet)
        self.send(here, 1, SocketAddress(there.ip, 2))
        seen = self.heard[0][1].source
        self.assertEqual(seen.ip, OUTSIDE)
        self.send(there, 2, seen)
        self.assertEqual(self.heard[1][1].destination, SocketAddress(here.ip, 1))
        self.assertIn("filtered by router", self.send(there, 3, seen).fates[0][1])

    def test_hairpins_or_none(self) -> None:
        for hairpinning in (True, False):
            self.setUp()
            gateway = self.gateway(hairpinning=hairpinning)
            one, two = self.interface("10.0.0.1", self.home), self.interface("10.0.0.2", self.home)
            outside = [gateway.nat.outgoing(self.clock.now, SocketAddress(i.ip, 9), SocketAddress(OUTSIDE, 9)) for i in (one, two)]
            fates = self.send(one, 9, outside[1]).fates
            if hairpinning:
                self.assertEqual([(ip, p.source) for ip, p in self.heard], [(two.ip, outside[0])])
            else:
                self.assertIn("no hairpin", fates[0][1])

    def test_no_route_and_no_interface(self) -> None:
        six = self.interface("2001:db8::1", self.internet)
        self.assertEqual(self.send(six, 1, SocketAddress("2001:db8::9", 1)).fates[0][1], "no route")
        six.is_on = False
        self.assertIn("is off", self.send(six, 1, STUN).fates[0][1])

    def test_a_mute_interface_hears(self) -> None:
        here, there = (self.interface(f"192.0.2.{n}", self.internet) for n in (1, 2))
        here.is_mute = True
        self.assertEqual(self.send(here, 1, SocketAddress(there.ip, 2)).fates[0][1], "lost")
        self.send(there, 2, SocketAddress(here.ip, 1))
        self.assertEqual([ip for ip, _ in self.heard], [here.ip])

    def test_private_addresses_have_no_route_in_the_internet(self) -> None:
        self.gateway()
        here = self.interface("10.0.0.1", self.home)
        self.assertEqual(self.send(here, 1, SocketAddress("192.168.7.7", 1)).fates[0][1], "no route")

    def test_a_server_returns_the_mapped_address(self) -> None:
        self.gateway()
        Server(STUN.ip, self.internet)
        here = self.interface("10.0.0.1", self.home)
        self.send(here, 77, STUN, BindingRequest())
        self.assertEqual(self.heard[0][1].payload, SuccessResponse(STUN, SocketAddress(OUTSIDE, 77), False))

    def test_a_relay_needs_permissions(self) -> None:
        Server(STUN.ip, self.internet)
        client, peer, stranger = (self.interface(f"192.0.2.{n}", self.internet) for n in (1, 2, 3))
        self.send(client, 1, STUN, AllocateRequest())
        response = self.heard.pop()[1].payload
        assert isinstance(response, SuccessResponse)
        relayed = response.address
        self.assertIn("not permitted", self.send(peer, 2, relayed).fates[0][1])
        word = Relayed(relayed, SocketAddress(peer.ip, 2), Datagram(0, "a", 0, relayed, STUN, b""))
        self.send(client, 1, STUN, word)
        self.assertEqual(self.heard.pop()[1].source, relayed)
        self.send(peer, 2, relayed)
        receiver, packet = self.heard.pop()
        assert isinstance(packet.payload, Relayed)
        self.assertEqual((receiver, packet.payload.peer), (client.ip, SocketAddress(peer.ip, 2)))
        self.assertIn("not permitted", self.send(stranger, 2, relayed).fates[0][1])


if __name__ == "__main__":
    unittest.main()
