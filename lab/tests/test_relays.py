"""Tests the strict TURN server by RFC 8656 and a message of RFC 5769, and sessions through it whose clients are the library's."""

import hashlib
import unittest
from random import Random
from struct import pack

from is_ice import SocketAddress
from lab import allocating, scenario, turn_bytes as b
from lab.clock import SECOND
from lab.guarantees import Broken
from lab.session import Session
from lab.turn_server import KEY, REALM, USER, Lifetimes, TurnServer

SERVER, CLIENT, PEER = SocketAddress("192.0.2.1", 3478), SocketAddress("192.0.2.2", 5000), SocketAddress("192.0.2.3", 6000)
# RFC 5769, section 2.4: a request with long-term authentication.
SIGNED = bytes.fromhex(
    "000100602112a44278ad3433c6ad72c029da412e00060012e3839ee38388e383aae38383e382afe382b900000015001c662f2f3439396b39353464364f4c33346f"
    "4c39465354767936347341" "0014000b6578616d706c652e6f726700" "00080014f67024656dd64a3e02b8e0712e85c9a28ca89666")
UDP_ROW = (b.REQUESTED_TRANSPORT, bytes([17, 0, 0, 0]))


class Client:
    """A client of the strict server that signs each request with the nonce that it has."""

    def __init__(self, lifetimes: Lifetimes = Lifetimes()) -> None:
        self.server, self.number, self.nonce = TurnServer(SERVER, Random(1), lifetimes), 0, b""

    def requests(self, now: float, method: int, *rows: tuple[int, bytes], key: bytes | None = KEY) -> b.Message:
        """Sends a request, and returns the response."""
        self.number += 1
        signer = [(b.USERNAME, USER.encode()), (b.REALM, REALM.encode()), (b.NONCE, self.nonce)] if key else []
        sent = b.written(method, b.REQUEST, pack("!III", 0, 0, self.number), [*rows, *signer], key)
        response = b.read(self.server.receive(round(now * SECOND), CLIENT, sent)[0].contents)
        assert response is not None
        self.nonce = response.values.get(b.NONCE, self.nonce)
        return response

    def about(self, now: float, method: int, *rows: tuple[int, bytes], peer: SocketAddress = PEER) -> b.Message:
        """Sends a request about a peer."""
        return self.requests(now, method, (b.XOR_PEER_ADDRESS, b.xor_address(peer, pack("!III", 0, 0, self.number + 1))), *rows)

    def binds(self, now: float, number: int = 0x4000, peer: SocketAddress = PEER) -> b.Message:
        """Binds a channel."""
        return self.about(now, b.CHANNEL_BIND, (b.CHANNEL_NUMBER, pack("!HH", number, 0)), peer=peer)

    def allocates(self, now: float) -> b.Message:
        """Allocates, once it is challenged."""
        self.requests(now, b.ALLOCATE, UDP_ROW, key=None)
        return self.requests(now, b.ALLOCATE, UDP_ROW)

    def passes(self, now: float, contents: bytes) -> bool:
        """Whether data of the client goes on to a peer."""
        return bool(self.server.receive(round(now * SECOND), CLIENT, contents))

    def indicates(self, now: float) -> bool:
        """Whether a Send indication goes on to the peer."""
        rows = [(b.XOR_PEER_ADDRESS, b.xor_address(PEER, bytes(12))), (b.DATA_VALUE, b"hello")]
        return self.passes(now, b.written(b.SEND, b.INDICATION, bytes(12), rows))


class StrictServer(unittest.TestCase):
    def test_a_signed_request_of_rfc_5769(self) -> None:
        message = b.read(SIGNED)
        assert message is not None
        self.assertEqual((message.values[b.REALM], message.values[b.NONCE]), (b"example.org", b"f//499k954d6OL34oL9FSTvy64sA"))
        self.assertTrue(message.is_by(hashlib.md5("マトリックス:example.org:TheMatrIX".encode()).digest()))
        self.assertFalse(message.is_by(KEY))

    def test_what_a_client_gets(self) -> None:
        client = Client()
        self.assertEqual(client.requests(0, b.ALLOCATE, UDP_ROW, key=None).code, 401)
        self.assertEqual(client.requests(0, b.ALLOCATE, UDP_ROW, key=bytes(16)).code, 401)
        self.assertEqual(client.requests(0, b.ALLOCATE).code, 400)
        self.assertEqual(client.requests(0, b.ALLOCATE, (b.REQUESTED_TRANSPORT, bytes([6, 0, 0, 0]))).code, 442)
        self.assertEqual(client.requests(0, b.ALLOCATE, UDP_ROW, (b.REQUESTED_ADDRESS_FAMILY, bytes([2, 0, 0, 0]))).code, 440)
        self.assertEqual(client.requests(0, b.ALLOCATE, UDP_ROW, (0x0022, b"software")).code, 420)
        self.assertEqual(client.requests(0, b.REFRESH).code, 437)
        allocated = client.requests(0, b.ALLOCATE, UDP_ROW)
        self.assertEqual((allocated.code, allocated.number(b.LIFETIME)), (0, 600))
        self.assertEqual(allocated.address(b.XOR_MAPPED_ADDRESS), CLIENT)
        self.assertTrue(allocated.is_by(KEY))
        self.assertEqual(client.requests(0, b.ALLOCATE, UDP_ROW).code, 437)
        client.server.forbidden.add(PEER.ip)
        self.assertEqual(client.about(0, b.CREATE_PERMISSION).code, 403)

    def test_a_nonce_becomes_stale(self) -> None:
        client = Client(Lifetimes(nonce=60 * SECOND))
        client.allocates(0)
        self.assertEqual([client.requests(now, b.REFRESH).code for now in (59.9, 60, 60)], [0, 438, 0])

    def test_a_permission_ends_after_five_minutes(self) -> None:
        client = Client()
        client.allocates(0)
        self.assertFalse(client.indicates(0))
        client.about(0, b.CREATE_PERMISSION)
        self.assertEqual([client.indicates(now) for now in (0, 299.9, 300)], [True, True, False])
        self.assertEqual({(r.kind, r.why) for r in client.server.refused}, {("Send", "no permission")})

    def test_a_channel_ends_after_ten_minutes_and_needs_a_permission(self) -> None:
        client = Client()
        client.allocates(0)
        relayed = client.server.allocations[CLIENT].relayed
        self.assertEqual(client.binds(0).code, 0)
        framed = b.channel_data(0x4000, b"hello")
        self.assertEqual([client.passes(now, framed) for now in (0, 299.9, 300)], [True, True, False])
        client.requests(301, b.REFRESH)
        client.requests(301, b.REFRESH)
        client.about(301, b.CREATE_PERMISSION)
        back = [client.server.receive_from_peer(round(now * SECOND), relayed, PEER, b"hi")[0].contents for now in (599.9, 600)]
        self.assertEqual(back[0], b.channel_data(0x4000, b"hi"))
        indication = b.read(back[1])
        assert indication is not None
        self.assertEqual((indication.method, indication.address(b.XOR_PEER_ADDRESS)), (b.DATA, PEER))
        self.assertFalse(client.passes(600, framed))

    def test_a_channel_belongs_to_one_peer_for_five_minutes_more(self) -> None:
        client, other = Client(Lifetimes(allocation=3600 * SECOND, nonce=3600 * SECOND)), SocketAddress("192.0.2.4", 7000)
        client.allocates(0)
        self.assertEqual([client.binds(0, number).code for number in (0x3FFF, 0x5000, 0x4000, 0x4001)], [400, 400, 0, 400])
        self.assertEqual([client.binds(now, peer=other).code for now in (0, 899.9, 900)], [400, 400, 0])

    def test_an_allocation_ends_after_ten_minutes_unless_it_is_renewed(self) -> None:
        client = Client(Lifetimes(nonce=3600 * SECOND))
        client.allocates(0)
        self.assertEqual([client.requests(now, b.REFRESH).code for now in (599.9, 1199.8, 1799.8)], [0, 0, 437])

    def test_a_client_frees_its_allocation(self) -> None:
        client = Client()
        client.allocates(0)
        self.assertEqual(client.requests(0, b.REFRESH, (b.LIFETIME, bytes(4))).number(b.LIFETIME), 0)
        self.assertEqual(client.requests(0, b.REFRESH).code, 437)


def played(name: str, seed: int, *changes: str) -> Session:
    """Plays a session of a scenario."""
    session = Session(scenario.load(name, changes), seed)
    session.run()
    return session


class ThroughRelays(unittest.TestCase):
    def test_half_an_hour_without_a_lost_datagram(self) -> None:
        """Both NATs are symmetric. The server's nonces last a minute, its permissions five."""
        session = played("relays_only", 1, "media_s=1800", "media_ms=1000", "seconds=1900")
        media, counts = session.media, session.turn_servers[0].counts
        assert media is not None
        self.assertEqual((media.sent, media.heard), ({"a": 1799, "b": 1799}, {"a": 1799, "b": 1799}))
        for name in ("CreatePermission success", "ChannelBind success", "Refresh success", "CreatePermission 438"):
            self.assertGreater(counts[name], 1, name)

    def test_media_over_lossy_links(self) -> None:
        """Nothing lapses in ten minutes, though requests and responses are lost. TurnNode stops at data that it drops."""
        session = played("relays_only_lossy", 1, "media_s=600", "media_ms=1000", "seconds=700")
        self.assertGreater(session.turn_servers[0].counts["CreatePermission success"], 3)

    def test_a_lapse_is_detected(self) -> None:
        """A server whose permissions last for 100 s, and not for the five minutes that the client counts on."""
        session = Session(scenario.load("relays_only", ("media_s=300", "media_ms=1000", "seconds=400")), 1)
        session.turn_servers[0].lifetimes = Lifetimes(permission=100 * SECOND, channel=100 * SECOND)
        self.assertRaises(Broken, session.run)

    def test_lost_media_is_detected(self) -> None:
        self.assertRaises(Broken, played, "relays_only_lossy", 1, "media_loss=0.01")

    def test_media_needs_clients_of_the_library(self) -> None:
        self.assertRaises(scenario.BadScenario, scenario.load, "two_homes", ("media_s=1",))


class Allocating(unittest.TestCase):
    def test_without_loss_it_takes_two_round_trips(self) -> None:
        """One for the challenge (RFC 8489, section 9.2), and one for the signed request."""
        self.assertEqual(allocating.times(1, 0, 60), [120])
        self.assertEqual(allocating.times(1, 0, 180), [360])

    def test_with_30_percent_loss_each_way_all_allocate(self) -> None:
        found = allocating.times(100, 0.3)
        self.assertNotIn(None, found)
        self.assertLess(sorted(t for t in found if t is not None)[50], 1000)


if __name__ == "__main__":
    unittest.main()
