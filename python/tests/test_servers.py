"""The clients of servers as the library has them: URLs, frames, calls and their errors, events as texts."""

from __future__ import annotations

import copy
import pickle
import struct
import threading
import unittest
from collections.abc import Callable
from typing import Any

from is_ice import (
    BadAddress,
    BadUrl,
    CredentialsTooLong,
    EndedWhy,
    HasServers,
    NoServers,
    NotUtf8,
    Protocol,
    Scheme,
    ServerAllocated,
    ServerEnded,
    ServerMapped,
    ServerNotPermitted,
    Servers,
    SocketAddress,
    TooFewRandomBytes,
    Transmit,
    Unparsed,
    frame_length,
    server_url,
)
from is_ice.stun import StunMessage, StunMethod

HERE, AT, PEER = SocketAddress("10.0.0.1", 1000), SocketAddress("192.0.2.1", 3478), SocketAddress("203.0.113.5", 7)
UDP, TCP, TLS = Protocol.UDP, Protocol.TCP, Protocol.TLS


class Urls(unittest.TestCase):
    def test_the_examples_of_the_rfcs(self) -> None:
        """RFC 7064, appendix B; RFC 7065, appendix B: the default ports are 3478, over TLS 5349."""
        stun, turn = Scheme.STUN, Scheme.TURN
        for text, told in (
                ("stun:example.org", (stun, UDP, "example.org", 3478)), ("stuns:example.org", (stun, TLS, "example.org", 5349)),
                ("stun:example.org:8000", (stun, UDP, "example.org", 8000)), ("turn:example.org", (turn, UDP, "example.org", 3478)),
                ("turns:example.org", (turn, TLS, "example.org", 5349)), ("turn:example.org:8000", (turn, UDP, "example.org", 8000)),
                ("turn:example.org?transport=udp", (turn, UDP, "example.org", 3478)),
                ("turn:example.org?transport=tcp", (turn, TCP, "example.org", 3478)),
                ("turns:example.org?transport=tcp", (turn, TLS, "example.org", 5349)),
                ("turn:[2001:db8::1]:9?transport=tcp", (turn, TCP, "2001:db8::1", 9)), ("stun:192.0.2.1", (stun, UDP, "192.0.2.1", 3478))):
            url = server_url(text)
            self.assertEqual((url.scheme, url.protocol, url.host, url.port), told, text)
            self.assertEqual(server_url(str(url)), url, text)

    def test_what_no_url_is(self) -> None:
        for text in ("", "stun", "stun:", "turn:?transport=udp", "http://example.org", "stun:example.org:x", "stun:example.org:65536",
                     "turn:example.org?transport=sctp", "turns:example.org?transport=udp", "turn:[2001:db8::1", "turn:user@example.org"):
            self.assertRaises(BadUrl, server_url, text)
            self.assertRaises(ValueError, server_url, text)
        self.assertRaises(NotUtf8, server_url, "stun:\ud800")


class Frames(unittest.TestCase):
    def test_messages_and_channel_data(self) -> None:
        """A STUN message: 20 bytes and its length (RFC 8489, section 5); ChannelData: 4 and its length, padded (RFC 8656, section 12.5)."""
        for start, length in ((b"\0\1\0\x08", 28), (b"\x01\x13\xff\xfc", 20 + 65532), (b"\x40\0\0\0", 4), (b"\x40\0\0\1", 8),
                              (b"\x4f\xff\0\4more", 8), (b"\x40\0\xff\xff", 4 + 65536)):
            self.assertEqual(frame_length(start), length)
        for short in (b"", b"\0", b"\x40\0\0"):
            self.assertIsNone(frame_length(short))
        for other in (b"\x80\0\0\0", b"\xff\xff\xff\xff"):
            self.assertRaises(Unparsed, frame_length, other)


class Calls(unittest.TestCase):
    def setUp(self) -> None:
        self.servers = Servers()

    def test_without_clients_all_goes_as_it_is(self) -> None:
        for data in (b"", b"\x80media", b"\0\1\0\0", bytes(9000)):
            self.assertEqual(self.servers.receive(0, AT, HERE, data), (AT, HERE, data))
            self.assertEqual(self.servers.outgoing(0, HERE, AT, data), Transmit(UDP, HERE, AT, data))
        told = self.servers.poll_timeout(), self.servers.poll_transmit(), self.servers.poll_event(), self.servers.is_gathering
        self.assertEqual(told, (None, None, None, False))
        self.servers.handle_timeout(1)
        self.servers.probe(1)
        self.servers.close(1)
        self.servers.permit(0, PEER)
        self.servers.lose(HERE)

    def test_the_first_requests(self) -> None:
        """A Binding request, and an Allocate request of UDP, without credentials yet (RFC 8656, section 7.1)."""
        self.servers.add_stun(5, HERE, SocketAddress("192.0.2.2", 3478))
        self.servers.add_turn(5, HERE, AT, "user", "secret")
        self.assertTrue(self.servers.is_gathering)
        methods: dict[str, tuple[Any, ...]] = {}
        for number in (1, 2):
            due = self.servers.poll_timeout()
            assert due is not None
            self.servers.handle_timeout(due, bytes([number]) * 12)
            packet = self.servers.poll_transmit()
            assert packet is not None
            message = StunMessage(packet.contents)
            methods[packet.destination.ip] = message.method, message.transaction, message.requested_transport, message.username
            self.assertEqual((packet.protocol, packet.source), (UDP, HERE))
        self.assertEqual({told[1] for told in methods.values()}, {b"\1" * 12, b"\2" * 12})
        self.assertEqual((methods["192.0.2.2"][0], methods["192.0.2.1"][0]), (StunMethod.BINDING, StunMethod.ALLOCATE))
        self.assertEqual(methods["192.0.2.1"][2:], (17, None))

    def test_a_client_without_answers_fails(self) -> None:
        self.servers.add_turn(0, HERE, AT, protocol=TCP)
        sent, events = 0, list[Any]()
        while (due := self.servers.poll_timeout()) is not None:
            self.servers.handle_timeout(due)
            while packet := self.servers.poll_transmit():
                sent += 1
                self.assertEqual(packet.protocol, TCP)
        while event := self.servers.poll_event():
            events.append(event)
        self.assertEqual(events, [ServerEnded(TCP, HERE, AT, EndedWhy.FAILED, None, None)])
        self.assertEqual((sent, self.servers.is_gathering), (1, False))  # a stream repeats what is lost

    def test_errors(self) -> None:
        self.assertRaises(CredentialsTooLong, self.servers.add_turn, 0, HERE, AT, "u" * 509, "p")
        self.assertRaises(CredentialsTooLong, self.servers.add_turn, 0, HERE, AT, "u", "p" * 764)
        self.assertRaises(NotUtf8, self.servers.add_turn, 0, HERE, AT, "\ud800", "p")
        self.assertRaises(BadAddress, self.servers.add_turn, 0, HERE, AT, "u", "p", TLS)
        self.assertRaises(BadAddress, self.servers.add_turn, 0, HERE, AT, family=5)
        self.assertRaises(ValueError, self.servers.add_turn, 0, HERE, AT, places=-1)
        self.assertRaises(ValueError, self.servers.add_stun, -1, HERE, AT)
        self.assertRaises(ValueError, self.servers.add_stun, 0, SocketAddress("name", 1), AT)
        self.assertRaises(BadAddress, self.servers.receive, 0, AT, HERE, b"", TLS)
        self.assertRaises(TooFewRandomBytes, self.servers.handle_timeout, 0, bytes(11))
        self.assertFalse(self.servers.is_gathering)

    def test_after_the_end(self) -> None:
        self.assertRaises(HasServers, self.servers.__init__)  # type: ignore[misc]
        makes: tuple[Callable[[Any], object], ...] = (copy.copy, copy.deepcopy, pickle.dumps)
        for make in makes:
            self.assertRaises(TypeError, make, self.servers)
        self.servers.add_turn(0, HERE, AT, "user", "secret")
        self.servers.free()
        self.servers.free()
        for call in (self.servers.poll_timeout, self.servers.poll_transmit, self.servers.poll_event, lambda: self.servers.is_gathering,
                     lambda: self.servers.receive(0, AT, HERE, b""), lambda: self.servers.outgoing(0, HERE, AT, b"")):
            self.assertRaises(NoServers, call)
        self.servers.__init__()  # type: ignore[misc]
        self.assertIsNone(self.servers.poll_timeout())

    def test_many_threads(self) -> None:
        def use() -> None:
            for now in range(300):
                self.servers.receive(now, AT, HERE, struct.pack("!I", now))
                self.servers.handle_timeout(now)
                self.servers.poll_transmit()

        self.servers.add_turn(0, HERE, AT)
        threads = [threading.Thread(target=use) for _ in range(4)]
        for thread in threads:
            thread.start()
        for thread in threads:
            thread.join()
        self.assertTrue(self.servers.is_gathering)


class Texts(unittest.TestCase):
    def test_events_are_lines_of_a_log(self) -> None:
        """As the header has them."""
        relayed, mapped = SocketAddress("192.0.2.1", 49152), SocketAddress("203.0.113.5", 61000)
        of = "server 192.0.2.1:3478 udp 10.0.0.1:1000: "
        self.assertEqual(str(ServerAllocated(UDP, HERE, AT, relayed, mapped)), of + "allocated 192.0.2.1:49152, mapped 203.0.113.5:61000")
        self.assertEqual(str(ServerEnded(UDP, HERE, AT, EndedWhy.LOST, 437, None)), of + "ended, lost, 437")
        self.assertIn("tcp", str(ServerAllocated(TCP, HERE, AT, relayed, None)))
        self.assertIn("203.0.113.5:61000", str(ServerMapped(UDP, HERE, AT, mapped)))
        self.assertRegex(str(ServerNotPermitted(UDP, HERE, AT, "203.0.113.9", 403)), "203.0.113.9.*403")
        self.assertRegex(str(ServerEnded(UDP, HERE, AT, EndedWhy.FAILED, None, 401)), "failed.*401")


if __name__ == "__main__":
    unittest.main()
