"""STUN messages: the samples of RFC 5769, malformed responses, and a server."""

from __future__ import annotations

import asyncio
import hashlib
import hmac
import random
import struct
import unittest
import zlib

from is_ice import BadAddress, BadMessage, IceAgent, MessageTooLong, SocketAddress, Unparsed
from is_ice.stun import (
    BindingResponse,
    StunClass,
    StunMessage,
    StunMethod,
    StunText,
    binding_request,
    binding_response,
    stun_username,
    write_message,
)

SAMPLE_V4 = bytes.fromhex(
    "0101003c2112a442b7e7a701bc34d686fa87dfae8022000b7465737420766563746f7220002000080001a147e112a643"
    "000800142b91f599fd9e90c38c7489f92af9ba53f06be7d780280004c07d4c96")  # section 2.2
SAMPLE_V6 = bytes.fromhex(
    "010100482112a442b7e7a701bc34d686fa87dfae8022000b7465737420766563746f7220002000140002a1470113a9faa5d3f179bc25f4b5bed2b9d9"
    "00080014a382954e4be67bf11784c97c8292c275bfe3ed4180280004c8fb0b4c")  # section 2.3
SAMPLE_REQUEST = bytes.fromhex(
    "000100582112a442b7e7a701bc34d686fa87dfae802200105354554e207465737420636c69656e74002400046e0001ff80290008932ff9b151263b36"
    "000600096576746a3a68367659202020000800149aeaa70cbfd8cb56781ef2b5b2d3f249c1b571a280280004e57a3bcf")  # section 2.1
ID, PASSWORD = SAMPLE_V4[8:20], b"VOkJxbRl1RmTxUk/WvJxBt"
HERE, SERVER = SocketAddress("10.0.0.1", 1000), SocketAddress("192.0.2.1", 3478)
SEEN = SocketAddress("203.0.113.5", 4000)


def response_to(request: bytes, seen: SocketAddress = SEEN) -> bytes:
    """A success response of a server, without MESSAGE-INTEGRITY."""
    plain = struct.pack("!H4s", seen.port, bytes(int(part) for part in seen.ip.split(".")))
    value = b"\0\1" + bytes(byte ^ mask for byte, mask in zip(plain, request[4:6] + request[4:8]))
    return struct.pack("!HH", 0x0101, 12) + request[4:20] + struct.pack("!HH", 0x20, 8) + value


def failure_to(request: bytes) -> bytes:
    """An error response of a server: 401 "no"."""
    return struct.pack("!HH", 0x0111, 12) + request[4:20] + struct.pack("!HHHBB", 9, 6, 0, 4, 1) + b"no\0\0"


class Reading(unittest.TestCase):
    def test_the_samples_of_rfc_5769(self) -> None:
        self.assertEqual(binding_response(ID, SAMPLE_V4), BindingResponse(SocketAddress("192.0.2.1", 32853)))
        self.assertEqual(binding_response(ID, SAMPLE_V6), BindingResponse(SocketAddress("2001:db8:1234:5678:11:2233:4455:6677", 32853)))
        message = StunMessage(SAMPLE_V4)
        self.assertEqual((message.method, message.class_, message.transaction), (StunMethod.BINDING, StunClass.SUCCESS, ID))
        self.assertEqual(message.mapped_address, SocketAddress("192.0.2.1", 32853))
        self.assertTrue(message.verify(PASSWORD))
        self.assertFalse(message.verify(PASSWORD[:-1]))

    def test_the_sample_request_of_rfc_5769(self) -> None:
        message = StunMessage(SAMPLE_REQUEST)
        self.assertEqual((message.method, message.class_, message.transaction), (StunMethod.BINDING, StunClass.REQUEST, ID))
        self.assertEqual((message.username, message.priority, message.use_candidate), ("evtj:h6vY", 0x6E0001FF, False))
        self.assertEqual((message.ice_controlled, message.ice_controlling), (0x932FF9B151263B36, None))
        self.assertEqual((message.error_code, message.lifetime, message.channel_number, message.network_cost), (None,) * 4)
        self.assertIsNone(message.nomination)
        self.assertEqual((message.mapped_address, message.peer_address, message.relayed_address), (None,) * 3)
        self.assertEqual((message.text(StunText.REALM), message.value_of_data), (None, None))
        self.assertTrue(message.verify(PASSWORD))
        self.assertFalse(StunMessage(SAMPLE_REQUEST.replace(b"evtj", b"evtk")).verify(PASSWORD))

    def test_whose_request_it_is(self) -> None:
        self.assertEqual(stun_username(SAMPLE_REQUEST), ("evtj", "h6vY"))
        for username, parts in (("a:b", ("a", "b")), ("a:b:c", ("a", "b:c")), (":b", ("", "b")), ("é:ü" * 100, ("é", "ü" + "é:ü" * 99)),
                                ("a:", None), ("a", None), ("", None), (None, None)):
            written = write_message(StunMethod.BINDING, StunClass.REQUEST, ID, username=username, key=PASSWORD)
            self.assertEqual(stun_username(written), parts, username)
        for other in (SAMPLE_V4, binding_request(ID)):
            self.assertIsNone(stun_username(other))
        for other in (b"", b"media", SAMPLE_REQUEST[:-1]):
            self.assertRaises(Unparsed, stun_username, other)

    def test_a_strict_reading_is_that_of_an_agent(self) -> None:
        """It needs what ICE requires of Binding requests and success responses (RFC 8445, sections 7.1 and 7.3)."""
        agent = IceAgent()
        for message in (SAMPLE_REQUEST, SAMPLE_V4, SAMPLE_V6, failure_to(SAMPLE_REQUEST)):
            self.assertEqual(StunMessage(message, strict=True).transaction, ID)
            self.assertFalse(agent.accepts_message(message))
        for message in (binding_request(ID), response_to(SAMPLE_REQUEST), b"media",
                        write_message(StunMethod.BINDING, StunClass.REQUEST, ID, username="a:b", key=PASSWORD),
                        write_message(StunMethod.BINDING, StunClass.REQUEST, ID, username="a:b", priority=1),
                        write_message(StunMethod.BINDING, StunClass.REQUEST, ID, username="ab", priority=1, key=PASSWORD)):
            self.assertRaises(Unparsed, StunMessage, message, strict=True)
            self.assertRaises(Unparsed, agent.accepts_message, message)

    def test_a_request_has_a_header_and_a_fingerprint(self) -> None:
        request = binding_request(ID)
        self.assertEqual(request[:20], struct.pack("!HHI12s", 1, 8, 0x2112A442, ID))
        self.assertEqual(request[20:], struct.pack("!HHI", 0x8028, 4, zlib.crc32(request[:20]) ^ 0x5354554E))
        with self.assertRaises(ValueError):
            binding_request(ID[1:])

    def test_only_the_response_of_the_transaction_says_anything(self) -> None:
        request = binding_request(ID)
        self.assertEqual(binding_response(ID, response_to(request)), BindingResponse(SEEN))
        self.assertEqual(binding_response(ID, failure_to(request)), BindingResponse(error_code=401, reason="no"))
        self.assertIsNone(binding_response(bytes(12), response_to(request)))
        self.assertIsNone(binding_response(ID, request))
        self.assertIsNone(binding_response(ID, struct.pack("!HHI12s", 0x0101, 0, 0x2112A442, ID)))

    def test_no_malformed_response_raises(self) -> None:
        for length in range(len(SAMPLE_V6)):
            self.assertIsNone(binding_response(ID, SAMPLE_V6[:length]))
            with self.assertRaises(Unparsed):
                StunMessage(SAMPLE_V6[:length])
        random.seed(1)
        for _ in range(3000):
            changed = bytearray(SAMPLE_V4)
            for _ in range(3):
                changed[random.randrange(len(changed))] = random.randrange(256)
            binding_response(ID, bytes(changed))


class Writing(unittest.TestCase):
    """The samples of RFC 5769 have a SOFTWARE of another type and spaces as padding, so they are compared by their attributes."""

    def test_the_sample_request_of_rfc_5769(self) -> None:
        written = write_message(StunMethod.BINDING, StunClass.REQUEST, ID, key=PASSWORD, username="evtj:h6vY", priority=0x6E0001FF,
                                ice_controlled=0x932FF9B151263B36)
        self.assertEqual(written, StunMessage(SAMPLE_REQUEST).to_bytes(PASSWORD))
        self.assertEqual((len(written), written[:2], written[4:20]), (88, SAMPLE_REQUEST[:2], SAMPLE_REQUEST[4:20]))
        username, controlled, priority = written[20:36], written[36:48], written[48:56]
        self.assertEqual(username, SAMPLE_REQUEST[60:73] + bytes(3))
        self.assertEqual((controlled, priority), (SAMPLE_REQUEST[48:60], SAMPLE_REQUEST[40:48]))
        self.assertEqual(written[56:80], b"\0\x08\0\x14" + mac_of(written[:2] + b"\0\x3c" + written[4:56]))
        self.assertEqual(written[80:], struct.pack("!HHI", 0x8028, 4, zlib.crc32(written[:80]) ^ 0x5354554E))
        message = StunMessage(written)
        self.assertTrue(message.verify(PASSWORD) and message.has_integrity and message.has_fingerprint)

    def test_the_sample_responses_of_rfc_5769(self) -> None:
        for sample in (SAMPLE_V4, SAMPLE_V6):
            mapped = StunMessage(sample).mapped_address
            written = write_message(StunMethod.BINDING, StunClass.SUCCESS, ID, key=PASSWORD, mapped_address=mapped)
            self.assertEqual(written, StunMessage(sample).to_bytes(PASSWORD))
            self.assertEqual(written[20:-32], sample[36:-32])
            self.assertEqual(written[-28:-8], mac_of(written[:2] + struct.pack("!H", len(written) - 28) + written[4:-32]))
            self.assertEqual(binding_response(ID, written), BindingResponse(mapped))

    def test_an_error_response(self) -> None:
        written = write_message(StunMethod.BINDING, StunClass.FAILURE, ID, error=(401, "no"))
        self.assertEqual(written[4:-8], failure_to(SAMPLE_REQUEST)[4:])
        self.assertEqual(binding_response(ID, written), BindingResponse(error_code=401, reason="no"))
        self.assertFalse(StunMessage(written).has_integrity)

    def test_all_attributes_come_back(self) -> None:
        at = SocketAddress("2001:db8::1", 9)
        written = write_message(
            StunMethod.ALLOCATE, StunClass.INDICATION, bytes(12), username="a:b", priority=1, use_candidate=True, ice_controlled=2,
            ice_controlling=3, mapped_address=at, error=(699, ""), realm="r", nonce="n", software="s", peer_address=at,
            relayed_address=at, data=bytes(70), lifetime=4, channel_number=0x4000, network_cost=(5, 6), nomination=7,
            requested_transport=17, requested_family=6)
        m = StunMessage(written)
        self.assertEqual((m.method, m.class_, m.transaction, m.username), (StunMethod.ALLOCATE, StunClass.INDICATION, bytes(12), "a:b"))
        self.assertEqual((m.priority, m.use_candidate, m.ice_controlled, m.ice_controlling), (1, True, 2, 3))
        self.assertEqual((m.mapped_address, m.peer_address, m.relayed_address, m.error_code), (at, at, at, 699))
        texts = [m.text(text) for text in (StunText.ERROR_CODE, StunText.REALM, StunText.NONCE, StunText.SOFTWARE)]
        self.assertEqual(texts, ["", "r", "n", "s"])
        self.assertEqual((m.value_of_data, m.lifetime, m.channel_number, m.network_cost, m.nomination), (bytes(70), 4, 0x4000, (5, 6), 7))
        self.assertEqual((m.requested_transport, m.requested_family), (17, 6))
        self.assertEqual(m.to_bytes(), written)

    def test_a_nomination_has_a_number(self) -> None:
        """NOMINATION byte by byte: its type, its length, the number (draft-thatcher-ice-renomination)."""
        written = write_message(StunMethod.BINDING, StunClass.REQUEST, ID, nomination=0x12345678)
        self.assertEqual((len(written), written[20:28]), (36, b"\xc0\x01\x00\x04\x12\x34\x56\x78"))
        self.assertEqual(StunMessage(written).nomination, 0x12345678)
        for number in (0, (1 << 32) - 1):
            check = write_message(StunMethod.BINDING, StunClass.REQUEST, ID, key=PASSWORD, username="a:b", priority=1, nomination=number)
            message = StunMessage(check, strict=True)
            self.assertEqual((message.nomination, message.use_candidate, message.verify(PASSWORD)), (number, False, True))
            self.assertEqual(message.to_bytes(PASSWORD), check)

    def test_an_allocate_request_has_a_transport_and_a_family(self) -> None:
        """REQUESTED-ADDRESS-FAMILY and REQUESTED-TRANSPORT byte by byte (RFC 8656, sections 18.6 and 18.7)."""
        for family, number in ((4, 1), (6, 2)):
            written = write_message(StunMethod.ALLOCATE, StunClass.REQUEST, ID, requested_transport=17, requested_family=family)
            self.assertEqual((len(written), written[20:36]), (44, bytes([0, 0x17, 0, 4, number, 0, 0, 0, 0, 0x19, 0, 4, 17, 0, 0, 0])))
        plain = StunMessage(write_message(StunMethod.ALLOCATE, StunClass.REQUEST, ID))
        self.assertEqual((plain.requested_transport, plain.requested_family), (None, None))

    def test_what_cannot_be_written(self) -> None:
        kind = StunMethod.BINDING, StunClass.REQUEST, ID
        self.assertRaises(BadMessage, write_message, StunMethod.OTHER, StunClass.REQUEST, ID)
        self.assertRaises(BadMessage, write_message, *kind, error=(700, ""))
        self.assertRaises(MessageTooLong, write_message, *kind, realm="r" * 129)
        self.assertRaises(ValueError, write_message, *kind, priority=1 << 32)
        self.assertRaises(ValueError, write_message, *kind, nomination=1 << 32)
        self.assertRaises(ValueError, write_message, *kind, requested_transport=256)
        self.assertRaises(BadAddress, write_message, *kind, requested_family=5)
        self.assertRaises(ValueError, write_message, StunMethod.BINDING, StunClass.REQUEST, b"")
        self.assertEqual(len(write_message(*kind, data=bytes(65000))), 20 + 4 + 65000 + 8)


def mac_of(text: bytes) -> bytes:
    """HMAC-SHA1 under the password."""
    return hmac.new(PASSWORD, text, hashlib.sha1).digest()


class StunServer(asyncio.DatagramProtocol):
    """A STUN server that sees each client at the same address."""

    def connection_made(self, transport: asyncio.BaseTransport) -> None:
        self._transport = transport

    def datagram_received(self, data: bytes, addr: tuple[str, int]) -> None:
        self._transport.sendto(response_to(data), addr)  # type: ignore[attr-defined]

    async def start(self) -> SocketAddress:
        await asyncio.get_running_loop().create_datagram_endpoint(lambda: self, local_addr=("127.0.0.1", 0))
        return SocketAddress(*self._transport.get_extra_info("sockname"))

    def close(self) -> None:
        self._transport.close()


if __name__ == "__main__":
    unittest.main()
