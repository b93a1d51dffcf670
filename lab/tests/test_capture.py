"""Tests captures: the headers and checksums of packets, and, if tshark is installed, what it reads of a session."""

import shutil
import struct
import subprocess
import tempfile
import unittest
from pathlib import Path

from is_ice import SocketAddress
from lab import capture, scenario
from lab.session import Session, Trace

HERE, THERE = SocketAddress("192.0.2.1", 40000), SocketAddress("198.51.100.9", 3478)
HERE6, THERE6 = SocketAddress("2001:db8::1", 40000), SocketAddress("2001:db8::9", 3478)
FIELDS = ("_ws.malformed", "_ws.expert.severity", "ip.checksum.status", "udp.checksum.status", "stun.type", "stun.att.crc32.status")
GOOD = "1"
# The severity from which on tshark reports a warning or an error.
WARNING = 0x00600000


def traced(name: str, seed: int = 1) -> Trace:
    trace = Trace()
    Session(scenario.load(name), seed, trace).run()
    return trace


def dissected(packets: list[capture.Captured]) -> list[dict[str, str]]:
    """Returns the fields that tshark reads of each packet."""
    command = ["tshark", "-o", "ip.check_checksum:TRUE", "-o", "udp.check_checksum:TRUE", "-T", "fields", "-r"]
    with tempfile.TemporaryDirectory() as folder:
        file = Path(folder) / "session.pcap"
        file.write_bytes(capture.bytes_of(packets))
        words = [*command, str(file), *(word for f in FIELDS for word in ("-e", f))]
        told = subprocess.run(words, capture_output=True, text=True, check=True)
    return [dict(zip(FIELDS, line.split("\t"))) for line in told.stdout.splitlines()]


class Packets(unittest.TestCase):
    def test_the_checksum_of_rfc_1071(self) -> None:
        data = bytes.fromhex("0001f203f4f5f6f7")  # RFC 1071, section 3: its sum is ddf2
        self.assertEqual(capture.checksum(data), 0xDDF2 ^ 0xFFFF)

    def test_a_packet_sums_to_zero(self) -> None:
        for source, destination, header in ((HERE, THERE, 20), (HERE6, THERE6, 40)):
            for contents in (b"", b"odd", b"even"):
                packet = capture.ip_packet(source, destination, contents)
                addresses, udp = packet[header - (8 if header == 20 else 32):header], packet[header:]
                self.assertEqual(capture.checksum(addresses + struct.pack("!II", len(udp), 17) + udp), 0)
                self.assertEqual(struct.unpack("!HHH", udp[:6]), (source.port, destination.port, 8 + len(contents)))
                self.assertEqual(capture.checksum(packet[:20]) if header == 20 else packet[0] >> 4, 0 if header == 20 else 6)

    def test_the_file_has_each_packet(self) -> None:
        packets = [capture.Captured(1_234_567_890, "a", HERE, THERE, b"hello"), capture.Captured(2 * 10**9, "b", HERE6, THERE6, b"")]
        data = capture.bytes_of(packets)
        self.assertEqual(struct.unpack("<IHHiIII", data[:24]), (0xA1B2C3D4, 2, 4, 0, 0, 65535, 101))
        self.assertEqual(struct.unpack("<IIII", data[24:40]), (1, 234567, 33, 33))
        self.assertEqual(struct.unpack("<IIII", data[73:89]), (2, 0, 48, 48))
        self.assertEqual(len(data), 89 + 48)


class Sessions(unittest.TestCase):
    def test_each_side_has_what_it_sent_and_received(self) -> None:
        trace = traced("two_homes")
        both, a, b = (capture.of_trace(trace, sides) for sides in ("ab", "a", "b"))
        self.assertEqual(len(both), len(a) + len(b))
        self.assertEqual(len(both), len(trace.datagrams) + len(trace.received))
        self.assertEqual({p.source.ip for p in a}, {"192.168.1.10", "203.0.113.2"})
        self.assertEqual([p.time for p in both], sorted(p.time for p in both))

    @unittest.skipUnless(shutil.which("tshark"), "tshark is not installed")
    def test_tshark_reads_every_packet(self) -> None:
        for name in ("two_homes", "dual_stack", "role_conflict", "symmetric_both_relay", "lossy_mobile"):
            with self.subTest(scenario=name):
                packets = capture.of_trace(traced(name))
                read = dissected(packets)
                self.assertEqual(len(read), len(packets))
                for told, packet in zip(read, packets):
                    self.assertEqual((told["_ws.malformed"], told["udp.checksum.status"], told["stun.att.crc32.status"]), ("", GOOD, GOOD))
                    self.assertEqual(told["ip.checksum.status"], GOOD if packet.source.version == 4 else "")
                    self.assertEqual(int(told["stun.type"], 0), int.from_bytes(packet.contents[:2], "big"))
                    severities = [int(severity, 0) for severity in told["_ws.expert.severity"].split(",") if severity]
                    self.assertTrue(all(severity < WARNING for severity in severities), told)

    @unittest.skipUnless(shutil.which("tshark"), "tshark is not installed")
    def test_tshark_sees_a_changed_byte(self) -> None:
        packet = next(p for p in capture.of_trace(traced("two_homes")) if p.side == "a")
        changed = packet.contents[:30] + bytes([packet.contents[30] ^ 1]) + packet.contents[31:]
        told, = dissected([capture.Captured(0, "a", packet.source, packet.destination, changed)])
        self.assertNotEqual(told["stun.att.crc32.status"], GOOD)


if __name__ == "__main__":
    unittest.main()
