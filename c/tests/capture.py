"""Tests the captures that two peers write with -w, over IPv4 and IPv6.

Usage: capture.py PEER [tshark]. With `tshark` that reads the captures; without it this program does. Prints how many packets it read.
The status is 0 if each packet has good checksums, and each STUN message a good FINGERPRINT.
"""
import pathlib
import struct
import subprocess
import sys
import tempfile
import zlib

import connect
from connect import Failed

COOKIE = bytes.fromhex("2112a442")
XOR = 0x5354554E  # RFC 8489, section 14.7
# What tshark prints of a packet; 1 is a good checksum.
FIELDS = ("_ws.malformed", "ip.version", "ip.checksum.status", "udp.checksum.status", "stun.type", "stun.att.crc32.status")
GREETING = b"good morning"


def total(data):
    """Returns the sum of RFC 1071: 0xffff if data has its own checksum in it."""
    data += b"\0" * (len(data) % 2)
    value = sum(struct.unpack(f"!{len(data) // 2}H", data))
    while value > 0xFFFF:
        value = (value & 0xFFFF) + (value >> 16)
    return value


def packets(path):
    """Reads a classic pcap file of either byte order, and returns its packets."""
    data = path.read_bytes()
    order = "<" if data[:4] == struct.pack("<I", 0xA1B2C3D4) else ">"
    if struct.unpack(order + "IHHiIII", data[:24]) != (0xA1B2C3D4, 2, 4, 0, 0, 65535, 101):
        raise Failed(f"the header of {path.name} is {data[:24].hex()}")
    at = 24
    while at < len(data):
        _, micros, length, whole = struct.unpack(order + "IIII", data[at:at + 16])
        if length != whole or micros >= 1_000_000 or at + 16 + length > len(data):
            raise Failed(f"a record of {path.name} is {data[at:at + 16].hex()}")
        yield data[at + 16:at + 16 + length]
        at += 16 + length


def payload(packet):
    """Tests the IP and UDP headers of a packet, and returns what follows, with the source port."""
    is_four = packet[0] >> 4 == 4
    size, addresses = (20, packet[12:20]) if is_four else (40, packet[8:40])
    length = struct.unpack("!H", packet[2:4] if is_four else packet[4:6])[0]
    udp = packet[size:]
    if length != len(packet) - (0 if is_four else 40) or struct.unpack("!H", udp[4:6])[0] != len(udp):
        raise Failed(f"a length of {packet.hex()}")
    if is_four and total(packet[:20]) != 0xFFFF or total(addresses + struct.pack("!II", len(udp), 17) + udp) != 0xFFFF:
        raise Failed(f"a checksum of {packet.hex()}")
    return struct.unpack("!H", udp[:2])[0], udp[8:]


def is_stun(contents):
    return contents[4:8] == COOKIE


def read(path):
    """Reads a capture, and returns the source port and the contents of each packet."""
    found = [payload(packet) for packet in packets(path)]
    for _, contents in found:
        if is_stun(contents) and contents[-8:] != struct.pack("!HHI", 0x8028, 4, zlib.crc32(contents[:-8]) ^ XOR):
            raise Failed(f"the FINGERPRINT of {contents.hex()}")
    return found


def read_by_tshark(path, found):
    """Lets tshark read a capture, and compares with what was found in it."""
    command = ["tshark", "-o", "ip.check_checksum:TRUE", "-o", "udp.check_checksum:TRUE", "-T", "fields", "-r", path]
    ran = subprocess.run([*command, *(word for field in FIELDS for word in ("-e", field))], capture_output=True, text=True, check=True)
    lines = [line.split("\t") for line in ran.stdout.splitlines()]
    if len(lines) != len(found):
        raise Failed(f"tshark read {len(lines)} of {len(found)} packets")
    for line, (_, contents) in zip(lines, found):
        malformed, version, ip, udp, kind, crc = line
        expected = (contents[:2], "1") if is_stun(contents) else (b"", "")
        if malformed or udp != "1" or (version == "4" and ip != "1"):
            raise Failed(f"tshark: {line}")
        if (struct.pack("!H", int(kind, 0)) if kind else b"", crc) != expected:
            raise Failed(f"tshark: {line} of {contents.hex()}")


def captured(folder, address):
    """Two peers connect and talk; returns their captures."""
    files = [folder / f"{name}-{address.replace(':', '_')}.pcap" for name in "ab"]
    a, b = (connect.Peer("-t", "30", "-a", address, "-w", str(file), role) for file, role in zip(files, connect.ROLES))
    connect.introduce(a, b)
    connect.connected(a, b)
    connect.talk(a, b)
    return files


def test(folder, address, by_tshark):
    """Tests the captures of two peers, and returns the number of packets."""
    files = captured(folder, address)
    found = [read(file) for file in files]
    for file, own in zip(files, found):
        sources = {port for port, _ in own}
        greetings = {port for port, contents in own if contents == GREETING}
        if len(sources) != 2 or greetings != sources or not any(is_stun(contents) for _, contents in own):
            raise Failed(f"{file.name} has packets from {sources}, and chat from {greetings}")
        if by_tshark:
            read_by_tshark(file, own)
    return sum(map(len, found))


def main():
    connect.PEER = sys.argv[1]
    by_tshark = "tshark" in sys.argv[2:]
    try:
        with tempfile.TemporaryDirectory() as folder:
            count = sum(test(pathlib.Path(folder), address, by_tshark) for address in ("127.0.0.1", "::1"))
        print(f"{count} packets")
        return 0
    except Failed as why:
        print(f"FAIL: {why}")
        return 1
    finally:
        for run in connect.Peer.runs:
            run.kill()
            run.wait()


if __name__ == "__main__":
    sys.exit(main())
