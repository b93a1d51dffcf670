"""Two hosts that are far from each other: a TUN device in each namespace, and in this program NATs, delay, jitter and loss between them.

usage: distance.py SIDE SIDE [delay=0.02] [jitter=0] [loss=0] [trace=FILE]     SIDE: NAMESPACE/KIND/ADDRESS,ADDRESS,..

Only the first address of a host reaches the other one: as it is, or through a NAT of this kind (networks.py) with the outer address
198.51.100.2 or 198.51.100.6. What is sent from the other addresses is lost. Each packet waits for `delay` seconds and up to `jitter` more,
and is lost with the probability `loss`. The STUN server at 203.0.113.1:3478 is near: it responds at once.

It reads lines `valid USERNAME`, and prints the time.monotonic() at which the first success response to a check with this USERNAME came
back to its sender, or `never`. From then on that side has a valid pair, on which media may go (RFC 8445, section 12.1). A response after
eleven later checks on the same path does not count: our agent has forgotten its check.

With `trace` it writes a line to FILE for each packet that is sent, lost, filtered by a NAT, or delivered: time.monotonic(), the side that
sent it, what became of it, the source, the destination, the kind of STUN message, and N if it nominates.
"""
import collections
import heapq
import os
import random
import select
import socket
import struct
import subprocess
import sys
import time

sys.dont_write_bytecode = True
from servers import ADDRESS, MAGIC_COOKIE, PORT
from tun import open_tun

STUN_SERVER = (socket.inet_aton(ADDRESS), PORT)
COOKIE = struct.pack("!I", MAGIC_COOKIE)
REQUEST, SUCCESS, USERNAME = 0x0001, 0x0101, 0x0006  # RFC 8489
MESSAGES = {REQUEST: "request", SUCCESS: "response", 0x0111: "error", 0x0011: "indication"}
USE_CANDIDATE = b"\x00\x25\x00\x00"  # RFC 8445: the attribute that nominates
OUTER = ("198.51.100.2", "198.51.100.6")
PENDING = 11  # checks of a pair that our agent remembers: max_retransmits of the modern settings


# ---- packets: IPv4 and UDP

def checksum(header):
    total = sum(struct.unpack("!10H", header))
    total = (total & 0xFFFF) + (total >> 16)
    return ~(total + (total >> 16)) & 0xFFFF


def packet(source, destination, payload):
    """A datagram with its headers. The UDP checksum of 0 says that there is none (RFC 768)."""
    head = struct.pack("!BBHHHBBH", 0x45, 0, 28 + len(payload), 0, 0, 64, 17, 0) + source[0] + destination[0]
    head = head[:10] + struct.pack("!H", checksum(head)) + head[12:]
    return head + struct.pack("!HHHH", source[1], destination[1], 8 + len(payload), 0) + payload


def opened(data):
    """The source, the destination and the payload of a datagram, or None."""
    if len(data) < 28 or data[0] != 0x45 or data[9] != 17:
        return None
    ports = struct.unpack("!HH", data[20:24])
    return (data[12:16], ports[0]), (data[16:20], ports[1]), data[28:]


def stun_message(payload):
    """The type, the transaction ID and the USERNAME of a STUN message, or None."""
    if len(payload) < 20 or payload[4:8] != COOKIE:
        return None
    name, place = None, 20
    while place + 4 <= len(payload):
        kind, length = struct.unpack("!HH", payload[place:place + 4])
        if kind == USERNAME:
            name = payload[place + 4:place + 4 + length].decode(errors="replace")
        place += 4 + length + -length % 4
    return int.from_bytes(payload[:2], "big"), payload[8:20], name


def binding_response(request, mapped):
    """The response to a Binding request, with XOR-MAPPED-ADDRESS."""
    hidden = bytes(a ^ b for a, b in zip(mapped[0], COOKIE))
    return b"\x01\x01\x00\x0c" + request[4:20] + struct.pack("!HHBBH", 0x0020, 8, 0, 1, mapped[1] ^ (MAGIC_COOKIE >> 16)) + hidden


# ---- NATs

class Nat:
    """The NAT of a host, or none. `inner` is the host's address."""

    def __init__(self, kind, inner, outer):
        self.kind, self.inner, self.outer = kind, inner, inner if kind == "none" else outer
        self.mapped, self.inner_port, self.sent_to = {}, {}, set()

    def port_of(self, port, destination):
        """The outer port: another one for each destination, or the inner one."""
        if self.kind != "symmetric":
            return port
        key = port, destination
        if key not in self.mapped:
            ports = iter(lambda: random.randrange(40000, 60000), None)
            self.mapped[key] = next(port for port in ports if port not in self.inner_port)
        return self.mapped[key]

    def outbound(self, source, destination):
        """The source that the other side sees."""
        port = self.port_of(source[1], destination)
        self.inner_port[port] = source[1]
        self.sent_to.add((port, destination))
        return self.outer, port

    def inbound(self, source, destination):
        """The address inside to which a packet goes, or None if it is not let in."""
        if destination[0] != self.outer:
            return None
        if self.kind == "none":
            return destination
        is_open = self.kind == "cone" or (destination[1], source) in self.sent_to
        return (self.inner, self.inner_port[destination[1]]) if is_open and destination[1] in self.inner_port else None


# ---- the distance

class Distance:
    """Packets on their way."""

    def __init__(self, devices, nats, settings):
        self.devices, self.nats, self.settings = devices, nats, settings
        self.waiting, self.serial = [], 0
        self.asked, self.valid = {}, {}  # USERNAME and path by transaction ID; when the first response to a check with this USERNAME came
        self.pending = collections.defaultdict(lambda: collections.deque(maxlen=PENDING))  # the last transaction IDs by USERNAME and path
        self.trace = open(settings["trace"], "a", buffering=1) if "trace" in settings else None

    def note(self, side, what, source, destination, payload):
        """Writes what became of a packet that `side` sent."""
        if self.trace is None:
            return
        message = stun_message(payload)
        kind = MESSAGES.get(message[0], "STUN") if message else f"{len(payload)} bytes"
        ends = (f"{socket.inet_ntoa(address)}:{port}" for address, port in (source, destination))
        print(f"{time.monotonic():.4f}", "ab"[side], what, *ends, kind, "N" * (bool(message) and USE_CANDIDATE in payload),
              message[1].hex()[:8] if message else "", file=self.trace)

    def put(self, side, source, destination, payload):
        """Writes a datagram to a host's device."""
        try:
            os.write(self.devices[side], packet(source, destination, payload))
        except OSError:
            pass  # as a full queue of a router

    def take(self, side):
        """Takes what a host sent."""
        found = opened(os.read(self.devices[side], 65536))
        nat = self.nats[side]
        if found is None:
            return
        source, destination, payload = found
        if source[0] != nat.inner:
            self.note(side, "nowhere", source, destination, payload)
            return
        seen = nat.outbound(source, destination)
        if destination == STUN_SERVER:
            self.put(side, destination, source, binding_response(payload, seen))
            return
        message = stun_message(payload)
        if message and message[0] == REQUEST and message[2]:
            self.asked[message[1]] = message[2], source, destination
            self.pending[self.asked[message[1]]].append(message[1])
        is_lost = random.random() < self.settings["loss"]
        self.note(side, "lost" if is_lost else "sent", source, destination, payload)
        if is_lost:
            return
        self.serial += 1
        due = time.monotonic() + self.settings["delay"] + random.random() * self.settings["jitter"]
        heapq.heappush(self.waiting, (due, self.serial, 1 - side, seen, destination, payload))

    def arrive(self, side, source, destination, payload):
        """Passes a packet through the NAT of the host to which it goes."""
        inside = self.nats[side].inbound(source, destination)
        self.note(1 - side, "filtered" if inside is None else "arrived", source, destination, payload)
        if inside is None:
            return
        message = stun_message(payload)
        if message and message[0] == SUCCESS and message[1] in self.pending[self.asked.get(message[1])]:
            self.valid.setdefault(self.asked[message[1]][0], time.monotonic())
        self.put(side, source, inside, payload)

    def deliver(self):
        """Delivers the packets that are due. Returns the seconds until the next one, or None."""
        while self.waiting and self.waiting[0][0] <= time.monotonic():
            self.arrive(*heapq.heappop(self.waiting)[2:])
        return max(0, self.waiting[0][0] - time.monotonic()) if self.waiting else None


def side_of(words, outer):
    """The device and the NAT of NAMESPACE/KIND/ADDRESS,ADDRESS,.."""
    namespace, kind, addresses = words.split("/")
    addresses = addresses.split(",")
    device = open_tun(namespace)
    for command in (*(f"addr add {address}/32 dev w0" for address in addresses), "link set w0 up", "route add default dev w0"):
        subprocess.run(["ip", *command.split()], check=True)
    return device, Nat(kind, socket.inet_aton(addresses[0]), socket.inet_aton(outer))


def main():
    settings = {"delay": 0.0, "jitter": 0.0, "loss": 0.0}
    words = dict(word.split("=", 1) for word in sys.argv[3:])
    settings.update((key, value if key == "trace" else float(value)) for key, value in words.items())
    devices, nats = zip(*(side_of(words, outer) for words, outer in zip(sys.argv[1:3], OUTER)))
    distance = Distance(devices, nats, settings)
    print("ready", flush=True)
    while True:
        ready, _, _ = select.select([*devices, sys.stdin], [], [], distance.deliver())
        for source in ready:
            if source is not sys.stdin:
                distance.take(devices.index(source))
            elif line := sys.stdin.readline():
                print(distance.valid.get(line.split()[1], "never"), flush=True)
            else:
                return


main()
