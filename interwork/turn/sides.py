"""Sockets at a TURN server with our client of it, and the loop around them. Nothing here knows a rule of TURN.

A side may lose what it sends and receives at random, and counts the messages that it sends and receives by their kind.
"""
import collections
import os
import random
import selectors
import socket
import struct
import time

from is_ice import Protocol, ServerAllocated, ServerEnded, Servers, SocketAddress, frame_length

import turn_servers

MILLISECOND, SECOND = 10**6, 10**9
NAMES = {1: "Binding", 3: "Allocate", 4: "Refresh", 6: "Send", 7: "Data", 8: "CreatePermission", 9: "ChannelBind"}
MEDIA = b"\x80"  # the first byte of RTP (RFC 7983)


def now():
    return time.monotonic_ns()


def kind_of(message):
    """The method of a message, with the code of an error response; of ChannelData its name. Of what is too short for either: "other"."""
    if len(message) < 2:
        return "other"
    if message[0] >= 0x40:
        return "ChannelData"
    kind = struct.unpack("!H", message[:2])[0]
    at = 20
    while kind & 0x110 == 0x110 and at + 8 <= len(message):
        attribute, length = struct.unpack("!HH", message[at:at + 4])
        if attribute == 9:
            return f"{NAMES[kind & ~0x110]} {message[at + 6] * 100 + message[at + 7]}"
        at += 4 + length + -length % 4
    return NAMES.get(kind & ~0x110, "other")


class Datagrams:
    """A UDP socket. `loss` is the part that it loses in each direction."""

    protocol = Protocol.UDP

    def __init__(self, server, loss, seed):
        self.socket = socket.socket(socket.AF_INET6 if ":" in server[0] else socket.AF_INET, socket.SOCK_DGRAM)
        self.socket.bind((server[0], 0))
        self.socket.setblocking(False)
        self.loss, self.random = loss, random.Random(seed)
        self.counts = collections.Counter()  # by (direction, kind)

    def send(self, contents, destination):
        self.counts[">", kind_of(contents)] += 1
        if self.random.random() >= self.loss:
            try:
                self.socket.sendto(contents, (destination.ip, destination.port))
            except OSError:
                pass  # nobody listens there, as while the server is down

    def receive(self):
        """What arrived, as (contents, source)."""
        while True:
            try:
                contents, source = self.socket.recvfrom(65536)
            except (BlockingIOError, ConnectionRefusedError):
                return
            self.counts["<", kind_of(contents)] += 1
            if self.random.random() >= self.loss:
                yield contents, SocketAddress(*source[:2])


class Stream:
    """A TCP connection to a server, read frame by frame."""

    protocol = Protocol.TCP

    def __init__(self, server, *_):
        self.server, self.kept, self.is_open = SocketAddress(*server), b"", True
        self.socket = socket.create_connection(server)
        self.socket.setblocking(False)
        self.counts = collections.Counter()

    def send(self, contents, _):
        self.counts[">", kind_of(contents)] += 1
        self.socket.sendall(contents)

    def receive(self):
        """The frames that are complete, with the server's address."""
        try:
            chunk = self.socket.recv(65536)
        except BlockingIOError:
            return
        self.is_open = bool(chunk)
        self.kept += chunk
        while (length := frame_length(self.kept)) is not None and length <= len(self.kept):
            frame, self.kept = self.kept[:length], self.kept[length:]
            self.counts["<", kind_of(frame)] += 1
            yield frame, self.server


class Side:
    """A client of a TURN server, with its socket or connection. `events` has its events, with their time; `data` what peers sent."""

    def __init__(self, server, over=Datagrams, password=turn_servers.PASSWORD, loss=0.0, seed=1, family=None):
        self.at = over(server, loss, seed)
        self.local, self.server = SocketAddress(*self.at.socket.getsockname()[:2]), SocketAddress(*server)
        self.servers, self.events, self.data, self.begun = Servers(), [], [], now()
        self.servers.add_turn(self.begun, self.local, self.server, turn_servers.USER, password, self.at.protocol, family)

    @property
    def relayed(self):
        return next((event.relayed for _, event in self.events if isinstance(event, ServerAllocated)), None)

    @property
    def ended(self):
        """Its end, if that was reported."""
        return next((event for _, event in self.events if isinstance(event, ServerEnded)), None)

    @property
    def due(self):
        return self.servers.poll_timeout()

    def take(self):
        """Passes on what arrived."""
        for contents, source in self.at.receive():
            datagram = self.servers.receive(now(), source, self.local, contents, self.at.protocol)
            if datagram is not None:
                self.data.append(datagram)

    def send(self, peer, contents):
        """Sends from the relayed address."""
        packet = self.servers.outgoing(now(), self.relayed, peer, contents, os.urandom(12))
        if packet:
            self.at.send(packet.contents, packet.destination)

    def turn(self):
        """Handles a timeout that is due, sends packets and takes events."""
        if self.due is not None and self.due <= now():
            self.servers.handle_timeout(now(), os.urandom(12))
        while packet := self.servers.poll_transmit():
            self.at.send(packet.contents, packet.destination)
        while event := self.servers.poll_event():
            self.events.append((now(), event))

    def close(self):
        self.at.socket.close()


def run(sides, seconds, until=lambda: False):
    """Runs sides until the test holds, or for so long. Returns whether it held."""
    end, ready = now() + round(seconds * SECOND), selectors.DefaultSelector()
    for side in sides:
        ready.register(side.at.socket, selectors.EVENT_READ, side)
        side.turn()
    with ready:
        while now() < end and not until():
            wait = min([end, *(side.due for side in sides if side.due is not None)]) - now()
            for key, _ in ready.select(max(0, wait) / SECOND):
                key.data.take()
            for side in sides:
                side.turn()
    return bool(until())


def permit(a, b):
    """Each lets the other one's relayed address in."""
    a.servers.permit(now(), b.relayed)
    b.servers.permit(now(), a.relayed)


def is_media(datagram):
    return datagram.contents[:1] == MEDIA


def talk(pairs, seconds, every=0.05):
    """Both sides of each pair send numbered media to each other. Returns how much each pair sent, and how much of it arrived."""
    before = [sum(sum(map(is_media, side.data)) for side in pair) for pair in pairs]
    sent, end, sides = [0] * len(pairs), now() + round(seconds * SECOND), [side for pair in pairs for side in pair]
    while now() < end:
        for number, pair in enumerate(pairs):
            for side, other in (pair, pair[::-1]):
                if side.relayed and not side.ended:
                    side.send(other.relayed, MEDIA + struct.pack("!I", sent[number]) + bytes(100))
                    sent[number] += 1
        run(sides, every)
    run(sides, 1)
    after = [sum(sum(map(is_media, side.data)) for side in pair) for pair in pairs]
    return [(count, late - early) for count, late, early in zip(sent, after, before)]


def counted(sides, *kinds):
    """How many responses of these kinds the sides got, as text: of requests that succeeded, and of errors by their code."""
    total = sum((side.at.counts for side in sides), collections.Counter())
    return ", ".join(f"{total['<', kind]} {kind}" for kind in kinds if total["<", kind]) or "no renewal"
