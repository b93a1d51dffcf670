"""Captures the UDP packets on the loopback interface of a network namespace."""
import ctypes
import socket
import struct
import threading

CLONE_NEWNET, IPV4, UDP = 0x40000000, 0x0800, 17


class Sniffer:
    """Captures until `close`, on a thread of its own."""

    def __init__(self, namespace):
        self.packets, self.is_open, self.ready = [], True, threading.Event()  # (source, destination, payload)
        self.thread = threading.Thread(target=self.run, args=(namespace,), daemon=True)
        self.thread.start()
        if not self.ready.wait(3):
            raise RuntimeError("the sniffer did not start")

    def run(self, namespace):
        """Reads packets. Only this thread enters the namespace."""
        with open(f"/var/run/netns/{namespace}") as file:
            if ctypes.CDLL(None, use_errno=True).setns(file.fileno(), CLONE_NEWNET) != 0:
                return
        with socket.socket(socket.AF_PACKET, socket.SOCK_DGRAM, socket.htons(IPV4)) as capture:
            capture.settimeout(0.2)
            self.ready.set()
            while self.is_open:
                try:
                    data, where = capture.recvfrom(65536)
                except socket.timeout:
                    continue
                if where[2] != socket.PACKET_OUTGOING and data[9] == UDP:
                    self.take(data)

    def take(self, data):
        """Stores an IPv4 packet."""
        ports = struct.unpack("!HH", data[20:24])
        source, destination = ((socket.inet_ntoa(data[i:i + 4]), port) for i, port in zip((12, 16), ports))
        self.packets.append((source, destination, data[28:]))

    def to(self, address):
        """The payloads that went to an address."""
        return [payload for _, destination, payload in self.packets if destination == address]

    def close(self):
        self.is_open = False
        self.thread.join()
