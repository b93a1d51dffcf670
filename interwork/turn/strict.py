"""Runs the simulator's TURN server over UDP sockets of this machine: each relayed address is a socket of its own.

usage: strict.py HOST PORT [ALLOCATION PERMISSION CHANNEL NONCE]      how long each lasts, in seconds
       strict.py HOST PORT unsigned                                   signs no response, as a server that does not know the password
"""
import random
import selectors
import socket
import sys
import time
from pathlib import Path

top = Path(__file__).resolve().parents[2]
sys.path[:0] = [str(top), str(top / "python")]
from is_ice import SocketAddress
from lab.clock import SECOND
from lab.turn_server import Lifetimes, TurnServer


class Unsigned(TurnServer):
    """Challenges clients, and then allocates without a signature."""

    def _success(self, message, rows, key=None):
        return super()._success(message, rows, None)


class Sockets:
    """The server's own socket, and one for each relayed address."""

    def __init__(self, host, port, lifetimes, kind=TurnServer):
        first_port = random.randrange(20000, 60000)  # another server may run at this host
        self.server = kind(SocketAddress(host, port), random.SystemRandom(), lifetimes, first_port)
        self.ready, self.own = selectors.DefaultSelector(), {}
        self.bind(self.server.address)

    def bind(self, address):
        opened = socket.socket(socket.AF_INET6 if address.version == 6 else socket.AF_INET, socket.SOCK_DGRAM)
        opened.bind((address.ip, address.port))
        self.own[address] = opened
        self.ready.register(opened, selectors.EVENT_READ, address)

    def turn(self):
        """Takes what arrived, and opens the sockets of new relayed addresses, which last as long as the program."""
        for key, _ in self.ready.select():
            data, (ip, port, *_) = key.fileobj.recvfrom(65536)
            now, source = time.monotonic_ns(), SocketAddress(ip, port)
            is_client = key.data == self.server.address
            sent = self.server.receive(now, source, data) if is_client else self.server.receive_from_peer(now, key.data, source, data)
            for allocation in self.server.allocations.values():
                if allocation.relayed not in self.own:
                    self.bind(allocation.relayed)
            for one in sent:
                self.own[one.source].sendto(one.contents, (one.destination.ip, one.destination.port))


def main():
    host, port, *words = sys.argv[1:]
    if words == ["unsigned"]:
        sockets = Sockets(host, int(port), Lifetimes(), Unsigned)
    else:
        sockets = Sockets(host, int(port), Lifetimes(*(round(float(word) * SECOND) for word in words)))
    while True:
        sockets.turn()


if __name__ == "__main__":
    main()
