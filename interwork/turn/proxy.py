"""A UDP proxy that loses datagrams at random, in each direction. Each client has a socket of its own to the server.

usage: proxy.py PORT SERVER-PORT LOSS SEED      both ports at 127.0.0.1

Who allocates once more without a signature is another client, on the port of one that ended.
"""
import contextlib
import random
import selectors
import socket
import sys

HOST = "127.0.0.1"
ALLOCATE, ALLOCATED, MESSAGE_INTEGRITY = b"\x00\x03", b"\x01\x03", b"\x00\x08\x00\x14"  # the first bytes of each


def main():
    port, server, loss, seed = int(sys.argv[1]), int(sys.argv[2]), float(sys.argv[3]), sys.argv[4]
    chance, ready, clients, servers, served = random.Random(seed), selectors.DefaultSelector(), {}, {}, set()
    front = socket.socket(socket.AF_INET, socket.SOCK_DGRAM)
    front.bind((HOST, port))
    ready.register(front, selectors.EVENT_READ)
    while True:
        for key, _ in ready.select():
            with contextlib.suppress(OSError):
                data, source = key.fileobj.recvfrom(65536)
                if data[:2] == ALLOCATED:
                    served.add(clients[key.fileobj])
                if data[:2] == ALLOCATE and MESSAGE_INTEGRITY not in data and source in served:
                    served.remove(source)
                    del servers[source]
                if key.fileobj is front and source not in servers:
                    servers[source] = socket.socket(socket.AF_INET, socket.SOCK_DGRAM)
                    servers[source].connect((HOST, server))
                    clients[servers[source]] = source
                    ready.register(servers[source], selectors.EVENT_READ)
                if chance.random() < loss:
                    continue
                if key.fileobj is front:
                    servers[source].send(data)
                else:
                    front.sendto(data, clients[key.fileobj])


if __name__ == "__main__":
    main()
