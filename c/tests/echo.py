"""Tests the server echo (examples/echo.c): peers connect to it, all on one socket, and hear what they send. usage: echo.py ECHO PEER [N]"""
import sys

import connect
from connect import Failed, Peer


def main():
    connect.PEER = sys.argv[1]
    server = Peer("127.0.0.1")
    connect.PEER = sys.argv[2]
    peers = [Peer("-l", "-a", "127.0.0.1", "-t", "60", "controlling") for _ in range(int(sys.argv[3]) if sys.argv[3:] else 5)]
    try:
        ufrags = []
        for peer in peers:
            server.hears("signal " + peer.says("signal "))
            signal = server.says("signal ")
            peer.hears("signal " + signal)
            ufrags.append(signal.split()[0])
        for number, peer in enumerate(peers):
            peer.says("path ")
            server.says(f"{ufrags[number]}: selected ")  # before that it takes no media
            peer.hears(f"this is {number}")
        for number, peer in enumerate(peers):
            if peer.says("heard ") != f"this is {number}":
                raise Failed(f"{peer.told}")
            peer.hears("/quit")
            peer.ends()
        server.run.stdin.close()
        server.ends()
    finally:
        for process in Peer.runs:
            process.kill()
    print(f"{len(peers)} peers on one socket")


if __name__ == "__main__":
    main()
