"""A client of aioice.

usage: aioice_client.py PORT lasting SECONDS    media to a peer that sends it back: prints how much came, and the longest time without any
       aioice_client.py PORT barred PEER        sends to a peer that the server bars, twice: prints what becomes of each
"""
import asyncio
import logging
import sys
import time

from aioice import turn

HOST, EVERY, PATIENCE = "127.0.0.1", 0.25, 5.0  # seconds


class Echo(asyncio.DatagramProtocol):
    """A peer that sends back what it gets."""

    def connection_made(self, transport):
        self.transport, self.count = transport, 0

    def datagram_received(self, data, source):
        self.count += 1
        self.transport.sendto(data, source)


class Taken(asyncio.DatagramProtocol):
    """What comes through the relay."""

    def __init__(self):
        self.count = 0

    def datagram_received(self, data, source):
        self.count += 1


async def lasting(client, taken, seconds):
    transport, echo = await asyncio.get_running_loop().create_datagram_endpoint(Echo, local_addr=(HOST, 0))
    begun, sent, since, longest = time.monotonic(), 0, 0.0, (0.0, 0.0)
    while time.monotonic() - begun < float(seconds):
        before = taken.count
        await client.send_data(b"\x80ping", transport.get_extra_info("sockname"))
        sent += 1
        await asyncio.sleep(EVERY)
        now = time.monotonic() - begun
        if taken.count > before:
            since = now
        longest = max(longest, (since, now), key=lambda span: span[1] - span[0])
    print(f"sent {sent}, {echo.count} at the peer, {taken.count} back, none from {longest[0]:.0f} s to {longest[1]:.0f} s", flush=True)


async def barred(client, _, peer):
    for name in ("first", "second"):
        try:
            await asyncio.wait_for(client.send_data(b"x", (peer, 9)), PATIENCE)
            print(f"{name}: sent", flush=True)
        except asyncio.TimeoutError:
            print(f"{name}: waits", flush=True)
        except Exception as error:
            print(f"{name}: {error}", flush=True)


async def main():
    port, play, word = sys.argv[1:]
    taken = Taken()
    transport, _ = await turn.create_turn_endpoint(lambda: taken, (HOST, int(port)), "user", "secret")
    call = lasting if play == "lasting" else barred
    await call(transport._TurnTransport__inner_protocol, taken, word)


logging.disable(logging.CRITICAL)
asyncio.run(main())
