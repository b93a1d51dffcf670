"""How fast a connection is next to one of aioice: gathering and connecting over loopback, and datagrams per second of CPU time.

Five connections of each, in turn; needs aioice (Debian's python3-aioice)."""
import asyncio
import statistics
import sys
import time
from unittest import mock

import aioice

from is_ice.connection import Connection

DATAGRAMS, LENGTH, BURST = 10000, 1200, 32
KINDS = {"is_ice": lambda controlling: Connection(controlling, addresses=["127.0.0.1"]), "aioice": aioice.Connection}


async def join(a, b):
    """Gathers, signals and connects."""
    await asyncio.gather(a.gather_candidates(), b.gather_candidates())
    for one, other in ((a, b), (b, a)):
        one.remote_username, one.remote_password = other.local_username, other.local_password
        for candidate in other.local_candidates:
            await one.add_remote_candidate(candidate)
        await one.add_remote_candidate(None)
    await asyncio.gather(a.connect(), b.connect())


async def datagrams(a, b):
    """Sends bursts, and waits for the last datagram of each. Returns datagrams per second of CPU time."""
    data, start = bytes([128]) * LENGTH, time.process_time()
    for _ in range(DATAGRAMS // BURST):
        for _ in range(BURST):
            await a.send(data)
        for _ in range(BURST):
            await asyncio.wait_for(b.recv(), 2)
    return DATAGRAMS / (time.process_time() - start)


async def measure(kind):
    """Returns the time to connect in ms, and the rate."""
    a, b = kind(True), kind(False)
    start = time.monotonic()
    await join(a, b)
    took = 1000 * (time.monotonic() - start)
    rate = await datagrams(a, b)
    await asyncio.gather(a.close(), b.close())
    return took, rate


with mock.patch("aioice.ice.get_host_addresses", lambda use_ipv4, use_ipv6: ["127.0.0.1"]):
    found = {name: [] for name in KINDS}
    for _ in range(int(sys.argv[1]) if len(sys.argv) > 1 else 5):
        for name, kind in KINDS.items():
            found[name].append(asyncio.run(measure(kind)))
for name, results in found.items():
    took, rate = (statistics.median(column) for column in zip(*results))
    print(f"{name}: connected after {took:.0f} ms, {rate:.0f} datagrams of {LENGTH} bytes per second of CPU time (medians)")
