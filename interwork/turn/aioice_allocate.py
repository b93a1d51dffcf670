"""Measures how long aioice's TURN client takes to allocate: prints the milliseconds of each, or "failed".

usage: aioice_allocate.py HOST PORT ALLOCATIONS AT-ONCE
"""
import asyncio
import logging
import sys
import time

from aioice import stun, turn


async def allocate(server, gate):
    async with gate:
        begun = time.monotonic()
        try:
            transport, _ = await turn.create_turn_endpoint(asyncio.DatagramProtocol, server, "user", "secret")
        except stun.TransactionError:
            print("failed", flush=True)
            return
        print(f"{(time.monotonic() - begun) * 1000:.3f}", flush=True)
        transport.close()


async def main():
    host, port, count, at_once = sys.argv[1], *map(int, sys.argv[2:])
    gate = asyncio.Semaphore(at_once)
    await asyncio.gather(*(allocate((host, port), gate) for _ in range(count)))


logging.disable(logging.CRITICAL)
asyncio.run(main())
