"""Datagrams that wait for a reader."""

from __future__ import annotations

import asyncio
from collections import deque


class Inbox:
    """A queue of datagrams, limited in bytes and in number. Beyond a limit the oldest ones are dropped and counted."""

    def __init__(self, most_bytes: int, most_datagrams: int) -> None:
        self.dropped = 0
        self._most_bytes, self._most_datagrams = most_bytes, most_datagrams
        self._waiting: deque[bytes] = deque()
        self._bytes = 0
        self._ended = False
        self._changed = asyncio.Event()

    def put(self, data: bytes) -> None:
        """Adds a datagram."""
        if self._ended:
            return
        self._waiting.append(data)
        self._bytes += len(data)
        while self._bytes > self._most_bytes or len(self._waiting) > self._most_datagrams:
            self._bytes -= len(self._waiting.popleft())
            self.dropped += 1
        self._changed.set()

    async def get(self) -> bytes | None:
        """Waits for a datagram, and returns it, or None at the end."""
        while not self._waiting:
            if self._ended:
                return None
            self._changed.clear()
            await self._changed.wait()
        data = self._waiting.popleft()
        self._bytes -= len(data)
        return data

    def end(self) -> None:
        """Drops what waits, uncounted, and ends each `get`."""
        self._ended, self._bytes = True, 0
        self._waiting.clear()
        self._changed.set()
