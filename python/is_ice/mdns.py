"""Names of multicast DNS in place of IP addresses (RFC 6762): the peer's are resolved, and names of one's own are offered.

Both by aioice's client, which is optional. It uses IPv4, and the interface of the default route. It is imported with this module: that
takes longer than a session takes to connect, and in a thread of its own it would take the interpreter's lock from the session.
"""

from __future__ import annotations

import asyncio
import contextlib
import logging
import uuid
from typing import Any

from ._aioice import aioice_part, needed_part

_log = logging.getLogger(__name__)

_WAITS = (1.0, 2.0)  # seconds after each query of a name: at least 1 s, then twice as long (RFC 6762, section 5.2)
_CLOSING = 1.0  # seconds for the socket to be opened or closed

with contextlib.suppress(Exception):  # whoever needs it is told why it cannot be used
    aioice_part("mdns")


def mdns_client() -> Any:
    """Returns aioice's client. ImportError says what to install."""
    return needed_part("mdns", "an mDNS name")


async def _open() -> Any:
    return await mdns_client().create_mdns_protocol()


class Mdns:
    """Resolves mDNS names, and responds for names of its own, by one socket. It opens the socket when it first needs it."""

    def __init__(self) -> None:
        self._opened: asyncio.Future[Any] | None = None

    async def _client(self) -> Any:
        if self._opened is None:
            self._opened = asyncio.ensure_future(_open())
        return await asyncio.shield(self._opened)  # whoever is cancelled here leaves it to others

    async def resolve(self, name: str) -> str | None:
        """Returns the IP address of a name, or None if nobody responds within 3 s, or if mDNS cannot be used."""
        try:
            client = await self._client()
            for wait in _WAITS:
                if (address := await client.resolve(name, wait)) is not None:
                    return str(address)
        except Exception as error:  # no aioice, no socket, or a name that DNS cannot have: dnspython has exceptions of its own
            _log.info("mDNS: %r", error)
        return None

    async def offer(self, ip: str) -> str:
        """Returns a new name, for which this object responds with an IP address until it is closed.

        ImportError if aioice is not installed. If mDNS cannot be used, nobody resolves the name: a warning says so.
        """
        name = f"{uuid.uuid4()}.local"
        try:
            await (await self._client()).publish(name, ip)
        except OSError as error:
            _log.warning("nobody resolves %s: %s", name, error)
        return name

    async def close(self) -> None:
        """Closes the socket, within two seconds."""
        opened, self._opened = self._opened, None
        if opened is None:
            return
        try:
            client = await asyncio.wait_for(opened, _CLOSING)
            await asyncio.wait_for(client.close(), _CLOSING)
        except Exception as error:  # as it was not opened
            _log.debug("mDNS: %r", error)
