"""Lets aiortc use the agent for ICE.

    import is_ice.aiortc
    is_ice.aiortc.install()

An RTCPeerConnection creates its ICE transports when the first channel, track or transceiver is added, or the first description is set.
Those that are created after this call use the agent. The others, and aiortc itself, are unchanged.
"""

from __future__ import annotations

import importlib
from collections.abc import Callable
from typing import Any

from . import connection


def _modules() -> tuple[Any, Any]:
    """Returns aiortc's ICE transport and aioice. ImportError says what to install."""
    try:
        return importlib.import_module("aiortc.rtcicetransport"), importlib.import_module("aioice")
    except ImportError as error:
        raise ImportError("aiortc is not installed: pip install 'is_ice[aiortc]', or apt install python3-aiortc") from error


def install(created: Callable[[connection.Connection], None] | None = None) -> None:
    """Makes each ICE transport that aiortc creates from now on use the agent. `created` is called with its connection."""
    transport, aioice = _modules()

    class Connection(connection.Connection):
        """The connection, with the event that aiortc waits for."""

        closed_event = aioice.ConnectionClosed

        def __init__(self, *arguments: Any, **more: Any) -> None:
            super().__init__(*arguments, **more)
            if created:
                created(self)

    transport.Connection = Connection


def uninstall() -> None:
    """Makes each ICE transport that aiortc creates from now on use aioice."""
    transport, aioice = _modules()
    transport.Connection = aioice.Connection
