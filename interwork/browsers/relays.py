"""The TURN server of the cases through relays only: coturn, which starts with the first of them."""

from __future__ import annotations

import sys
from pathlib import Path
from typing import Any

from is_ice.interfaces import host_addresses

_INTERWORK = Path(__file__).resolve().parent.parent
sys.path += [str(_INTERWORK), str(_INTERWORK / "turn")]
import turn_servers  # noqa: E402

_running: list[turn_servers.Coturn] = []


def why_not() -> str:
    """Returns why there is no server, or an empty text."""
    return turn_servers.Coturn.why_not() or ""


def entry(transport: str) -> dict[str, Any]:
    """Returns the server over UDP or TCP, as an entry of a browser's iceServers."""
    if not _running:
        server = turn_servers.Coturn(host=host_addresses(True, False)[0])
        server.start()
        _running.append(server)
    host, port = _running[0].address
    return {"urls": f"turn:{host}:{port}?transport={transport}", "username": turn_servers.USER, "credential": turn_servers.PASSWORD}


def stop() -> None:
    """Ends the server."""
    while _running:
        _running.pop().__exit__()
