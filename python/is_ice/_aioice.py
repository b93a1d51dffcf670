"""aioice, which is optional: its mDNS client."""

from __future__ import annotations

from typing import Any


def aioice_part(name: str) -> Any:
    """Returns a module of aioice, or None if aioice is not installed."""
    try:
        return __import__(f"aioice.{name}", fromlist=[name])
    except ImportError:
        return None


def needed_part(name: str, what: str) -> Any:
    """Returns a module of aioice. ImportError says what to install for `what`; the extra of this package has the module's name."""
    if part := aioice_part(name):
        return part
    raise ImportError(f"{what} needs aioice: pip install 'is_ice[{name}]', or apt install python3-aioice")
