"""The shared library, loaded by the first call that needs it, and the buffers for the texts that it writes."""

from __future__ import annotations

import ctypes
import os
from collections.abc import Callable
from ctypes import POINTER, byref, c_int32, c_size_t, c_uint32, create_string_buffer, string_at
from functools import cached_property
from pathlib import Path

from . import _abi
from .errors import BadCandidate, done, error_of

NAME = "libis_ice.so"
_BUFFER_LENGTH = 256


def library_path() -> Path:
    """The shared library: the one next to this module, else that of IS_ICE_LIB, else that of python/build in a clone.

    If IS_ICE_LIB names an archive (.a), as for C and Rust, it is the one that python/build linked from it."""
    folder = Path(__file__).resolve().parent
    installed, named = folder / NAME, os.environ.get("IS_ICE_LIB", "")
    if installed.exists():
        return installed
    return Path(named) if named and not named.endswith(".a") else folder.parent / "out" / NAME


def load(path: Path | None = None) -> ctypes.CDLL:
    """Loads the library and sets its prototypes. OSError if it does not exist or has another version."""
    path = path or library_path()
    if not path.exists():
        raise OSError(f"{path} does not exist: run python/build, or set IS_ICE_LIB to a shared library")
    loaded = ctypes.CDLL(str(path))
    loaded.is_ice_version.restype, loaded.is_ice_version.argtypes = c_uint32, []
    if loaded.is_ice_version() != _abi.VERSION:
        raise OSError(f"{path} has version {loaded.is_ice_version()} of the interface; this module needs {_abi.VERSION}")
    loaded.is_ice_agent_free.restype, loaded.is_ice_agent_free.argtypes = None, [POINTER(_abi.Agent)]
    loaded.is_ice_servers_free.restype, loaded.is_ice_servers_free.argtypes = None, [POINTER(_abi.Servers)]
    for name, arguments in _abi.PROTOTYPES.items():
        function = getattr(loaded, name)
        function.restype, function.argtypes = c_int32, arguments
    return loaded


class _Library:
    """The shared library."""

    @cached_property
    def calls(self) -> ctypes.CDLL:
        """The library with its prototypes."""
        return load()

    @cached_property
    def loop_calls(self) -> ctypes.PyDLL:
        """The library without prototypes, whose calls hold the interpreter's lock: `_loop_calls` says how to call it."""
        return ctypes.PyDLL(self.calls._name, handle=self.calls._handle)


library = _Library()


def bytes_from(call: Callable[..., int], size: int = _BUFFER_LENGTH) -> bytes | None:
    """Returns the bytes that a call writes to a buffer, which grows until it is long enough, or None if there are none."""
    length = c_size_t()
    while True:
        buffer = create_string_buffer(size)
        code = call(buffer, size, byref(length))
        if code == _abi.BUFFER_TOO_SHORT:
            size = length.value
        else:
            return string_at(buffer, length.value) if done(code) else None


def text_from(call: Callable[..., int]) -> str | None:
    """Returns the text that a call writes, or None if there is none."""
    text = bytes_from(call)
    return None if text is None else text.decode()


def bytes_or_refusal(call: Callable[..., int], refusal: Callable[..., int], otherwise: str = "") -> bytes:
    """Returns the bytes that a call writes. BadCandidate has the explanation that another call writes, if it writes one."""
    try:
        return bytes_from(call) or b""
    except BadCandidate:
        raise error_of(BadCandidate.code, text_from(refusal) or otherwise) from None
