"""Media, for the program: where it goes and from where it comes, whether the path is silent, and what the system did not send."""

from __future__ import annotations

from ctypes import byref, c_uint64

from . import _abi
from ._locked import one_call_at_a_time
from ._settings import Setters
from .address import PROTOCOLS, Protocol, SocketAddress, address_of, in_range, socket_of
from .errors import done
from .events import FailedSend, MediaPath


def path_of(path: _abi.MediaPath) -> MediaPath:
    """Converts from the library's struct."""
    return MediaPath(socket_of(path.source), socket_of(path.destination), PROTOCOLS[path.protocol])


@one_call_at_a_time
class Media(Setters):
    """What an `IceAgent` says of media, also across an ICE restart."""

    def media_path(self, now: int) -> MediaPath | None:
        """Returns the path for media now, or None if there is none.

        It is the selected one. After an ICE restart it is the one before, until the new session has selected one, or consent for it ends
        (RFC 8445, section 9). Without either it is that of a valid pair (section 12.1).
        """
        path = _abi.MediaPath()
        if not done(self._c.is_ice_path_for_media(self._at, in_range(now, 64, "a time"), byref(path))):
            return None
        return path_of(path)

    def takes_media_from(self, now: int, source: SocketAddress) -> bool:
        """Returns whether media may come from this address now: there is a valid pair to it, or media went there before an ICE restart,
        and still may.
        """
        return done(self._c.is_ice_takes_media_from(self._at, in_range(now, 64, "a time"), address_of(source)))

    @property
    def silent_since(self) -> int | None:
        """When the last authentic packet came on the selected path, or when it was selected, if none came since. None: none is selected."""
        since = c_uint64()
        return since.value if done(self._c.is_ice_silent_since(self._at, byref(since))) else None

    # ---- datagrams that the system did not send

    def send_failed(self, source: SocketAddress, destination: SocketAddress, reason: int, protocol: Protocol = Protocol.UDP) -> None:
        """Reports that the system did not send a datagram on this path. `reason`: the `errno` of its error.

        The agent goes on as if the network had lost it, and `failed_sends` lists it.
        """
        done(self._c.is_ice_send_failed(self._at, protocol, address_of(source), address_of(destination), in_range(reason, 32, "an errno")))

    def failed_sends(self) -> list[FailedSend]:
        """Returns the last sends that failed since the last restart, each path and reason once, the oldest first: 16 at most."""
        struct, failed = _abi.FailedSend(), list[FailedSend]()
        while done(self._c.is_ice_failed_send_at(self._at, len(failed), byref(struct))):
            path = MediaPath(socket_of(struct.source), socket_of(struct.destination), PROTOCOLS[struct.protocol])
            failed.append(FailedSend(path, struct.reason, struct.times))
        return failed
