"""The pairs that an agent removed last, and why, as it lists them. Nothing is decided by them."""

from __future__ import annotations

from dataclasses import dataclass

from is_ice import CheckState, MediaPath, Protocol, Removal, RemovedPair

from .pairs import Pair, Path

# How many an agent lists at most.
LIMIT = 32
STATES = {"waiting": CheckState.WAITING, "progress": CheckState.IN_PROGRESS, "succeeded": CheckState.SUCCEEDED}


@dataclass(frozen=True)
class Removed:
    """A pair as it was when it was removed, its path, and why it was removed."""

    pair: Pair
    path: Path
    why: Removal

    def listed(self) -> RemovedPair:
        """Returns it as the library lists it."""
        p, (source, destination) = self.pair, self.path
        return RemovedPair(MediaPath(source, destination, Protocol.UDP), p.priority, STATES[p.state], p.sent, p.answers, p.error, self.why)


def why_expired(pair: Pair, lite: bool) -> Removal:
    """Returns why a pair does not stay at a timeout: the peer is silent, consent ended, or no check got a response (`expired_reason`)."""
    if lite:
        return Removal.PEER_SILENT
    return Removal.CONSENT_LOST if pair.is_valid else Removal.NO_RESPONSE
