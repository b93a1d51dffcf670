"""The agent's side of a session with a browser: the agent in its loop, what it reported, and its descriptions (RFC 8839)."""

from __future__ import annotations

import asyncio
import time
from collections.abc import Sequence
from dataclasses import dataclass

import relays
from is_ice import (
    IceAgent, IceAgentEvent, IceConnectionStateChange, IceCreds, IceError, NominatedSend, SocketAddress, has_mdns_name, new_creds)
from is_ice.gatherer import ServerLike
from is_ice.lines import line_fields
from is_ice.loop import EventHandler, IceLoop, StunHandler
from nominations import Nomination, nominations

# No DTLS runs in these sessions: the browser's iceConnectionState does not depend on it.
_FINGERPRINT = ":".join(["AB"] * 32)


@dataclass(frozen=True)
class Setup:
    """Who makes the offer, and how both sides are set."""

    browser_offers: bool
    lite: bool = False  # the agent
    late: bool = False  # candidates follow 300 ms after the descriptions
    mdns: bool = False
    conflict: bool = False  # the agent begins in the browser's role
    ipv6: bool = False
    both: bool = False  # the agent has an address of the other IP version too
    option: bool = False  # both descriptions have a=ice-options:renomination
    renomination: bool = False  # the agent's setting
    only_ipv4: bool = False  # the agent gets no IPv6 candidate of the browser by signaling
    checks: int | None = None  # unanswered checks before the agent removes a pair; None: the default
    lite_timeout: int | None = None  # seconds without a check until a lite agent removes a pair; None: the default
    relays_only: str = ""  # "udp" or "tcp": both sides have relayed candidates only, and reach the server over it

    @property
    def controlling(self) -> bool:
        """The agent's first role: the side that makes the offer is controlling, except for a lite agent."""
        return (not self.browser_offers and not self.lite) != self.conflict


class CutLoop(IceLoop):
    """A loop whose datagrams are lost in both directions: all while `cut` is True, and those of the local addresses in `lost`.

    `sent` and `received` are the nominations among the others.
    """

    cut = False

    def __init__(self, agent: IceAgent, on_event: EventHandler, on_stun: StunHandler, servers: Sequence[ServerLike] = ()) -> None:
        super().__init__(agent, on_event, lambda *_: None, on_stun, servers=servers, relay_only=bool(servers))
        self.lost: set[SocketAddress] = set()
        self.sent: list[Nomination] = []
        self.received: list[Nomination] = []

    def send(self, source: SocketAddress, destination: SocketAddress, data: bytes) -> None:
        """Sends a datagram, or loses it."""
        if self._passes(source):
            self.sent += nominations(source, destination, data)
            super().send(source, destination, data)

    def receive(self, source: SocketAddress, local: SocketAddress, data: bytes) -> None:
        """Takes a datagram, or loses it."""
        if self._passes(local):
            self.received += nominations(local, source, data)
            super().receive(source, local, data)

    def _passes(self, local: SocketAddress) -> bool:
        return not self.cut and local not in self.lost


class Side:
    """The agent with its loop. Times are those of time.time()."""

    def __init__(self, setup: Setup) -> None:
        self.setup = setup
        self.agent = IceAgent()
        self.agent.set_controlling(setup.controlling)
        self.agent.set_ice_lite(setup.lite)
        self.agent.set_renomination(setup.renomination)
        if setup.checks:
            self.agent.set_max_stun_retransmits(setup.checks)
        if setup.lite_timeout:
            self.agent.set_lite_timeout(setup.lite_timeout * 1_000_000_000)
        servers = [relays.entry(setup.relays_only)] if setup.relays_only else []
        self.loop = CutLoop(self.agent, self._on_event, self._on_stun, servers)
        self.states: list[tuple[float, str]] = []
        self.paths: list[tuple[float, NominatedSend]] = []
        self.dropped = 0  # STUN messages that the agent did not accept

    def _on_event(self, event: IceAgentEvent) -> None:
        if isinstance(event, IceConnectionStateChange):
            self.states.append((time.time(), event.state.name))
        elif isinstance(event, NominatedSend):
            self.paths.append((time.time(), event))

    def _on_stun(self, *_: object) -> None:
        self.dropped += 1

    def description(self, offer: bool, candidates: bool) -> str:
        """Writes a description for the browser. `candidates`: with those of the agent."""
        creds, option = self.agent.local_credentials, " renomination" if self.setup.option else ""
        lines = ["v=0", "o=- 1 1 IN IP4 127.0.0.1", "s=-", "t=0 0", "a=group:BUNDLE 0"]
        lines += ["a=ice-lite"] if self.setup.lite else []
        lines += ["m=application 9 UDP/DTLS/SCTP webrtc-datachannel", "c=IN IP4 0.0.0.0", f"a=ice-ufrag:{creds.ufrag}",
                  f"a=ice-pwd:{creds.pass_}", f"a=ice-options:trickle{option}", f"a=fingerprint:sha-256 {_FINGERPRINT}",
                  f"a=setup:{'actpass' if offer else 'passive'}", "a=mid:0", "a=sctp-port:5000", "a=max-message-size:262144"]
        if candidates:
            lines += [f"a={line}" for line in self.agent.local_candidates()] + ["a=end-of-candidates"]
        return "\r\n".join(lines) + "\r\n"

    def read(self, description: str, candidates: bool) -> None:
        """Takes the browser's description. `candidates`: with those in it."""
        lines = [line[2:] for line in description.splitlines() if line.startswith("a=")]
        told = dict(line.split(":", 1) for line in lines if line.startswith(("ice-ufrag:", "ice-pwd:", "ice-options:")))
        assert ("renomination" in told["ice-options"].split()) == self.setup.option
        self.agent.set_remote_credentials(IceCreds(told["ice-ufrag"], told["ice-pwd"]))
        for line in lines:
            if candidates and line.startswith("candidate:"):
                self.add(line)
        self.loop.wake()

    def add(self, line: str) -> None:
        """Adds a candidate of the browser. Those with an mDNS name are left out: the browser's checks bring the address."""
        if has_mdns_name(line) or self.setup.only_ipv4 and line_fields(line).address.version == 6:
            return
        try:
            self.loop.add_remote_candidate(line)
        except IceError as error:
            raise AssertionError(f"{error}: {line}") from error

    def restart(self) -> None:
        """Makes an ICE restart."""
        self.agent.ice_restart(new_creds(), True)
        self.loop.wake()

    def has_path_since(self, since: float) -> bool:
        """Returns whether a path was selected at this time or later."""
        return any(at >= since for at, _ in self.paths)

    def reached(self, names: tuple[str, ...], since: float = 0.0) -> bool:
        """Returns whether the agent was in one of these states at this time or later."""
        return any(at >= since and state in names for at, state in self.states)

    async def close(self) -> None:
        """Ends the agent and its sockets."""
        self.loop.close()
        self.agent.close()
        await self.loop.wait_closed()
        await asyncio.sleep(0)
