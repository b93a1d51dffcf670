"""The endpoint of one agent: its sockets, gathering, signaling and loop. It contains no rule of ICE."""

from __future__ import annotations

from dataclasses import replace
from random import Random
from typing import Protocol as Interface_, cast

from is_ice import Candidate, Consent, IceAgent, IceAgentEvent, IceCreds, Profile, Settings, SocketAddress, line_fields, new_creds

from .clock import Clock, nanoseconds
from .log import Beginning, Log
from .network import Datagram, Interface, Packet
from .scenario import AgentSettings
from .servers import SMALL, WRAPPED, BindingRequest, AllocateRequest, CreatePermission, Relayed, SuccessResponse
from .signaling import Channel, Signal

# How often a request to a server is sent without a response (Rc), and its first RTO, which doubles each time (RFC 8489, section 6.2.1).
REQUESTS = 7
FIRST_RTO = 500_000_000


def settings_by(s: AgentSettings, settings: Settings) -> Settings:
    """Returns the settings of an agent with the profile and the consent of these."""
    return replace(settings, profile=Profile[s.profile.upper()], consent=Consent(nanoseconds(s.consent_ms) or None, s.strict_consent))


class Watch(Interface_):
    """Observes what an endpoint sends and receives."""

    def sent(self, side: str, datagram: Datagram) -> None:
        """A packet was sent."""

    def took(self, side: str, datagram: Datagram, source: SocketAddress, local: SocketAddress, accepted: bool) -> None:
        """A packet was passed to the agent."""

    def told(self, side: str, event: IceAgentEvent) -> None:
        """The agent reported an event."""

    def cleared(self, side: str) -> None:
        """The agent restarted."""


class Endpoint:
    """One side of a session."""

    def __init__(self, side: str, settings: AgentSettings, interfaces: list[Interface], servers: list[SocketAddress],
                 clock: Clock, channel: Channel, random: Random, watch: Watch, log: Log | None = None) -> None:
        self.side, self.settings, self.interfaces = side, settings, interfaces
        self._servers, self._clock, self._channel, self._random, self._watch = servers, clock, channel, random, watch
        self.tie_breaker = random.getrandbits(64)
        creds = self._creds()
        self.agent = IceAgent(creds, self.tie_breaker)
        if log is not None:
            log.sides[side] = Beginning(creds, self.tie_breaker, settings.controlling)
            self.agent = cast(IceAgent, log.wrapped(self.agent, side, clock))
        self.sockets: dict[SocketAddress, Interface] = {}
        self.relays: dict[SocketAddress, tuple[SocketAddress, SocketAddress]] = {}  # relayed address to socket and server
        self.generation = 0
        self.began = False
        self.late = 0  # how much later than the candidates the local credentials are signaled
        self._candidates: dict[SocketAddress, list[Candidate]] = {}  # by socket
        self._pending: set[tuple[SocketAddress, SocketAddress, bool]] = set()
        self._unsignaled: list[str] = []
        self._timeout: int | None = None
        self._peers: dict[str, None] = {}  # in order, so that a session repeats
        self._trickle = True
        self._configure()

    def _creds(self) -> IceCreds:
        return new_creds(self._random.randbytes(38))

    def _configure(self) -> None:
        s, agent = self.settings, self.agent
        agent.set_controlling(s.controlling)
        agent.set_silence(None)  # the model has no monitor
        agent.set_ice_lite(s.lite)
        agent.set_renomination(s.renomination)
        for value, set_duration in ((s.initial_rto_ms, agent.set_initial_stun_rto), (s.max_rto_ms, agent.set_max_stun_rto),
                                    (s.advance_ms, agent.set_timing_advance)):
            if value is not None:
                set_duration(nanoseconds(value))
        for limit, set_limit in ((s.retransmits, agent.set_max_stun_retransmits), (s.max_pairs, agent.set_max_candidate_pairs)):
            if limit is not None:
                set_limit(limit)
        if (settings := settings_by(s, agent.settings)) != agent.settings:
            agent.set_settings(settings)

    # ---- starting, restarting, interfaces

    def begin(self, trickle: bool) -> None:
        """Gathers candidates, signals them, and starts the session."""
        self._trickle = trickle
        self.began = True
        self._signal_creds()
        for interface in self._random.sample(self.interfaces, len(self.interfaces)) if self.settings.shuffled else self.interfaces:
            if interface.is_on:
                self._bind(interface)
        self._signal_candidates()
        self._handle_timeout()

    def restart(self) -> None:
        """Makes an ICE restart, and signals it to the peer."""
        self.generation += 1
        self._renew()

    def _renew(self) -> None:
        self.agent.ice_restart(self._creds(), True)
        self._watch.cleared(self.side)
        lines = tuple(self.agent.local_candidates())
        self._unsignaled.clear()
        self._channel.tell(Signal(self.generation, self.agent.local_credentials, lines))
        self.turn()

    def turn_on(self, interface: Interface) -> None:
        """Turns an interface on and gathers its candidates."""
        interface.is_on = True
        self._bind(interface)
        self._signal_candidates()
        self.turn()

    def turn_off(self, interface: Interface) -> None:
        """Turns an interface off and removes its candidates."""
        interface.is_on = False
        for socket in [s for s, i in self.sockets.items() if i is interface]:
            for candidate in self._candidates.pop(socket, []):
                self.agent.invalidate_candidate(candidate)
                self._report()
            del self.sockets[socket]
        self.turn()

    def _bind(self, interface: Interface) -> None:
        socket = SocketAddress(interface.ip, self._random.randrange(49152, 65536))
        interface.take = self._take
        self.sockets[socket] = interface
        self._add(socket, Candidate.host(socket))
        self._gather(socket)

    # ---- gathering

    def _gather(self, socket: SocketAddress) -> None:
        for server in self._servers:
            if server.version == socket.version:
                if self.settings.stun and socket.version == 4:
                    self._request(socket, server, False, REQUESTS)
                if self.settings.relay:
                    self._request(socket, server, True, REQUESTS)

    def _request(self, socket: SocketAddress, server: SocketAddress, is_relay: bool, left: int) -> None:
        transaction = (socket, server, is_relay)
        interface = self.sockets.get(socket)
        if left < REQUESTS and transaction not in self._pending:
            return  # there was a response
        self._pending.add(transaction)
        if interface is None or left == 0:
            self._close(transaction)
            return
        interface.send(Packet(socket, server, AllocateRequest() if is_relay else BindingRequest(), SMALL))
        self._clock.at(self._clock.now + (FIRST_RTO << REQUESTS - left), self._request, socket, server, is_relay, left - 1)

    def _close(self, transaction: tuple[SocketAddress, SocketAddress, bool]) -> None:
        self._pending.discard(transaction)
        self._signal_candidates()

    def _take_response(self, socket: SocketAddress, told: SuccessResponse) -> None:
        transaction = (socket, told.server, told.is_relay)
        if transaction not in self._pending or socket not in self.sockets:
            return
        if told.is_relay:
            self.relays[told.address] = (socket, told.server)
            self._add(socket, Candidate.relayed(told.address, socket))
            for ip in self._peers:
                self._permit(told.address, ip)
        else:
            self._add(socket, Candidate.server_reflexive(told.address, socket))
        self._close(transaction)
        self.turn()

    def _add(self, socket: SocketAddress, candidate: Candidate) -> None:
        self._candidates.setdefault(socket, []).append(candidate)
        line = self.agent.add_local_candidate(candidate)
        self._report()
        if line is not None:
            self._unsignaled.append(line)

    def _permit(self, relay: SocketAddress, ip: str) -> None:
        socket, server = self.relays[relay]
        if interface := self.sockets.get(socket):
            interface.send(Packet(socket, server, CreatePermission(relay, ip), SMALL))

    # ---- signaling

    def _signal_creds(self) -> None:
        self._channel.tell(Signal(self.generation, self.agent.local_credentials), self.late)

    def _signal_candidates(self) -> None:
        if self._unsignaled and (self._trickle or not self._is_gathering()):
            self._channel.tell(Signal(self.generation, None, tuple(self._unsignaled)))
            self._unsignaled.clear()

    def _is_gathering(self) -> bool:
        return bool(self._pending)

    def take_signal(self, signal: Signal) -> None:
        """Takes a message of the peer's signaling."""
        if signal.generation > self.generation:
            self.generation = signal.generation
            self._renew()
        elif signal.generation < self.generation:
            return  # from before the restart
        if signal.creds is not None:
            self.agent.set_remote_credentials(signal.creds)
        for line in signal.lines:
            self._take_candidate(line)
        self.turn()

    def _take_candidate(self, line: str) -> None:
        self.agent.add_remote_candidate(line)
        self._report()
        self._let_in(line_fields(line).address)

    def _let_in(self, peer: SocketAddress) -> None:
        if peer.ip not in self._peers:
            self._peers[peer.ip] = None
            for relay in self.relays:
                self._permit(relay, peer.ip)

    # ---- the loop

    def turn(self) -> None:
        """Sends packets, reports events, and sets the next timeout."""
        if not self.began:
            return
        timeout = self.agent.poll_timeout()
        while packet := self.agent.poll_transmit():
            self._send(packet.source, packet.destination, packet.contents)
        self._report()
        if timeout != self._timeout:
            self._timeout = timeout
            if timeout is not None:
                self._clock.at(timeout + nanoseconds(self.settings.late_ms), self._timed_out, timeout)

    def _report(self) -> None:
        """Reports events. A call that may emit some is followed by this before the next one, so that the log shows which call did."""
        while event := self.agent.poll_event():
            self._watch.told(self.side, event)

    def _timed_out(self, timeout: int) -> None:
        if timeout == self._timeout:
            self._timeout = None
            self._handle_timeout()

    def _handle_timeout(self) -> None:
        self.agent.handle_timeout(self._clock.now, self._random.randbytes(12))
        self.turn()

    def _send(self, source: SocketAddress, destination: SocketAddress, contents: bytes) -> None:
        datagram = Datagram(0, self.side, self._clock.now, source, destination, contents)
        self._watch.sent(self.side, datagram)
        self._carry(datagram)

    def _carry(self, datagram: Datagram) -> None:
        source, destination, contents = datagram.source, datagram.destination, datagram.contents
        socket, server = self.relays.get(source, (source, None))
        interface = self.sockets.get(socket)
        if interface is None:
            datagram.fates.append((self._clock.now, "the socket is closed"))
        elif server is None:
            interface.send(Packet(source, destination, datagram, len(contents), datagram))
        else:
            word = Relayed(source, destination, datagram)
            interface.send(Packet(socket, server, word, len(contents) + WRAPPED, datagram))

    def _take(self, interface: Interface, packet: Packet) -> None:
        word = packet.payload
        if packet.destination not in self.sockets:
            return
        if isinstance(word, SuccessResponse):
            self._take_response(packet.destination, word)
        elif isinstance(word, Relayed):
            self._take_datagram(word.contents, word.peer, word.relay)
        elif isinstance(word, Datagram):
            self._take_datagram(word, packet.source, packet.destination)

    def _take_datagram(self, datagram: Datagram, source: SocketAddress, local: SocketAddress) -> None:
        now = self._clock.now
        accepted = self.agent.handle_packet(now, source, local, datagram.contents)
        datagram.fates.append((now, "taken" if accepted else "refused"))
        self._watch.took(self.side, datagram, source, local, accepted)
        self.turn()
