"""One session of a scenario: two agents, the network between them, and the outcome."""

from __future__ import annotations

from dataclasses import dataclass, field
from random import Random

from is_ice import IceAgentEvent, IceConnectionState, IceConnectionStateChange, NominatedSend, SocketAddress

from .endpoint import Endpoint
from .clock import BEGINNING, SECOND, Clock, nanoseconds
from .log import Log
from .network import Datagram, Gateway, Interface, Network
from .guarantees import Broken, SideGuarantees, judge_roles
from .media import Media
from .relaying import RelayedEndpoint, TurnNode
from .scenario import SIDES, ScenarioEvent, Scenario
from .servers import Server
from .signaling import Channel, Signal

SERVERS = ("198.51.100.10", "2001:db8:ffff::10")
STRICT_SERVERS = ("198.51.100.20", "2001:db8:ffff::20")  # of sides with `turn`


@dataclass
class SideOutcome:
    """The outcome of one side. Times are nanoseconds from the start of side A; None: never."""

    first: int | None = None  # the first selected pair
    last: int | None = None
    packets: int = 0  # sent up to the last selected pair, or the end
    bytes: int = 0
    path: tuple[SocketAddress, SocketAddress] | None = None
    kind: str = ""  # host, reflexive or relayed
    controlling: bool = False
    role_changes: int = 0
    lost_at: int | None = None  # when it last disconnected
    left_at: int | None = None  # when its state last left Connected or Completed
    is_connected: bool = False


@dataclass
class Outcome:
    """The outcome of a session."""

    scenario: str
    seed: int
    sides: dict[str, SideOutcome]
    first_packets: int | None = None  # how many packets both had sent when both had selected a pair
    connected: bool = False  # both have a path at the end
    symmetric: bool = False  # and the paths are the reverse of each other, after translation by the NATs
    seconds: float = 0.0

    @property
    def first(self) -> int | None:
        """When both had selected a pair."""
        a, b = self.sides["a"].first, self.sides["b"].first
        return None if a is None or b is None else max(a, b)

    @property
    def last(self) -> int | None:
        """When either side selected its last pair."""
        a, b = self.sides["a"].last, self.sides["b"].last
        return None if a is None or b is None else max(a, b)


# A packet as a side received it: its time, the side, the source, the local address, the contents.
Received = tuple[int, str, SocketAddress, SocketAddress, bytes]


@dataclass
class Trace:
    """Everything that a picture or a capture needs."""

    datagrams: list[Datagram] = field(default_factory=list)
    received: list[Received] = field(default_factory=list)
    events: list[tuple[int, str, IceAgentEvent]] = field(default_factory=list)
    scenario_events: list[tuple[int, str, str]] = field(default_factory=list)


class Session:
    """Runs a scenario with a seed."""

    def __init__(self, scenario: Scenario, seed: int, trace: Trace | None = None, log: Log | None = None) -> None:
        self.scenario, self.seed, self.trace, self.log = scenario, seed, trace, log
        self.clock = Clock()
        self._random = Random(f"{scenario.name} {seed}")
        self._networks: dict[str, Network] = {}
        self._interfaces: dict[tuple[str, str], Interface] = {}
        self._build()
        self.outcome = Outcome(scenario.name, seed, {side: SideOutcome() for side in SIDES})
        self._sent = {side: [0, 0] for side in SIDES}
        self._routes: dict[tuple[str, SocketAddress, SocketAddress], tuple[SocketAddress, SocketAddress]] = {}
        self._count = 0
        self._calm = BEGINNING  # the time of the last selected pair or event
        self._channels = {"a": Channel(scenario.signaling, self.clock, self._random),
                          "b": Channel(scenario.signaling, self.clock, self._random, scenario.signaling.peer_late_ms)}
        self.endpoints = {side: self._endpoint(side) for side in SIDES}
        self._guarantees = {side: self._guarantee(side) for side in SIDES}
        self._waiting: list[Signal] = []
        relayed = {side: e for side, e in self.endpoints.items() if isinstance(e, RelayedEndpoint)}
        self.media = Media(scenario, self.clock, relayed, lambda side: self.outcome.sides[side].path) if scenario.media_s else None

    # ---- building

    def _network(self, name: str) -> Network:
        if name not in self._networks:
            delay = nanoseconds(self.scenario.network.get(name, 0.0))
            self._networks[name] = Network(name, self.clock, delay)
        return self._networks[name]

    def _build(self) -> None:
        scenario, internet = self.scenario, self._network("internet")
        for gateway in scenario.nat:
            Gateway(gateway.name, gateway.nat, self._network(gateway.inner), self._network(gateway.outer), self._random)
        self._servers = [Server(ip, internet).address for ip in SERVERS]
        strict = STRICT_SERVERS if scenario.a.turn or scenario.b.turn else ()
        self.turn_servers = [TurnNode(ip, internet, Random(f"{scenario.name} {self.seed} {ip}")).server for ip in strict]
        for side in SIDES:
            for i in scenario.side(side).interface:
                interface = Interface(i.name, i.ip, self._network(i.network), scenario.link[i.up], scenario.link[i.down], self._random)
                interface.is_on = i.is_on
                self._interfaces[side, i.name] = interface

    def _endpoint(self, side: str) -> Endpoint:
        own = [interface for (of, _), interface in self._interfaces.items() if of == side]
        settings = self.scenario.side(side)
        kind: type[Endpoint] = RelayedEndpoint if settings.turn else Endpoint
        servers = [server.address for server in self.turn_servers] if settings.turn else self._servers
        return kind(side, settings, own, servers, self.clock, self._channels[side], Random(self._random.getrandbits(64)), self, self.log)

    def _guarantee(self, side: str) -> SideGuarantees:
        settings, endpoint = self.scenario.side(side), self.endpoints[side]
        return SideGuarantees(side, endpoint.agent, endpoint.tie_breaker, settings.lite, settings.controlling)

    # ---- observing the endpoints

    def sent(self, side: str, datagram: Datagram) -> None:
        """Records a sent packet."""
        datagram.number = self._count
        self._count += 1
        self._sent[side][0] += 1
        self._sent[side][1] += len(datagram.contents)
        if self.trace is not None:
            self.trace.datagrams.append(datagram)
        self._guarantees[side].sent(datagram)

    def took(self, side: str, datagram: Datagram, source: SocketAddress, local: SocketAddress, accepted: bool) -> None:
        """Records a received packet."""
        if self.trace is not None:
            self.trace.received.append((self.clock.now, side, source, local, datagram.contents))
        self._routes[datagram.side, datagram.source, datagram.destination] = (local, source)
        if accepted:
            self._guarantees[side].took(datagram, source, local)

    def told(self, side: str, event: IceAgentEvent) -> None:
        """Records an event of an agent."""
        if self.trace is not None:
            self.trace.events.append((self.clock.now, side, event))
        self._guarantees[side].told(event)
        own, since = self.outcome.sides[side], self.clock.now - BEGINNING
        if isinstance(event, NominatedSend):
            own.first = since if own.first is None else own.first
            own.last, own.path = since, (event.source, event.destination)
            own.packets, own.bytes = self._sent[side]
            self._calm = self.clock.now
            if self.outcome.first is not None and self.outcome.first_packets is None:
                self.outcome.first_packets = sum(packets for packets, _ in self._sent.values())
            if self.media:
                self.media.begin()
        elif isinstance(event, IceConnectionStateChange):
            own.lost_at = since if event.state is IceConnectionState.DISCONNECTED else own.lost_at
            own.left_at = since if own.is_connected and not event.state.is_connected() else own.left_at
            own.is_connected = event.state.is_connected()

    def cleared(self, side: str) -> None:
        """Records a restart."""
        self._guarantees[side].cleared()
        self.outcome.sides[side].path = None

    # ---- running

    def run(self) -> Outcome:
        """Runs the session to its end. Raises Broken if a guarantee does not hold."""
        scenario, clock = self.scenario, self.clock
        self.endpoints["b"].late = nanoseconds(scenario.signaling.credentials_late_ms)
        self._channels["b"].take = self.endpoints["a"].take_signal
        self._channels["a"].take = self._take_first
        clock.at(BEGINNING, self.endpoints["a"].begin, scenario.signaling.trickle)
        for event in scenario.event:
            clock.at(BEGINNING + nanoseconds(event.at_s * 1000), self._do, event)
        end = BEGINNING + nanoseconds(scenario.seconds * 1000)
        while clock.step(end):
            if self._is_settled():
                break
        if self.log is not None:
            self.log.removed = {side: self.endpoints[side].agent.removed_pairs() for side in SIDES}
        return self._judge()

    def _take_first(self, signal: Signal) -> None:
        self._waiting.append(signal)
        if len(self._waiting) == 1:
            self.clock.at(BEGINNING + nanoseconds(self.scenario.begin_s * 1000), self._begin_b)

    def _begin_b(self) -> None:
        b = self.endpoints["b"]
        self._channels["a"].take = b.take_signal
        b.begin(self.scenario.signaling.trickle)
        for signal in self._waiting:
            b.take_signal(signal)

    def _do(self, event: ScenarioEvent) -> None:
        endpoint = self.endpoints[event.side]
        if self.trace is not None:
            self.trace.scenario_events.append((self.clock.now, event.side, f"{event.do} {event.interface}".strip()))
        self._calm = self.clock.now
        if event.do == "restart":
            endpoint.restart()
            return
        interface = self._interfaces[event.side, event.interface]
        if event.do == "silent":
            interface.is_on = False
        elif event.do == "mute":
            interface.is_mute = True
        elif event.do == "on":
            endpoint.turn_on(interface)
        else:
            endpoint.turn_off(interface)

    def _is_settled(self) -> bool:
        now = self.clock.now
        if now < self._calm + nanoseconds(self.scenario.settle_s * 1000):
            return False
        if any(BEGINNING + nanoseconds(event.at_s * 1000) > now for event in self.scenario.event):
            return False
        if self.media and not self.media.is_over:
            return False
        return all(side.path for side in self.outcome.sides.values()) and self._is_symmetric()

    # ---- judging

    def _judge(self) -> Outcome:
        outcome = self.outcome
        for side in SIDES:
            own, endpoint = outcome.sides[side], self.endpoints[side]
            own.controlling = endpoint.agent.controlling
            own.role_changes = self._guarantees[side].changes
            if own.path is not None and not endpoint.agent.state.is_connected():
                own.path = None  # removed since
            own.kind = self._kind(side)
            if own.last is None:
                own.packets, own.bytes = self._sent[side]
        outcome.connected = all(side.path for side in outcome.sides.values())
        outcome.symmetric = self._is_symmetric()
        outcome.seconds = (self.clock.now - BEGINNING) / SECOND
        self._test()
        return outcome

    def _test(self) -> None:
        scenario, outcome = self.scenario, self.outcome
        judge_roles(self._guarantees["a"], self._guarantees["b"], outcome.connected)
        if scenario.symmetric and outcome.connected and not outcome.symmetric:
            raise Broken("the paths of the sides are not the reverse of each other")
        if scenario.connects == "always" and not outcome.connected:
            raise Broken("the scenario requires that both connect")
        if self.media and outcome.connected:
            self.media.judge()
        if scenario.connects == "never" and outcome.connected:
            raise Broken("the scenario requires that they never connect")

    def _is_symmetric(self) -> bool:
        a, b = self.outcome.sides["a"].path, self.outcome.sides["b"].path
        return a is not None and b is not None and self._routes.get(("a", *a)) == b and self._routes.get(("b", *b)) == a

    def _kind(self, side: str) -> str:
        path = self.outcome.sides[side].path
        if path is None:
            return ""
        other = self.endpoints["b" if side == "a" else "a"]
        if path[0] in self.endpoints[side].relays or path[1] in other.relays:
            return "relayed"
        return "host" if path[1] in other.sockets else "reflexive"
