"""Scenarios: the contents of a TOML file as dataclasses."""

from __future__ import annotations

import dataclasses
import tomllib
from dataclasses import dataclass, field
from pathlib import Path
from typing import Any, TypeVar

from .link import LinkSettings
from .nat import Behavior, NatSettings

FOLDER = Path(__file__).resolve().parent / "scenarios"
SIDES = ("a", "b")
EVENTS = ("on", "off", "silent", "mute", "restart")

T = TypeVar("T")


class BadScenario(ValueError):
    """A scenario with an error."""


@dataclass(frozen=True)
class InterfaceSettings:
    """A network interface of a side. `up` and `down` name links. `is_on` is false if an event turns it on later."""

    name: str
    ip: str
    network: str = "internet"
    up: str = "default"
    down: str = "default"
    is_on: bool = True


@dataclass(frozen=True)
class AgentSettings:
    """The settings of an agent. None: the agent's default. The longest RTO and the number of checks are the original's."""

    controlling: bool = False
    lite: bool = False
    renomination: bool = False  # each nomination replaces the earlier ones
    initial_rto_ms: float | None = None
    max_rto_ms: float | None = 3000.0
    advance_ms: float | None = None
    late_ms: float = 0.0  # how much later than the agent's timeout its endpoint calls `handle_timeout`
    retransmits: int | None = 9
    max_pairs: int | None = None
    profile: str = "modern"  # or original
    consent_ms: float = 29600.0  # how long a response keeps a pair with `Modern`, as by the modern settings; 0: by the RTOs
    strict_consent: bool = False
    shuffled: bool = False  # gathers from its interfaces in random order
    stun: bool = True  # gathers server-reflexive candidates
    relay: bool = False  # gathers relayed candidates
    turn: bool = False  # its clients of the servers are the library's: their messages are bytes, and the server is strict by RFC 8656
    interface: tuple[InterfaceSettings, ...] = ()


@dataclass(frozen=True)
class SignalingSettings:
    """The signaling channel, which keeps order and loses nothing."""

    delay_ms: float = 50.0
    jitter_ms: float = 30.0
    trickle: bool = True  # each candidate when it is gathered, not all at the end
    candidates_ms: float = 0.0  # no candidate arrives before this time: so both sides gather first
    credentials_late_ms: float = 0.0  # how much later than its candidates side B's credentials are signaled
    peer_late_ms: float = 0.0  # how much later than `candidates_ms` side A receives the first signal, if not 0


@dataclass(frozen=True)
class GatewaySettings:
    """A NAT between two networks."""

    name: str
    inner: str
    nat: NatSettings
    outer: str = "internet"


@dataclass(frozen=True)
class ScenarioEvent:
    """What happens to a side: an interface is turned on or off, its link fails without notification (silent), or only for what it sends
    (mute), or an ICE restart."""

    at_s: float
    side: str
    do: str
    interface: str = ""


@dataclass(frozen=True)
class Scenario:
    """Everything that determines a session, except for the seed."""

    name: str
    title: str
    seconds: float = 40.0  # the longest duration of a session
    settle_s: float = 4.0  # the session ends this long after the last selected pair and the last event, if both have a path
    coverage_s: float = 12.0  # the same in `lab/run coverage`, if that is longer: so that rounds have time to end
    media_s: float = 0.0  # for so long both sides send media once both have a path, if both have `turn`; then nothing may be lost
    media_ms: float = 200.0  # how often
    media_loss: float = 0.0  # the part of the media that may be lost
    begin_s: float = 0.0  # side B starts with the first signal, or at this time if that is later
    symmetric: bool = True  # the last paths of both sides must be the reverse of each other
    connects: str = "always"  # always, sometimes or never
    network: dict[str, float] = field(default_factory=dict)  # the delay of each network, in milliseconds
    link: dict[str, LinkSettings] = field(default_factory=dict)
    nat: tuple[GatewaySettings, ...] = ()
    signaling: SignalingSettings = SignalingSettings()
    a: AgentSettings = AgentSettings()
    b: AgentSettings = AgentSettings()
    event: tuple[ScenarioEvent, ...] = ()

    def side(self, name: str) -> AgentSettings:
        """Returns the settings of a side."""
        return self.a if name == "a" else self.b


def names() -> list[str]:
    """Returns the names of the scenarios in lab/scenarios."""
    return sorted(path.stem for path in FOLDER.glob("*.toml"))


def load(name: str, changes: tuple[str, ...] = ()) -> Scenario:
    """Loads a scenario of lab/scenarios, or another file, with changes like `a.initial_rto_ms=100`."""
    path = Path(name) if name.endswith(".toml") else FOLDER / f"{name}.toml"
    table = _read(path)
    for change in changes:
        _change(table, change)
    return scenario_of(path.stem, table)


def _read(path: Path) -> dict[str, Any]:
    """Reads a TOML file. With `like`, what it does not say is as in that scenario."""
    try:
        table = tomllib.loads(path.read_text(encoding="utf-8"))
    except FileNotFoundError:
        raise BadScenario(f"there is no scenario {path.stem}: {', '.join(names())}") from None
    except tomllib.TOMLDecodeError as fault:
        raise BadScenario(f"{path}: {fault}") from None
    like = table.pop("like", None)
    return table if like is None else _over(_read(path.parent / f"{like}.toml"), table)


def _over(table: dict[str, Any], changes: dict[str, Any]) -> dict[str, Any]:
    both = {key: _over(table[key], value) for key, value in changes.items() if isinstance(value, dict) and isinstance(table.get(key), dict)}
    return {**table, **changes, **both}


def scenario_of(name: str, table: dict[str, Any]) -> Scenario:
    """Builds the scenario of a TOML table. BadScenario says what is wrong, and where."""
    table = dict(table)
    table["network"] = {n: float(_known(t, ("delay_ms",), f"network.{n}").get("delay_ms", 0)) for n, t in table.get("network", {}).items()}
    table["network"].setdefault("internet", 20.0)
    table["link"] = {n: _build(LinkSettings, t, f"link.{n}") for n, t in table.get("link", {}).items()}
    table["link"].setdefault("default", LinkSettings())
    table["nat"] = tuple(_gateway(t) for t in table.get("nat", ()))
    table["signaling"] = _build(SignalingSettings, table.get("signaling", {}), "signaling")
    for side in SIDES:
        own = dict(table.get(side, {}))
        own["interface"] = tuple(_build(InterfaceSettings, t, f"{side}.interface") for t in own.get("interface", ()))
        table[side] = _build(AgentSettings, own, side)
    table["event"] = tuple(_build(ScenarioEvent, t, "event") for t in table.get("event", ()))
    scenario = _build(Scenario, {"name": name, "title": name, **table}, name)
    _test(scenario)
    return scenario


def _test(scenario: Scenario) -> None:
    links = set(scenario.link)
    for side in SIDES:
        interfaces = scenario.side(side).interface
        if not interfaces:
            raise BadScenario(f"{scenario.name}: side {side} has no interface")
        for interface in interfaces:
            for link in (interface.up, interface.down):
                if link not in links:
                    raise BadScenario(f"{scenario.name}: there is no link {link}")
    for event in scenario.event:
        if event.do not in EVENTS or event.side not in SIDES:
            raise BadScenario(f"{scenario.name}: an event does one of {', '.join(EVENTS)}, to a or b")
        known = [interface.name for interface in scenario.side(event.side).interface]
        if event.do != "restart" and event.interface not in known:
            raise BadScenario(f"{scenario.name}: side {event.side} has no interface {event.interface!r}")
    if any(scenario.side(side).profile not in ("modern", "original") for side in SIDES):
        raise BadScenario(f"{scenario.name}: profile is modern or original")
    if scenario.media_s and not (scenario.a.turn and scenario.b.turn):
        raise BadScenario(f"{scenario.name}: media needs turn on both sides")
    if scenario.connects not in ("always", "sometimes", "never"):
        raise BadScenario(f"{scenario.name}: connects is always, sometimes or never")


def _gateway(table: dict[str, Any]) -> GatewaySettings:
    own = {key: value for key, value in table.items() if key in ("name", "inner", "outer")}
    rest = {key: value for key, value in table.items() if key not in own}
    where = f"nat {own.get('name', '')}"
    for key in ("mapping", "filtering"):
        if key in rest:
            try:
                rest[key] = Behavior(rest[key])
            except ValueError:
                raise BadScenario(f"{where}: {key} is one of {', '.join(b.value for b in Behavior)}") from None
    return _build(GatewaySettings, {**own, "nat": _build(NatSettings, rest, where)}, where)


def _build(kind: type[T], table: dict[str, Any], where: str) -> T:
    fields = {f.name: f for f in dataclasses.fields(kind)}
    _known(table, tuple(fields), where)
    for name, f in fields.items():
        is_required = f.default is dataclasses.MISSING and f.default_factory is dataclasses.MISSING
        if is_required and name not in table:
            raise BadScenario(f"{where}: {name} is missing")
    return kind(**table)


def _known(table: dict[str, Any], keys: tuple[str, ...], where: str) -> dict[str, Any]:
    for key in table:
        if key not in keys:
            raise BadScenario(f"{where}: {key} is not known; known are {', '.join(keys)}")
    return table


def _change(table: dict[str, Any], change: str) -> None:
    path, sign, value = change.partition("=")
    *tables, key = path.split(".")
    if not sign:
        raise BadScenario(f"{change}: a change is KEY.KEY=VALUE")
    for name in tables:
        table = table.setdefault(name, {})
    table[key] = tomllib.loads(f"value = {value}")["value"]
