#!/usr/bin/env python3
"""Plays networks of the page in the simulator `lab`, for the test lab.test.js.

usage: page/tests/lab_numbers.py < NETWORKS

NETWORKS is a list in JSON: settings as in page/src/settings.js, each with "until", in ms. Prints, for each network, what both agents sent
up to that time: side, time, when it was received or null, and why it was lost or null; when each side's first check was answered, when
each side first selected a path, and the tie-breakers. Times are milliseconds. The library is that of IS_ICE_LIB, or the one that
python/build linked; status 3: there is none.
"""
from __future__ import annotations

import json
import sys
from pathlib import Path
from typing import Any

sys.dont_write_bytecode = True
TOP = Path(__file__).resolve().parent.parent.parent
sys.path[:0] = [str(TOP), str(TOP / "python")]

if any(word in ("-h", "--help") for word in sys.argv[1:]):
    print(__doc__)
    sys.exit(0)
try:
    from is_ice import IceAgent
    IceAgent()
except (ImportError, OSError) as why:
    print(f"the library for Python is not built: {why}", file=sys.stderr)
    sys.exit(3)
from lab.clock import BEGINNING, MILLISECOND
from lab.link import Link, LinkSettings
from lab.nat import Behavior, NatSettings
from lab.network import Datagram
from lab.scenario import AgentSettings, GatewaySettings, InterfaceSettings, Scenario, SignalingSettings
from lab.session import Session, Trace
from lab.stun import message_of

FILTERING = {"cone": Behavior.ENDPOINT, "restricted": Behavior.ADDRESS, "port": Behavior.ADDRESS_AND_PORT,
             "symmetric": Behavior.ADDRESS_AND_PORT}
# The addresses of the page: private, and public or that of the NAT.
HOMES = {"a": ("192.168.1.10", "203.0.113.1"), "b": ("10.0.7.20", "203.0.113.2")}


class Dropping(Link):
    """A link that loses the packets with these numbers, counted from 0."""

    def __init__(self, link: Link, numbers: list[int]) -> None:
        self.link, self.numbers, self.count = link, numbers, 0

    def carry(self, now: int, size: int) -> list[int]:
        """Returns the times at which a packet arrives."""
        self.count += 1
        arrivals: list[int] = [] if self.count - 1 in self.numbers else self.link.carry(now, size)
        return arrivals


def nats(settings: dict[str, Any]) -> tuple[GatewaySettings, ...]:
    """Returns the NATs of both homes."""
    made = []
    for side, (_, outside) in HOMES.items():
        kind = settings[f"nat{side.upper()}"]
        if kind != "none":
            is_symmetric = kind == "symmetric"
            nat = NatSettings(outside, Behavior.ADDRESS_AND_PORT if is_symmetric else Behavior.ENDPOINT, FILTERING[kind],
                              preserves_ports=not is_symmetric)
            made.append(GatewaySettings(f"router {side.upper()}", f"home {side}", nat))
    return tuple(made)


def agent(settings: dict[str, Any], side: str) -> AgentSettings:
    """Returns the settings of an agent: the longest RTO and the number of checks are the library's."""
    private, public = HOMES[side]
    is_open = settings[f"nat{side.upper()}"] == "none"
    dead = [InterfaceSettings(f"eth{n}", f"10.{1 if side == 'a' else 2}.{n}.1", f"island {side}{n}", "home", "home")
            for n in range(settings[f"dead{side.upper()}"])]
    wifi = InterfaceSettings("wifi", public if is_open else private, "internet" if is_open else f"home {side}", "home", "home")
    return AgentSettings(controlling=settings[f"role{side.upper()}"] == "controlling", renomination=settings["renomination"],
                         max_rto_ms=2900, retransmits=11, profile=settings["profile"],
                         relay=settings[f"turn{side.upper()}"], interface=(*dead, wifi))


def scenario(settings: dict[str, Any]) -> Scenario:
    """Returns the scenario of a network of the page: a fifth of the delay is on each side's link."""
    near = round(settings["delay"] / 5)
    signaling = SignalingSettings(delay_ms=settings["signaling"], jitter_ms=0)
    return Scenario("page", "page", seconds=(settings["until"] + 0.5) / 1000, settle_s=1e6, connects="sometimes", symmetric=False,
                    network={"internet": settings["delay"] - 2 * near}, link={"home": LinkSettings(delay_ms=near)}, nat=nats(settings),
                    signaling=signaling, a=agent(settings, "a"), b=agent(settings, "b"))


def ms(time: int) -> float:
    """Returns a time of the simulator in milliseconds from the start of the session."""
    return (time - BEGINNING) / MILLISECOND


def fate(datagram: Datagram) -> tuple[float | None, str | None]:
    """Returns when a packet was received, or why it was not, if either is known."""
    if not datagram.fates:
        return None, None
    time, why = datagram.fates[-1]
    return (ms(time), None) if why in ("taken", "refused") else (None, why)


def played(settings: dict[str, Any]) -> dict[str, Any]:
    """Plays a network."""
    trace = Trace()
    session = Session(scenario(settings), 0, trace)
    for side, links in settings.get("drops", {}).items():
        interface = session._interfaces[side.lower(), "wifi"]
        for way, numbers in links.items():
            setattr(interface, way, Dropping(getattr(interface, way), numbers))
    outcome = session.run()
    packets = [(it.side.upper(), ms(it.time), *fate(it)) for it in trace.datagrams]
    answered: dict[str, float] = {}
    for it in trace.datagrams:
        if message_of(it.contents).kind == "success" and it.fates and it.fates[-1][1] == "taken":
            side = "B" if it.side == "a" else "A"
            answered[side] = min(answered.get(side, 1e9), ms(it.fates[-1][0]))
    firsts = {side.upper(): own.first for side, own in outcome.sides.items()}
    return {"packets": packets, "answered": {side: answered.get(side) for side in "AB"},
            "selected": {side: None if first is None else first / MILLISECOND for side, first in firsts.items()},
            "ties": {side.upper(): str(endpoint.tie_breaker) for side, endpoint in session.endpoints.items()}}


def main() -> None:
    """Plays the networks of standard input."""
    print(json.dumps([played(settings) for settings in json.load(sys.stdin)]))


main()
