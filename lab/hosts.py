"""Measures how long agents with many host candidates take, by either profile. Prints tables, and plots the times."""

from __future__ import annotations

from collections.abc import Iterable
from dataclasses import dataclass, field, replace
from pathlib import Path

from . import plot, pool, scenario
from .clock import MILLISECOND
from .figures import aligned, quantile
from .link import LinkSettings
from .scenario import AgentSettings, InterfaceSettings, Scenario, SignalingSettings
from .session import Outcome

HOSTS = (1, 5, 10, 20)
DELAYS = (20, 50, 100, 300)
LOSSES = (0, 10, 30)
# When the candidates are signaled. By then a STUN server is asked seven times, so that each side has its server-reflexive candidate.
GATHERED_MS = 40_000
# How long the agents have for it.
SECONDS = 40
# So that packets do not arrive at the very time of a timeout.
JITTER_MS = 1
PLACES = {True: "Each side behind a NAT with address-and-port-dependent filtering", False: "No NAT"}
# By which profile agents are measured.
PROFILES = ("modern", "original")


@dataclass(frozen=True)
class Cell:
    """One setting. One of the host candidates of a side reaches the other side; packets take `delay` ms, and so many per cent are lost.
    The controlling side starts `late` ms after the other one."""

    has_nat: bool
    delay: int
    loss: int
    hosts: int
    profile: str
    late: int = 0

    @property
    def name(self) -> str:
        """Its name, from which the seeds come: the sessions of both profiles have the same."""
        return f"hosts {self.has_nat} {self.delay} {self.loss} {self.hosts}" + (f" {self.late}" if self.late else "")

    def scenario(self) -> Scenario:
        """Returns its scenario: the network takes the delay, and each packet may be lost on the link of its sender."""
        made = scenario.load("many_hosts")
        signaling = SignalingSettings(delay_ms=0, jitter_ms=0, candidates_ms=GATHERED_MS, peer_late_ms=self.late)
        links = {"up": LinkSettings(delay_ms=0, jitter_ms=JITTER_MS, loss=self.loss / 100), "down": LinkSettings(delay_ms=0)}
        seconds = (GATHERED_MS + self.late) / 1000 + SECONDS
        return replace(made, name=self.name, seconds=seconds, connects="sometimes", link=links, signaling=signaling,
                       network={"internet": self.delay}, nat=made.nat if self.has_nat else (), a=self._side(made.a, 1),
                       b=self._side(made.b, 2))

    def _side(self, made: AgentSettings, number: int) -> AgentSettings:
        dead = [InterfaceSettings(f"eth{n}", f"10.{number}.{n}.1", f"island {number} {n}", "up", "down") for n in range(self.hosts - 1)]
        alive = replace(made.interface[-1], up="up", down="down")
        if not self.has_nat:
            alive = replace(alive, ip=f"192.0.2.{number}", network="internet")
        return replace(made, interface=(*dead, alive), profile=self.profile)


@dataclass
class Found:
    """The sessions of a cell in which both sides selected a pair: how many ms after the signaling, and how many packets both had sent."""

    sessions: int = 0
    times: list[float] = field(default_factory=list)
    packets: list[int] = field(default_factory=list)

    def add(self, outcome: Outcome) -> None:
        """Adds a session."""
        self.sessions += 1
        if outcome.first is not None and outcome.first_packets is not None:
            self.times.append(outcome.first / MILLISECOND - GATHERED_MS)
            self.packets.append(outcome.first_packets)

    def columns(self) -> list[str]:
        """Returns its two columns: the median and the 95th percentile of the time, and the median of the packets."""
        median, most, packets = quantile(self.times, 0.5), quantile(self.times, 0.95), quantile(self.packets, 0.5)
        if median is None or most is None or packets is None:
            return ["never", "-"]
        share = f" ({100 * len(self.times) / self.sessions:.0f} %)" if len(self.times) < self.sessions else ""
        return [f"{median:.0f} / {most:.0f}{share}", f"{packets:.0f}"]


def cells() -> list[Cell]:
    """Returns the cells of the tables."""
    return [Cell(has_nat, delay, loss, hosts, profile) for has_nat in PLACES for delay in DELAYS for loss in LOSSES for profile in PROFILES
            for hosts in HOSTS]


def limit(delay: int) -> int:
    """Returns the least time in which both sides can select a pair: a check, its response, and the check that nominates."""
    return 3 * delay


def table(found: dict[Cell, Found], has_nat: bool) -> str:
    """Returns the table of the cells with NATs, or of those without."""
    counts = [column for hosts in HOSTS for column in (f"{hosts} host{'s' if hosts > 1 else ''}: ms", "packets")]
    rows = [["delay ms", "loss %", "limit ms", "profile", *counts]]
    for delay in DELAYS:
        for loss in LOSSES:
            for profile in PROFILES:
                told = [column for hosts in HOSTS for column in found[Cell(has_nat, delay, loss, hosts, profile)].columns()]
                rows.append([str(delay), str(loss), str(limit(delay)), profile, *told])
    return aligned(rows)


def curves(found: dict[Cell, Found]) -> list[plot.Curve]:
    """Returns the curves of the medians, in seconds, behind NATs and without loss: one for each delay, by each profile."""
    made = []
    for place, delay in enumerate(DELAYS):
        for profile in PROFILES:
            medians = {hosts: quantile(found[Cell(True, delay, 0, hosts, profile)].times, 0.5) for hosts in HOSTS}
            points = [(float(hosts), median / 1000) for hosts, median in medians.items() if median is not None]
            never = next((f", never with {hosts}" for hosts, median in medians.items() if median is None), "")
            made.append(plot.Curve(f"{delay} ms, {profile}{never}", points, profile == "original", plot.COLORS[place]))
    return made


def _gather(wanted: list[Cell], outcomes: Iterable[Outcome]) -> dict[Cell, Found]:
    by_name = {cell.name: cell for cell in wanted}
    found = {cell: Found() for cell in wanted}
    for outcome in outcomes:
        found[by_name[outcome.scenario]].add(outcome)
    return found


def measure(wanted: list[Cell], count: int, seed: int, processes: int, quiet: bool) -> dict[Cell, Found]:
    """Runs the sessions of the cells."""
    found: dict[Cell, Found] = {}
    for profile in PROFILES:
        part = [cell for cell in wanted if cell.profile == profile]
        found |= _gather(part, pool.run([cell.scenario() for cell in part], count, seed, processes, quiet))
    return found


def filled(text: str, title: str, made: str) -> str:
    """Returns a document with this table in place of the one that follows its title. ValueError if there is none."""
    before, sign, rest = text.partition(f"{title}:\n\n|")
    if not sign:
        raise ValueError(f"there is no table after \"{title}:\"")
    _, _, after = rest.partition("\n\n")
    return f"{before}{title}:\n\n{made}\n\n{after}"


def run(count: int, seed: int, processes: int, quiet: bool, path: Path, own: bool, document: Path | None) -> None:
    """Runs the sessions of all cells, prints the tables or puts them into a document, and writes the plot."""
    found = measure(cells(), count, seed, processes, quiet)
    for has_nat, place in PLACES.items():
        made = table(found, has_nat)
        if document is None:
            print(f"{place}:\n\n{made}\n")
        else:
            document.write_text(filled(document.read_text(encoding="utf-8"), place, made), encoding="utf-8")
    plot.write(path, "Time until both have a path, through NATs", "host candidates of each side", "seconds from the signaling, median",
               curves(found), own)
