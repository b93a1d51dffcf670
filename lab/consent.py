"""Measures how long agents keep a path after its last answered check when its link fails, and compares that with the end of consent."""

from __future__ import annotations

from collections.abc import Iterable
from dataclasses import dataclass, field, replace
from functools import cache
from pathlib import Path as File
from random import Random

from is_ice import IceAgent, IceAgentEvent, IceConnectionStateChange, NominatedSend

from . import pool, scenario
from .clock import BEGINNING, MILLISECOND, SECOND, nanoseconds
from .figures import aligned, quantile
from .guarantees import Broken
from .hosts import filled
from .log import Entry, Log
from .pairs import Path, reversed_path
from .pool import Fault, Portion
from .scenario import SIDES, AgentSettings, InterfaceSettings, Scenario, ScenarioEvent
from .session import Session
from .stun import message_of

# How many interfaces A and B have: 2, 10, 30, 56, 72, 90 and 100 pairs.
INTERFACES = ((1, 2), (2, 5), (5, 6), (7, 8), (8, 9), (9, 10), (10, 10))
# When the link fails, at the earliest, and how much later at most. If only one pair works, the other ones are still checked then.
CUT_S, SPREAD_S = 8, 3
# How long a session goes on after that: as long as the peer may keep its own path, and 15 s after its last check.
LEAVES_S = 46
PACE = 50 * MILLISECOND
# How long a check of the peer keeps a path, unless consent is strict.
HEARD = 15 * SECOND
TITLE = "Median and slowest time in s after the last answered check, and the longest that consent allows in the slowest"


@dataclass(frozen=True)
class Cell:
    """One setting. A has the first number of interfaces, B the second. `all_work`: of the pairs, each one works, not only one. `one_way`:
    what A sends is lost when the link fails, and not what it receives."""

    interfaces: tuple[int, int]
    all_work: bool
    one_way: bool

    @property
    def pairs(self) -> int:
        """The number of pairs."""
        return self.interfaces[0] * self.interfaces[1]

    @property
    def name(self) -> str:
        """Its name, from which the seeds come."""
        return f"consent {self.pairs} {self.all_work} {self.one_way}"

    def scenario(self) -> Scenario:
        """Returns its scenario. The link fails at `CUT_S`."""
        made = scenario.load("many_interfaces")
        a, b = (self._side(made.side(side), number) for number, side in enumerate(SIDES, 1))
        events = tuple(ScenarioEvent(CUT_S, "a", "mute" if self.one_way else "silent", interface.name) for interface in a.interface)
        seconds = CUT_S + SPREAD_S + LEAVES_S
        return replace(made, name=self.name, seconds=seconds, settle_s=seconds, connects="sometimes", symmetric=False, a=a, b=b,
                       event=events)

    def _side(self, made: AgentSettings, number: int) -> AgentSettings:
        kept = made.interface[-self.interfaces[number - 1]:]
        if self.all_work:
            kept = tuple(InterfaceSettings(i.name, f"192.0.2.{10 * number + n}", up="quick", down="quick") for n, i in enumerate(kept))
        return replace(made, interface=kept, max_rto_ms=None, retransmits=None, consent_ms=0.0)  # as agents in C, Rust and Python begin


def at_random(made: Scenario, seed: int) -> Scenario:
    """Returns a scenario whose link fails up to `SPREAD_S` later, by the seed."""
    later = Random(f"{made.name} {seed}").uniform(0, SPREAD_S)
    return replace(made, event=tuple(replace(event, at_s=event.at_s + later) for event in made.event))


# ---- what the log shows

@dataclass(frozen=True)
class Departure:
    """A side left a path: it selected another one, or was not connected any more. `answered`: when the last check on the path that got a
    response was sent. `heard`: when the last check of the peer on it arrived. Times are nanoseconds."""

    side: str
    at: int
    answered: int
    heard: int | None

    @property
    def end(self) -> int:
        """When consent ended, at the latest: so long after both, and a pacing interval later."""
        heard = 0 if self.heard is None else self.heard + HEARD
        return max(self.answered + timeout(), heard) + PACE


@cache
def timeout() -> int:
    """Returns how long a response keeps a pair by the modern settings: the longest RTO and a whole series of checks."""
    with IceAgent() as agent:
        return agent.settings.max_rto + agent.ice_timeout


class Paths:
    """What the log shows of a side's paths up to an entry. `answered`, `heard`: of each path, as in `Departure`."""

    def __init__(self) -> None:
        self.selected: Path | None = None
        self.answered: dict[Path, int] = {}
        self.heard: dict[Path, int] = {}
        self._sent: dict[bytes, int] = {}

    def add(self, entry: Entry) -> Path | None:
        """Adds an entry of the side. Returns the path that it left then."""
        if entry.call == "poll_transmit":
            self._sent[message_of(entry.returned.contents).transaction] = entry.time
        elif entry.call == "handle_packet" and entry.returned:
            self._take(entry)
        elif entry.call == "poll_event":
            return self._report(entry.returned)
        return None

    def _take(self, entry: Entry) -> None:
        now, source, local, contents = entry.given
        message, path = message_of(contents), reversed_path((source, local))
        if message.kind == "request":
            self.heard[path] = now
        elif message.kind == "success":
            self.answered[path] = max(self._sent[message.transaction], self.answered.get(path, 0))

    def _report(self, event: IceAgentEvent) -> Path | None:
        old = self.selected
        if isinstance(event, NominatedSend):
            self.selected = event.source, event.destination
        elif isinstance(event, IceConnectionStateChange) and not event.state.is_connected():
            self.selected = None
        return old if old != self.selected else None


def departures(log: Log, since: int) -> list[Departure]:
    """Returns each departure from a path after this time."""
    found, paths = [], {side: Paths() for side in SIDES}
    for entry in log.entries:
        of = paths[entry.side]
        left = of.add(entry)
        if left is not None and entry.time > since:
            found.append(Departure(entry.side, entry.time, of.answered[left], of.heard.get(left)))
    return found


# ---- sessions

@dataclass(frozen=True)
class Found:
    """The departures of one session after the failure."""

    scenario: str
    departures: tuple[Departure, ...]


def fault_of(found: list[Departure]) -> str | None:
    """Returns what is wrong with the departures of a session: one came too late, or a side kept its path."""
    for late in (d for d in found if d.at > d.end):
        return f"{late.side} left a path {(late.at - late.answered) / SECOND:.3f} s after its last answered check: " \
               f"{(late.at - late.end) / MILLISECOND:.3f} ms after the end of consent"
    return next((f"{side} left no path" for side in SIDES if all(d.side != side for d in found)), None)


def play(portion: Portion) -> list[Found] | Fault:
    """Runs a portion of sessions, up to the first in which a path was kept too long."""
    made, seeds = portion
    told = []
    for seed in seeds:
        log, one = Log(), at_random(made, seed)
        try:
            Session(one, seed, None, log).run()
        except Broken as broken:
            return Fault(made.name, seed, str(broken))
        found = departures(log, BEGINNING + nanoseconds(one.event[0].at_s * 1000))
        if (fault := fault_of(found)) is not None:
            return Fault(made.name, seed, fault)
        told.append(Found(made.name, tuple(found)))
    return told


# ---- the table

def cells() -> list[Cell]:
    """Returns all cells."""
    return [Cell(interfaces, all_work, one_way) for all_work in (False, True) for interfaces in INTERFACES for one_way in (False, True)]


@dataclass
class Figures:
    """The departures of a cell's sessions."""

    found: list[Departure] = field(default_factory=list)

    def columns(self, sides: str = "ab") -> list[str]:
        """Returns two columns: the median and the slowest time after the last answered check, and when consent ended for the slowest."""
        own = [d for d in self.found if d.side in sides]
        slowest = max(own, key=lambda d: d.at - d.answered)
        return [spread([d.at - d.answered for d in own]), f"{(slowest.end - slowest.answered) / SECOND:.2f}"]

    def after_heard(self, side: str) -> str:
        """Returns the median and the slowest time after the peer's last check."""
        return spread([d.at - d.heard for d in self.found if d.side == side and d.heard is not None])

    def margin(self) -> int:
        """Returns how much before the end of consent each departure was, at least."""
        return min(d.end - d.at for d in self.found)


def spread(times: list[int]) -> str:
    """Returns the median and the greatest of times, in seconds."""
    median, most = quantile(times, 0.5), quantile(times, 1.0)
    return "-" if median is None or most is None else f"{median / SECOND:.2f} / {most / SECOND:.2f}"


HEAD = ["pairs", "that work", "cut both ways", "at most", "cut one way: A, which hears B", "after B's last check", "at most",
        "B, which hears nothing", "at most", "least margin ms"]


def table(figures: dict[Cell, Figures]) -> str:
    """Returns the table: a row for each number of pairs, of which one works or all."""
    rows = [HEAD]
    for all_work in (False, True):
        for interfaces in INTERFACES:
            both, one = (figures[Cell(interfaces, all_work, one_way)] for one_way in (False, True))
            pairs = Cell(interfaces, all_work, False).pairs
            hears, most = one.columns("a")
            margin = f"{min(both.margin(), one.margin()) / MILLISECOND:.1f}"
            count = str(pairs if all_work else 1)
            rows.append([str(pairs), count, *both.columns(), hears, one.after_heard("a"), most, *one.columns("b"), margin])
    return aligned(rows)


def gather(wanted: list[Cell], told: Iterable[Found]) -> dict[Cell, Figures]:
    """Collects what was found, by cell."""
    by_name, figures = {cell.name: cell for cell in wanted}, {cell: Figures() for cell in wanted}
    for session in told:
        figures[by_name[session.scenario]].found += session.departures
    return figures


def run(count: int, seed: int, processes: int, quiet: bool, document: File | None) -> None:
    """Runs the sessions of all cells, and prints the table or puts it into a document. Raises Broken if a path was kept too long."""
    wanted = cells()
    made = table(gather(wanted, pool.run_by(play, [cell.scenario() for cell in wanted], count, seed, processes, quiet)))
    if document is None:
        print(f"{TITLE}:\n\n{made}")
    else:
        document.write_text(filled(document.read_text(encoding="utf-8"), TITLE, made), encoding="utf-8")
