"""How many checks agents send in sessions, and how many the theorems of `counting` in `is_theorems` allow."""

from __future__ import annotations

from collections.abc import Callable, Iterable, Sequence
from dataclasses import dataclass

from .clauses import check_rate, silent_pairs
from .clauses.execution import Execution
from .clauses.verdict import Verdict
from .coverage import prolonged
from .figures import aligned
from .guarantees import Broken
from .log import Log
from .pool import Fault, Portion
from .replay import replay
from .session import Session

CLAUSES: dict[str, Callable[[Execution], Verdict]] = {
    "timeouts_check": check_rate.timeouts_check, "checks_are_paced": check_rate.checks_are_paced,
    "seconds": check_rate.seconds_have_few, "seconds, late": check_rate.late_seconds_have_few,
    "seconds, frugal": check_rate.frugal_seconds_have_few,
    "silent_pairs_get_few": silent_pairs.silent_pairs_get_few, "silences": silent_pairs.silences_have_few,
    "asked": silent_pairs.asked_pairs_get_few}


@dataclass(frozen=True)
class Checked:
    """One session, and what the checkers found. `differs`: whether the model did not foresee something."""

    scenario: str
    seed: int
    verdicts: dict[str, Verdict]
    differs: bool


@dataclass(frozen=True)
class Play:
    """Plays a portion of sessions, and applies the checkers to each. `settle_s`: as of `lab/run coverage`."""

    settle_s: float | None = None

    def __call__(self, portion: Portion) -> list[Checked] | Fault:
        """Returns what was found, up to the first fault."""
        scenario, seeds = portion
        found = []
        for seed in seeds:
            log = Log()
            try:
                Session(prolonged(scenario, self.settle_s), seed, None, log).run()
            except Broken as broken:
                return Fault(scenario.name, seed, str(broken))
            session = replay(log)
            execution = Execution(session)
            verdicts = {name: find(execution) for name, find in CLAUSES.items()}
            if faults := [f"{name}: {v.count} checks, of {v.limit}" for name, v in verdicts.items() if v.is_broken]:
                return Fault(scenario.name, seed, faults[0])
            found.append(Checked(scenario.name, seed, verdicts, bool(session.differences)))
        return found


def closest(verdicts: Iterable[Verdict]) -> str:
    """Returns the greatest number of checks with its bound; of several bounds each."""
    greatest: dict[int, int] = {}
    for v in verdicts:
        if v.held and v.limit is not None:
            greatest[v.limit] = max(v.count, greatest.get(v.limit, 0))
    return ", ".join(f"{count} of {limit}" for limit, count in sorted(greatest.items())) or "-"


# Of which clauses the table has the greatest number: those whose bound is that of the theorem, and not of a session.
NUMBERED = ("seconds", "seconds, late", "seconds, frugal", "silent_pairs_get_few", "silences", "asked")


def table(names: Sequence[str], found: Iterable[Checked]) -> str:
    """Returns two tables: of how many percent of the sessions of each scenario the preconditions of each clause held; and the numbers of
    checks that come closest to their bounds."""
    sessions = list(found)

    def own(name: str) -> list[Checked]:
        return [s for s in sessions if s.scenario == name]

    def shares(title: str, of: Sequence[Checked]) -> list[str]:
        held = (f"{100 * sum(s.verdicts[c].held for s in of) / max(len(of), 1):.1f}" for c in CLAUSES)
        return [title, str(len(of)), *held, str(sum(s.differs for s in of))]

    def numbers(title: str, of: Sequence[Checked]) -> list[str]:
        return [title, *(closest(s.verdicts[c] for s in of) for c in NUMBERED)]

    head = ["scenario", "sessions", *(f"{clause} %" for clause in CLAUSES), "model differs"]
    covered = aligned([head, *(shares(name, own(name)) for name in names), shares("all", sessions)])
    return covered + "\n\n" + aligned([["scenario", *NUMBERED], *(numbers(name, own(name)) for name in names)])
