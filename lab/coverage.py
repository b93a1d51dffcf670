"""How many sessions each clause of progress covers, and how its bound compares with what happened."""

from __future__ import annotations

from collections import Counter
from collections.abc import Callable, Iterable, Sequence
from dataclasses import dataclass, field, replace

from .clauses import (
    both, both_become_connected, by_number, completed_nominations_are_selected, connect, connected_are_answered, connected_have_consent,
    consent_ends_in_time, consent_holds, executions_reach_served, executions_select_in_time, due_rounds, in_time, leaves_in_time, meet,
    nomination_accepted, nominations, none_starved_in_time, of_use, one_path, reached_in_kind, reached_in_turn, rounds, run_connected,
    run_connected_answered, run_in_time, run_selects_in_time, selects_in_time, served_are_checked_soon, served_in_time,
    served_select_in_time, states_agree, successes, urgent_are_reached, valid_have_consented, world_rounds)
from .clauses.execution import Execution
from .clauses.accepted_nominations import Network
from .clauses.verdict import Verdict
from .clock import BEGINNING, MILLISECOND
from .figures import aligned, quantile
from .guarantees import Broken
from .log import Log
from .pool import Fault, Portion
from .replay import replay
from .scenario import Scenario
from .session import Session

# The clauses of progress of `World::run` and of `run`, and theorems of `is_theorems` on one agent.
WORLD: dict[str, Callable[[Network], Verdict]] = {
    "meet": meet.find, "rounds": world_rounds.find, "in_time": lambda network: in_time.find(network.x),
    "in_time, served": lambda network: served_in_time.find(network.x),
    "selects_in_time": selects_in_time.find, "selects_in_time, served": served_select_in_time.find,
    "nomination_accepted": nomination_accepted.find, "connect": connect.find, "both": both.find, "one_path": one_path.find,
    "by_number": by_number.find, "both_become_connected": both_become_connected.find}
RUN: dict[str, Callable[[Execution], Verdict]] = {
    "run: of_use": of_use.find, "run: successes": successes.find, "run: nominations": nominations.find,
    "run: connected": run_connected.find, "run: connected_answered": run_connected_answered.find, "run: rounds": rounds.find,
    "run: due_rounds": due_rounds.find, "run: in_time": run_in_time.find, "run: selects_in_time": run_selects_in_time.find,
    "run: none_starved_in_time": none_starved_in_time.find}
THEOREMS: dict[str, Callable[[Execution], Verdict]] = {
    "consent_holds": consent_holds.find, "consent_ends_in_time": consent_ends_in_time.find,
    "valid_have_consented": valid_have_consented.find, "connected_have_consent": connected_have_consent.find,
    "connected_are_answered": connected_are_answered.find, "leaves_in_time": leaves_in_time.find,
    "completed_nominations_are_selected": completed_nominations_are_selected.find,
    "executions_select_in_time": executions_select_in_time.find, "states_agree": states_agree.find, "reached_in_turn": reached_in_turn.find,
    "reached_in_kind": reached_in_kind.find, "urgent_are_reached": urgent_are_reached.find,
    "served_are_checked_soon": served_are_checked_soon.find, "executions_reach_served": executions_reach_served.find}
CLAUSES = (*WORLD, *RUN, *THEOREMS)


@dataclass(frozen=True)
class Covered:
    """One session: whether both sides selected a path, and what the checkers found. `differences`: what the model did not foresee."""

    scenario: str
    seed: int
    connected: bool
    verdicts: dict[str, Verdict]
    differences: tuple[str, ...] = ()


def verdicts_of(log: Log) -> tuple[dict[str, Verdict], tuple[str, ...]]:
    """Applies the checkers to a log."""
    session = replay(log)
    execution = Execution(session)
    network = Network(execution)
    verdicts = {name: find(network) for name, find in WORLD.items()} | {name: find(execution) for name, find in (RUN | THEOREMS).items()}
    return verdicts, tuple(session.differences)


def prolonged(scenario: Scenario, settle_s: float | None) -> Scenario:
    """Returns a scenario whose sessions go on this long after the last selection; None: as long as it says."""
    settle = scenario.coverage_s if settle_s is None else settle_s
    return replace(scenario, settle_s=max(scenario.settle_s, settle), seconds=max(scenario.seconds, settle * 2))


@dataclass(frozen=True)
class Play:
    """Runs a portion of sessions, and applies the checkers to each. `settle_s`: the sessions go on this long after the last selection;
    None: as long as the scenario says."""

    settle_s: float | None = None

    def prolonged(self, scenario: Scenario) -> Scenario:
        """Returns a scenario whose sessions go on so long."""
        return prolonged(scenario, self.settle_s)

    def __call__(self, portion: Portion) -> list[Covered] | Fault:
        """Returns what was found, up to the first broken guarantee."""
        scenario, seeds = portion
        longer = self.prolonged(scenario)
        found = []
        for seed in seeds:
            log = Log()
            try:
                outcome = Session(longer, seed, None, log).run()
            except Broken as broken:
                return Fault(scenario.name, seed, str(broken))
            covered = Covered(scenario.name, seed, outcome.first is not None, *verdicts_of(log))
            if broken_clauses := [name for name, verdict in covered.verdicts.items() if verdict.is_broken]:
                return Fault(scenario.name, seed, f"all preconditions of {broken_clauses[0]} held, and its conclusion did not")
            found.append(covered)
        return found


@dataclass
class Share:
    """What one clause covers of a scenario's connected sessions. Times are milliseconds from the first signaling message."""

    covered: int = 0
    since: list[float] = field(default_factory=list)
    bound: list[float] = field(default_factory=list)
    fact: list[float] = field(default_factory=list)
    ratio: list[float] = field(default_factory=list)
    rounds: list[float] = field(default_factory=list)
    failed: Counter[str] = field(default_factory=Counter)

    def add(self, verdict: Verdict) -> None:
        """Adds a session."""
        if not verdict.held:
            self.failed[verdict.failed] += 1
            return
        self.covered += 1
        assert verdict.since is not None and verdict.bound is not None
        since, bound = ((time - BEGINNING) / MILLISECOND for time in (verdict.since, verdict.bound))
        self.since.append(since)
        self.bound.append(bound)
        self.rounds.append(verdict.rounds)
        if verdict.fact is not None:
            fact = (verdict.fact - BEGINNING) / MILLISECOND
            self.fact.append(fact)
            if fact > 0:
                self.ratio.append(bound / fact)


@dataclass
class Coverage:
    """What the clauses cover of a scenario."""

    scenario: str
    sessions: int = 0
    connected: int = 0
    differing: int = 0
    shares: dict[str, Share] = field(default_factory=lambda: {name: Share() for name in CLAUSES})

    def add(self, session: Covered) -> None:
        """Adds a session."""
        self.sessions += 1
        self.differing += bool(session.differences)
        if session.connected:
            self.connected += 1
            for name, verdict in session.verdicts.items():
                self.shares[name].add(verdict)


def gather(found: Iterable[Covered]) -> dict[str, Coverage]:
    """Collects what was found, by scenario."""
    told: dict[str, Coverage] = {}
    for session in found:
        told.setdefault(session.scenario, Coverage(session.scenario)).add(session)
    return told


def tables(told: Sequence[Coverage]) -> str:
    """Returns Markdown tables: shares, of `World::run`, of `run` and of theorems; times; the preconditions that failed first."""
    shares = [aligned([_head(names), *(_share_row(c, names) for c in told)]) for names in (tuple(WORLD), tuple(RUN), tuple(THEOREMS))]
    return "\n\n".join((*shares, aligned([_TIMES, *(r for c in told for r in _time_rows(c))]), aligned([_FAILED, *_failed_rows(told)])))


def _head(names: Sequence[str]) -> list[str]:
    return ["scenario", "sessions", "connected", *(f"{name} %" for name in names), "model differs"]


_TIMES = ["scenario", "clause", "covered", "since ms", "rounds", "bound ms", "happened ms", "bound / happened", "at most 2: %"]
_FAILED = ["clause", "precondition that failed first", "sessions", "of these scenarios"]


def _share_row(c: Coverage, names: Sequence[str]) -> list[str]:
    shares = [f"{100 * c.shares[name].covered / c.connected:.1f}" if c.connected else "-" for name in names]
    return [c.scenario, str(c.sessions), str(c.connected), *shares, str(c.differing)]


def _time_rows(c: Coverage) -> list[list[str]]:
    def median(values: Sequence[float], digits: int = 0) -> str:
        value = quantile(values, 0.5)
        return "-" if value is None else f"{value:.{digits}f}"

    rows = []
    for name, share in c.shares.items():
        if share.covered:
            near = f"{100 * sum(r <= 2 for r in share.ratio) / c.connected:.1f}" if share.ratio else "-"
            rows.append([c.scenario, name, str(share.covered), median(share.since), median(share.rounds) if any(share.rounds) else "-",
                         median(share.bound), median(share.fact), median(share.ratio, 2), near])
    return rows


def _failed_rows(told: Sequence[Coverage]) -> list[list[str]]:
    counts: dict[tuple[str, str], Counter[str]] = {}
    for c in told:
        for name, share in c.shares.items():
            for failed, count in share.failed.items():
                counts.setdefault((name, failed), Counter())[c.scenario] += count
    order = sorted(counts, key=lambda k: (list(CLAUSES).index(k[0]), -counts[k].total()))
    return [[name, failed, str(counts[name, failed].total()), ", ".join(f"{s} {n}" for s, n in counts[name, failed].most_common())]
            for name, failed in order]
