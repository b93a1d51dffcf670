"""Compares settings: six sets of them, each with its plot and its table."""

from __future__ import annotations

from collections.abc import Callable, Sequence
from dataclasses import dataclass, replace
from pathlib import Path

from . import bars, figures, plot, pool, scenario
from .figures import Figures
from .scenario import AgentSettings, Scenario, ScenarioEvent


@dataclass(frozen=True)
class Setting:
    """A setting: a scenario with its own name, and the color of its curve, if it has one."""

    label: str
    scenario: Scenario
    color: str | None = None


@dataclass(frozen=True)
class Question:
    """What is compared, and by which time of a session."""

    title: str
    x: str
    y: str
    settings: Callable[[], list[Setting]]
    times: Callable[[Figures], Sequence[float]]
    shift: float = 0.0  # milliseconds to subtract from the times
    has_bars: bool = False  # the plot has bars, not curves
    has_slowest: bool = False  # the table has the slowest session


# One color for each loss, one shade for each initial RTO.
SHADES = (("#9ecae1", "#2171b5", "#08306b"), ("#fdae6b", "#d94801", "#7f2704"), ("#a1d99b", "#238b45", "#00441b"))
LOSSES = (0, 5, 20)
RETRANSMITS = (100, 250, 500)
INTERFACES = (2, 5, 10)
ADVANCES = (10, 20, 50, 100)


def _first_retransmit() -> list[Setting]:
    return [_retransmit(loss, rto) for loss in range(len(LOSSES)) for rto in range(len(RETRANSMITS))]


def _retransmit(loss: int, rto: int) -> Setting:
    by_link = round(1 - (1 - LOSSES[loss] / 100) ** 0.5, 6)  # a packet passes two links
    changes = (f"link.home.loss={by_link}", f"a.initial_rto_ms={RETRANSMITS[rto]}",
               f"b.initial_rto_ms={RETRANSMITS[rto]}", 'connects="sometimes"')
    label = f"{RETRANSMITS[rto]} ms, {LOSSES[loss]} % lost"
    return Setting(label, replace(scenario.load("two_homes", changes), name=label), SHADES[loss][rto])


def _pairs() -> list[Setting]:
    by_advance = [_many(i, a, 100) for i in range(len(INTERFACES)) for a in range(len(ADVANCES))]
    by_limit = [_many(i, ADVANCES.index(50), limit) for i in range(len(INTERFACES)) for limit in (4, 25)]
    return by_advance + by_limit


def _many(interfaces: int, advance: int, limit: int) -> Setting:
    made = scenario.load("many_interfaces")
    count = INTERFACES[interfaces]
    label = f"{count * count} pairs, advance {ADVANCES[advance]} ms, limit {limit}"

    def side(name: str) -> AgentSettings:
        own = made.side(name)
        return replace(own, interface=own.interface[-count:], max_pairs=limit, advance_ms=ADVANCES[advance])

    changed = replace(made, name=label, a=side("a"), b=side("b"), connects="sometimes")
    return Setting(label, changed)


def _consent() -> list[Setting]:
    settings = []
    for retransmits, greatest in ((9, 3000), (7, 3000), (5, 3000), (9, 1000)):
        changes = tuple(f"{side}.{key}={value}" for side in "ab" for key, value in (("retransmits", retransmits), ("max_rto_ms", greatest)))
        label = f"{retransmits} checks, {greatest} ms apart"
        settings.append(Setting(label, replace(scenario.load("consent", changes), name=label)))
    return settings


# How many interfaces each side has if consent expires with many pairs: the pairs are as many squared.
CONSENT_INTERFACES = (1, 7, 8, 9, 10)
# When the only working interface fails: while the other pairs are still checked.
CONSENT_CUT_S = 8


def _consent_pairs() -> list[Setting]:
    return [_silent(count, profile) for count in CONSENT_INTERFACES for profile in ("modern", "original")]


def _silent(count: int, profile: str) -> Setting:
    made = scenario.load("many_interfaces")
    pairs = "1 pair" if count == 1 else f"{count * count} pairs"
    label = f"{pairs}, {profile}"

    def side(name: str) -> AgentSettings:
        own = made.side(name)
        return replace(own, interface=own.interface[-count:], max_rto_ms=2900, retransmits=11, profile=profile)

    cut = ScenarioEvent(CONSENT_CUT_S, "a", "silent", "eth9")
    changed = replace(made, name=label, a=side("a"), b=side("b"), event=(cut,), seconds=120, settle_s=110, connects="sometimes")
    return Setting(label, changed)


# The initial RTO, the greatest RTO and the pacing interval Ta, in milliseconds; the defaults first.
TAILS = ((250, 3000, 50), (250, 3000, 20), (250, 1000, 50), (250, 500, 50), (250, 500, 20), (100, 500, 20))


def _tails() -> list[Setting]:
    return [_tail("same_lan", "cable", *values) for values in TAILS]


def _tails_nat() -> list[Setting]:
    return [_tail("two_homes", "home", *values) for values in TAILS]


def _tail(name: str, link: str, *values: int) -> Setting:
    by_link = round(1 - 0.7 ** 0.5, 6)  # 30 % of the packets on the path, which has two links
    changes = [f"{side}.{key}={value}" for side in "ab" for key, value in zip(("initial_rto_ms", "max_rto_ms", "advance_ms"), values)]
    changes += [f"link.{link}.loss={by_link}", 'connects="sometimes"']
    label = "RTO {} to {} ms, Ta {} ms".format(*values)
    return Setting(label, replace(scenario.load(name, tuple(changes)), name=label))


QUESTIONS = {
    "first-retransmit": Question("Time to connect, by initial RTO and loss on the path", "seconds from the first signaling message",
                                 "sessions connected, %", _first_retransmit, lambda f: f.first),
    "pairs": Question("Time to connect if only the last pair works", "seconds from the first signaling message, logarithmic",
                      "sessions connected, %", _pairs, lambda f: f.first, has_bars=True),
    "consent": Question("How long consent takes to expire", "seconds after the last packet that arrived, logarithmic",
                        "sessions disconnected, %", _consent, lambda f: f.lost, 10000.0, has_bars=True),
    "consent-pairs": Question("How long consent takes to expire with many pairs", "seconds after the last packet that arrived, logarithmic",
                              "sessions that left the path, %", _consent_pairs, lambda f: f.left, 1000.0 * CONSENT_CUT_S, has_bars=True,
                              has_slowest=True),
    "tails": Question("Time to connect in a LAN that loses 30 % of the packets", "seconds from the first signaling message, logarithmic",
                      "sessions connected, %", _tails, lambda f: f.first, has_bars=True, has_slowest=True),
    "tails-nat": Question("Time to connect through two NATs, with 30 % loss", "seconds from the first signaling message, logarithmic",
                          "sessions connected, %", _tails_nat, lambda f: f.first, has_bars=True, has_slowest=True),
}


def _by_original(setting: Setting) -> Setting:
    made = setting.scenario
    a, b = (replace(made.side(side), profile="original") for side in scenario.SIDES)
    return replace(setting, scenario=replace(made, a=a, b=b))


def run(name: str, count: int, seed: int, processes: int, quiet: bool, path: Path, own: bool, is_original: bool = False) -> None:
    """Runs the sessions of each setting, prints the table, and writes the plot. `is_original`: the agents have the profile `Original`."""
    question = QUESTIONS[name]
    settings = [_by_original(s) for s in question.settings()] if is_original else question.settings()
    told = figures.gather(pool.run([s.scenario for s in settings], count, seed, processes, quiet))
    times = {s.label: [time - question.shift for time in question.times(told[s.label])] for s in settings}
    _print(question, times, count)
    if question.has_bars:
        bars.write(path, question.title, question.x, [bars.Bar(label, bars.quantiles(of)) for label, of in times.items()], own)
        return
    end = max(1.0, *((figures.quantile(of, 0.995) or 0.0) / 1000 * 1.05 for of in times.values()))
    curves = [plot.share_over_time(s.label, times[s.label], count, end, s.color) for s in settings]
    plot.write(path, question.title, question.x, question.y, curves, own)


def _print(question: Question, times: dict[str, list[float]], count: int) -> None:
    shares = {"median": 0.5, "95 %": 0.95, "99 %": 0.99, **({"slowest": 1.0} if question.has_slowest else {})}
    print(f"| setting | sessions | {question.y} | {' | '.join(f'{name}, s' for name in shares)} |")
    print("|---" * (3 + len(shares)) + "|")
    for label, of in times.items():
        at = [figures.quantile(of, share) for share in shares.values()]
        cells = ["-" if value is None else f"{value / 1000:.2f}" for value in at]
        print(f"| {label} | {count} | {100 * len(of) / count:.1f} | {' | '.join(cells)} |")
