"""The program `lab/run`."""

from __future__ import annotations

import argparse
import sys
import time
from contextlib import ExitStack
from pathlib import Path

from . import bars, checked, compare, consent, coverage, figures, headline, hosts, pool, profiles, scenario
from .guarantees import Broken
from .scenario import BadScenario, Scenario


def _arguments() -> argparse.Namespace:
    parser = argparse.ArgumentParser(
        prog="lab/run", description="Simulates sessions of two agents over networks with NATs, delays and loss.")
    words = parser.add_subparsers(dest="word", required=True)
    words.add_parser("list", help="lists the scenarios")
    measure = words.add_parser("measure", help="runs sessions of scenarios and prints statistics")
    measure.add_argument("scenario", nargs="*", help="names in lab/scenarios, or TOML files; default: all of lab/scenarios")
    measure.add_argument("-n", "--sessions", type=int, default=200, help="sessions of each scenario (200)")
    measure.add_argument("--set", action="append", default=[], metavar="KEY=VALUE", help="changes a scenario: a.initial_rto_ms=100")
    measure.add_argument("--csv", type=Path, metavar="FILE", help="writes a row for each session")
    measure.add_argument("--plot", type=Path, metavar="FILE",
                         help="plots when both sides have a path: median, 95 %% and 99 %%, as .svg or (by matplotlib) .png")
    comparing = words.add_parser("compare", help="compares settings, and plots them")
    comparing.add_argument("question", choices=sorted(compare.QUESTIONS))
    comparing.add_argument("-n", "--sessions", type=int, default=1000, help="sessions of each setting (1000)")
    comparing.add_argument("--plot", type=Path, metavar="FILE", required=True)
    comparing.add_argument("--original", action="store_true", help="agents with the profile Original")
    many = words.add_parser("hosts", help="measures how long agents with many host candidates take, by the profile Modern and by Original")
    many.add_argument("-n", "--sessions", type=int, default=40, help="sessions of each setting (40)")
    many.add_argument("--plot", type=Path, metavar="FILE", required=True)
    many.add_argument("--document", type=Path, metavar="FILE", help="puts the tables in place of those of a document, as docs/SESSIONS.md")
    each = words.add_parser("profiles", help="measures how long agents take by either profile, also if the peer starts later")
    each.add_argument("-n", "--sessions", type=int, default=40, help="sessions of each setting (40)")
    each.add_argument("--document", type=Path, metavar="FILE", help="puts the table in place of that of a document, as docs/SESSIONS.md")
    keeping = words.add_parser("consent", help="measures how long agents keep a path when its link fails, beside the end of consent")
    keeping.add_argument("-n", "--sessions", type=int, default=20, help="sessions of each setting (20)")
    keeping.add_argument("--document", type=Path, metavar="FILE", help="puts the table in place of that of a document, as docs/SESSIONS.md")
    covering = words.add_parser("coverage", help="shows how many sessions each clause of progress covers, and its bound")
    covering.add_argument("scenario", nargs="*", help="as for measure")
    covering.add_argument("-n", "--sessions", type=int, default=200, help="sessions of each scenario (200)")
    covering.add_argument("--set", action="append", default=[], metavar="KEY=VALUE", help="as for measure")
    covering.add_argument("--settle", type=float, metavar="S", help="go on this long after the last selection (as the scenario says: 12 s)")
    deciding = words.add_parser("headline", help="decides the clauses of docs/HEADLINE.md, and shows how many sessions they cover")
    deciding.add_argument("scenario", nargs="*",
                          help="as for measure; default: those in which two full agents with opposite roles connect, and role_conflict")
    deciding.add_argument("-n", "--sessions", type=int, default=50, help="sessions of each scenario (50)")
    deciding.add_argument("--set", action="append", default=[], metavar="KEY=VALUE", help="as for measure")
    deciding.add_argument("--document", type=Path, metavar="FILE", help="puts the table in place of that of a document")
    counting = words.add_parser("checks", help="counts the checks that agents send, and compares with the bounds of the theorems")
    counting.add_argument("scenario", nargs="*", help="as for measure")
    counting.add_argument("-n", "--sessions", type=int, default=50, help="sessions of each scenario (50)")
    counting.add_argument("--set", action="append", default=[], metavar="KEY=VALUE", help="as for measure")
    counting.add_argument("--settle", type=float, metavar="S", help="as for coverage")
    for command in (measure, comparing, many, each, keeping, covering, deciding, counting):
        command.add_argument("--seed", type=int, default=0, help="the first seed (0)")
        command.add_argument("-j", "--processes", type=int, default=1, help="number of processes (1)")
        command.add_argument("-q", "--quiet", action="store_true", help="no progress bar")
        command.add_argument("--own-svg", action="store_true", help="plots without matplotlib, even if that is installed")
    return parser.parse_args()


def _measure(options: argparse.Namespace) -> None:
    begun = time.monotonic()
    scenarios = [scenario.load(name, tuple(options.set)) for name in options.scenario or scenario.names()]
    with ExitStack() as files:
        outcomes = pool.run(scenarios, options.sessions, options.seed, options.processes, options.quiet)
        if options.csv:
            stream = files.enter_context(options.csv.open("w", encoding="utf-8", newline=""))
            outcomes = iter(figures.write_csv(outcomes, stream))
        told = figures.gather(outcomes)
    print(figures.table(told[s.name] for s in scenarios))
    total = sum(f.sessions for f in told.values())
    print(f"{total} sessions in {time.monotonic() - begun:.0f} s, no guarantee broken")
    if options.plot:
        _plot(options, scenarios, told)


def _cover(options: argparse.Namespace) -> None:
    scenarios = [scenario.load(name, tuple(options.set)) for name in options.scenario or scenario.names()]
    found = pool.run_by(coverage.Play(options.settle), scenarios, options.sessions, options.seed, options.processes, options.quiet)
    told = coverage.gather(found)
    print(coverage.tables([told[s.name] for s in scenarios]))


def _decide(options: argparse.Namespace) -> None:
    known = [scenario.load(name, tuple(options.set)) for name in options.scenario or scenario.names()]
    scenarios = known if options.scenario else [s for s in known if headline.is_ordinary(s) or s.name == headline.CONFLICT]
    found = pool.run_by(headline.Play(), scenarios, options.sessions, options.seed, options.processes, options.quiet)
    made = headline.table(headline.groups_of(scenarios), found)
    if options.document is None:
        print(made)
    else:
        text = options.document.read_text(encoding="utf-8")
        options.document.write_text(hosts.filled(text, headline.TITLE, made), encoding="utf-8")


def _count(options: argparse.Namespace) -> None:
    scenarios = [scenario.load(name, tuple(options.set)) for name in options.scenario or scenario.names()]
    found = pool.run_by(checked.Play(options.settle), scenarios, options.sessions, options.seed, options.processes, options.quiet)
    print(checked.table([s.name for s in scenarios], found))


def _plot(options: argparse.Namespace, scenarios: list[Scenario], told: dict[str, figures.Figures]) -> None:
    rows = [bars.Bar(s.title, bars.quantiles(told[s.name].first)) for s in scenarios]
    bars.write(options.plot, "When both sides have a path", "seconds from the first signaling message, logarithmic",
               bars.by_median(rows), options.own_svg)


def main() -> int:
    """Returns the exit status: 0; 1 if a guarantee does not hold; 2 if a scenario or a file has an error."""
    options = _arguments()
    try:
        if options.word == "list":
            for name in scenario.names():
                print(f"{name:22} {scenario.load(name).title}")
        elif options.word == "measure":
            _measure(options)
        elif options.word == "coverage":
            _cover(options)
        elif options.word == "headline":
            _decide(options)
        elif options.word == "checks":
            _count(options)
        elif options.word == "hosts":
            hosts.run(options.sessions, options.seed, options.processes, options.quiet, options.plot, options.own_svg, options.document)
        elif options.word == "profiles":
            profiles.run(options.sessions, options.seed, options.processes, options.quiet, options.document)
        elif options.word == "consent":
            consent.run(options.sessions, options.seed, options.processes, options.quiet, options.document)
        else:
            compare.run(options.question, options.sessions, options.seed, options.processes, options.quiet, options.plot, options.own_svg,
                        options.original)
        return 0
    except Broken as broken:
        print(f"lab: BROKEN GUARANTEE: {broken}", file=sys.stderr)
        return 1
    except (BadScenario, OSError, ValueError) as fault:
        print(f"lab: {fault}", file=sys.stderr)
        return 2


if __name__ == "__main__":
    sys.exit(main())
