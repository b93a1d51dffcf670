"""The program `lab/draw`."""

from __future__ import annotations

import argparse
import sys
from pathlib import Path

from . import capture, mermaid, scenario, svg
from .picture import Picture, of_session
from .guarantees import Broken
from .script import of_script
from .session import Session, Trace


def _arguments() -> argparse.Namespace:
    parser = argparse.ArgumentParser(prog="lab/draw", description="Draws one session, or a script of ice_run.")
    parser.add_argument("scenario", nargs="?", help="a name in lab/scenarios, or a TOML file")
    parser.add_argument("--seed", type=int, default=0)
    parser.add_argument("--set", action="append", default=[], metavar="KEY=VALUE", help="changes the scenario")
    parser.add_argument("--script", type=Path, metavar="FILE", help="draws a script of ice_run; FILE.out is its output")
    parser.add_argument("--output", type=Path, metavar="FILE", help="the output of the script, if it is another file")
    parser.add_argument("--begin", type=float, default=0.0, metavar="SECONDS", help="the start of the picture")
    parser.add_argument("--end", type=float, default=1e9, metavar="SECONDS", help="the end of the picture")
    parser.add_argument("--title")
    parser.add_argument("--svg", type=Path, metavar="FILE")
    parser.add_argument("--mermaid", type=Path, metavar="FILE", help="without any file Mermaid text is printed")
    parser.add_argument("--pcap", type=Path, metavar="FILE", help="writes what the agents sent and received as a capture for Wireshark")
    parser.add_argument("--side", choices=("a", "b"), help="the capture has only what this side sent and received")
    return parser.parse_args()


def _traced(options: argparse.Namespace) -> tuple[Picture, Trace]:
    if not options.scenario:
        raise ValueError("needs a scenario or --script")
    chosen, trace = scenario.load(options.scenario, tuple(options.set)), Trace()
    try:
        Session(chosen, options.seed, trace).run()
    except Broken as broken:
        print(f"lab: BROKEN GUARANTEE: {broken}", file=sys.stderr)
    return of_session(chosen, trace), trace


def _of_script(options: argparse.Namespace) -> Picture:
    if options.pcap:
        raise ValueError("--pcap needs a scenario")
    return of_script(options.script, options.output or options.script.with_name(options.script.name + ".out"))


def _write(options: argparse.Namespace) -> None:
    picture, trace = (_of_script(options), Trace()) if options.script else _traced(options)
    begin, end = round(options.begin * 1e9), round(options.end * 1e9)
    picture = picture.between(begin, end)
    picture.title = options.title or picture.title
    if options.svg:
        options.svg.write_text(svg.draw(picture), encoding="utf-8")
    if options.mermaid:
        options.mermaid.write_text(mermaid.text_of(picture), encoding="utf-8")
    if options.pcap:
        packets = capture.of_trace(trace, options.side or "ab")
        options.pcap.write_bytes(capture.bytes_of(p for p in packets if begin <= p.time < end))
    if not options.svg and not options.mermaid and not options.pcap:
        print(mermaid.text_of(picture), end="")


def main() -> int:
    """Returns the exit status: 0, or 2 if a file has an error."""
    try:
        _write(_arguments())
        return 0
    except (ValueError, OSError) as fault:
        print(f"lab/draw: {fault}", file=sys.stderr)
        return 2


if __name__ == "__main__":
    sys.exit(main())
