"""The picture of a script of `ice_run`, from its calls and their output."""

from __future__ import annotations

import json
from pathlib import Path

from .picture import REJECTED, UNDELIVERED, Arrow, Picture, Transactions


# The second word of a line that a poll returned. That of each other line is the name of a call.
POLLED = (["send"], ["event"], ["wake"])


class BadScript(ValueError):
    """Script and output do not belong together."""


def of_script(lines: Path, output: Path) -> Picture:
    """Reads a script and the output of `ice_run`. BadScript if they do not belong together."""
    calls = [json.loads(line) for line in lines.read_text(encoding="utf-8").split("\n") if line]
    picture = Picture(lines.name, ["A", "B"])
    transactions, again = Transactions(), list[Arrow]()
    times = {"A": 0, "B": 0}
    for call, block in zip(calls, _blocks(output, len(calls))):
        lane = call.get("on", "A")
        times[lane] = call.get("now", times[lane])
        if not block[0].startswith(f"{lane} {call['call']} "):
            raise BadScript(f"{output}: {block[0]} is not the output of {call}")
        if call["call"] == "deliver":
            _deliver(picture, again, call["packet"], times[lane], lane, block[0].split(" ", 2)[2])
        elif call["call"] == "restart":
            picture.flags.append((times[lane], lane, "[restart]"))
        for line in block[1:]:
            _take(picture, transactions, times[lane], lane, line)
    for arrow in picture.arrows:
        if len(arrow.stops) == 1:
            arrow.end, arrow.toward = UNDELIVERED, "B" if arrow.stops[0][1] == "A" else "A"
    picture.arrows += again
    return picture


def _blocks(output: Path, count: int) -> list[list[str]]:
    """Returns the output of each call: the line with its result, and after it what was polled then. That may be nothing."""
    blocks: list[list[str]] = []
    for line in output.read_text(encoding="utf-8").splitlines():
        if line.split(" ")[1:2] not in POLLED:
            blocks.append([line])
        elif blocks:
            blocks[-1].append(line)
        else:
            raise BadScript(f"{output}: begins with {line}, and not with the result of a call")
    if len(blocks) != count:
        raise BadScript(f"{output}: has {len(blocks)} calls, but the script has {count}")
    return blocks


def _take(picture: Picture, transactions: Transactions, time: int, lane: str, line: str) -> None:
    words = line.split(" ")
    if words[1] == "send":
        label, kind = transactions.label(bytes.fromhex(words[6]))
        picture.arrows.append(Arrow(label, kind, [(time, lane)]))
    elif words[1:3] == ["event", "state"]:
        picture.flags.append((time, lane, words[3]))
        picture.states.append((time, lane, words[3]))
    elif words[1:3] == ["event", "restart"]:
        picture.flags.append((time, lane, "session starts"))
        picture.states.append((time, lane, "Checking"))
    elif words[1:3] == ["event", "discovered"]:
        picture.flags.append((time, lane, f"discovered {words[4]}"))
    elif words[1:3] == ["event", "nominated"]:
        picture.flags.append((time, lane, f"path {words[4]} to {words[5]}"))


def _deliver(picture: Picture, again: list[Arrow], number: int, time: int, lane: str, answer: str) -> None:
    arrow = picture.arrows[number]
    if len(arrow.stops) == 1:
        arrow.stops.append((time, lane))
        arrow.end = "" if answer == "true" else REJECTED
    else:
        again.append(Arrow(arrow.label + " again", arrow.kind, [arrow.stops[0], (time, lane)], "" if answer == "true" else REJECTED))
