"""What the log of one agent shows without a look into it: which path it selected last, and when the last check on a path that got a
response was sent."""

from __future__ import annotations

from collections import Counter
from collections.abc import Iterator
from dataclasses import replace

from ..model import Agent
from ..pairs import Pair, Path
from ..replay import Step
from ..stun import message_of
from .execution import Execution, Lacks, brings_success, lacks

CLEARING = ("ice_restart", "recreate_candidate_pairs")


def success_path(step: Step) -> Path:
    """Returns the path of the check to which the response of this entry belongs: the reverse of its own (`is_reverse`)."""
    _, source, destination, *_ = step.entry.given
    return destination, source


class Seen:
    """What the log shows up to an entry. `selected`: the path that was selected last since the pairs were last cleared
    (`selected_along`). `consented`: for each path, as long as there is a pair on it, when the last check that got a response was sent."""

    def __init__(self) -> None:
        self.selected: Path | None = None
        self.consented: dict[Path, int] = {}
        self._sent: dict[bytes, int] = {}

    def add(self, step: Step, before: Agent, after: Agent) -> None:
        """Adds an entry of the agent."""
        if step.entry.call in CLEARING:
            self.selected = None
            self.consented.clear()
        if step.selected:
            self.selected = step.selected[-1]
        if step.is_timeout and step.issued is not None and step.issued.kind == "request":
            self._sent[step.issued.id] = step.entry.given[0]
        if brings_success(step):
            path, sent = success_path(step), self._sent.get(message_of(step.entry.given[3]).transaction)
            if sent is not None:
                self.consented[path] = max(sent, self.consented.get(path, sent))
        if (len(before.pairs), before.next_number) != (len(after.pairs), after.next_number):
            present = {after.path(p) for p in after.pairs}
            self.consented = {path: sent for path, sent in self.consented.items() if path in present}

    def pairs(self, agent: Agent) -> tuple[Pair, ...]:
        """Returns the agent's pairs with what the log shows of their checks. Two pairs on one path stay as they are."""
        paths = [agent.path(p) for p in agent.pairs]
        counts = Counter(paths)
        return tuple(self._shown(p, path) if counts[path] == 1 else p for p, path in zip(agent.pairs, paths))

    def _shown(self, pair: Pair, path: Path) -> Pair:
        sent = self.consented.get(path)
        return pair if pair.consented == sent else replace(pair, consented=sent)


def walk(x: Execution, side: str) -> Iterator[tuple[Step, Seen]]:
    """Returns each entry of the side with what the log shows up to it."""
    seen = Seen()
    for step in x.steps:
        if step.entry.side == side:
            seen.add(step, step.before[side], step.after[side])
            yield step, seen


def is_maintained(agent: Agent, now: int) -> Lacks:
    """The `handle_timeout` call of a full agent serves no early request (`IsMaintained`). It returned Ok, as all of the log."""
    return lacks(full=not agent.lite, unqueued=agent.request_at(now) is None)
