"""A session's log, prepared for the checkers: the state before each entry, and which calls each side makes. A segment of the log is
a range of indices."""

from __future__ import annotations

from bisect import bisect_left
from collections.abc import Callable, Sequence
from dataclasses import dataclass, replace
from functools import cached_property

from ..model import Agent
from ..pairs import Path
from ..replay import Replay, Step
from ..scenario import SIDES
from ..stun import message_of

MAX = (1 << 64) - 1
# Names of what does not hold: of definitions, and of their parts. None if all holds.
Lacks = list[str]


def lacks(**parts: bool | Lacks) -> Lacks:
    """Returns the names of the parts that do not hold, with the names of their own parts."""
    found: Lacks = []
    for name, holds in parts.items():
        if isinstance(holds, bool):
            found += [] if holds else [name]
        else:
            found += [f"{name}.{part}" for part in holds]
    return found


def fewest(found: Sequence[Lacks], otherwise: Lacks) -> Lacks:
    """Returns what the best of several choices lacks, or `otherwise` if there is no choice."""
    return min(found, key=len, default=otherwise)


def part_of(indices: Sequence[int], part: range) -> Sequence[int]:
    """Returns the sorted indices that are in the range."""
    return indices[bisect_left(indices, part.start):bisect_left(indices, part.stop)]


def any_in(indices: Sequence[int], part: range) -> bool:
    """Whether one of the sorted indices is in the range."""
    place = bisect_left(indices, part.start)
    return place < len(indices) and indices[place] < part.stop


def is_poll(call: str) -> bool:
    """Whether the call is a poll (`is_poll`)."""
    return call.startswith("poll_")


# The calls that may come in a round, besides polls and packets: candidates that are added, and settings that change neither pairs nor
# the timing of their checks. Renomination may be switched off, too; no session does that.
IN_ROUND = {"set_mtu", "set_control_tie_breaker", "set_max_candidate_pairs", "set_max_discovered", "set_max_candidates",
            "set_timing_advance", "set_local_preference", "set_preference_table", "set_controlling", "set_local_credentials",
            "add_local_candidate", "add_remote_candidate"}


def is_between(call: str) -> bool:
    """Whether the call is a poll, or a packet that is received (`is_between`)."""
    return is_poll(call) or call == "handle_packet"


def is_in_round(call: str) -> bool:
    """Whether the call may come between two `handle_timeout` calls of a round (`is_in_round`)."""
    return call in IN_ROUND or is_between(call)


@dataclass(frozen=True)
class Round:
    """A `handle_timeout` call by its time and index, and the entries after it (`Round`)."""

    now: int
    moment: int
    behind: range


def entries_of(rounds: list[Round]) -> range:
    """Returns the entries of consecutive rounds (`entries_of`)."""
    return range(rounds[0].moment, rounds[-1].behind.stop) if rounds else range(0)


class Execution:
    """A session: the entries of its log, each with the states of both agents before and after it."""

    def __init__(self, session: Replay) -> None:
        self.session, self.steps = session, session.steps
        self.timeouts = {side: session.timeouts(side) for side in SIDES}
        self._indices: dict[tuple[object, ...], list[int]] = {}
        self._rounds: dict[str, list[Round]] = {}

    def __len__(self) -> int:
        return len(self.steps)

    # ---- entries and states

    def state(self, at: int, side: str) -> Agent:
        """Returns the side's agent before the entry; past the last one, the last state."""
        return self.steps[at].before[side] if at < len(self.steps) else self.steps[-1].after[side]

    def time(self, at: int) -> int:
        """Returns the time of an entry."""
        return self.steps[at].entry.time

    def now(self, moment: int) -> int:
        """Returns the time that a `handle_timeout` call was given."""
        given: int = self.steps[moment].entry.given[0]
        return given

    def indices(self, key: tuple[object, ...], passes: Callable[[Step], bool]) -> list[int]:
        """Returns the indices of the entries that pass, which are kept under this key."""
        return self.kept(key, lambda: [step.at for step in self.steps if passes(step)])

    def kept(self, key: tuple[object, ...], make: Callable[[], list[int]]) -> list[int]:
        """Returns a list that is made once, and kept under this key."""
        if key not in self._indices:
            self._indices[key] = make()
        return self._indices[key]

    # ---- what a side does

    def calls_besides(self, side: str, is_allowed: Callable[[str], bool]) -> list[int]:
        """Returns the indices of the side's calls that are not allowed in rounds, `handle_timeout` aside."""
        return self.indices(("calls", side, is_allowed),
                            lambda s: s.entry.side == side and not s.is_timeout and not is_allowed(s.entry.call))

    def checks(self, side: str, path: Path) -> list[int]:
        """Returns the indices of the `handle_timeout` calls that send a check of the side on the path."""
        return self.indices(("checks", side, path), lambda s: s.is_timeout and s.checks(side, path))

    def successes(self, side: str) -> list[int]:
        """Returns the indices at which the side accepts a success response (`BringsSuccess`)."""
        return self.indices(("successes", side), lambda s: s.entry.side == side and brings_success(s))

    def selections(self, side: str) -> list[int]:
        """Returns the indices at which the side selects a path (`SelectsPath`)."""
        return self.indices(("selections", side), lambda s: s.entry.side == side and bool(s.selected))

    @cached_property
    def roles(self) -> list[str]:
        """Which side is controlled in each state while the other one is controlling: "a", "b" or ""."""
        states = [(self.state(at, "a").controlling, self.state(at, "b").controlling) for at in range(len(self.steps) + 1)]
        return [{(False, True): "a", (True, False): "b"}.get(state, "") for state in states]

    def _not_controlled(self, side: str) -> list[int]:
        key = ("roles", side)
        if key not in self._indices:
            self._indices[key] = [at for at, controlled in enumerate(self.roles) if controlled != side]
        return self._indices[key]

    def none_but(self, side: str, part: range) -> bool:
        """Whether this side is controlled, and the other one controlling, in all these states."""
        return not any_in(self._not_controlled(side), part)

    def controlled_since(self, side: str, at: int) -> int:
        """Returns the first state from which on that was so up to this one."""
        found = self._not_controlled(side)
        place = bisect_left(found, at)
        return found[place - 1] + 1 if place else 0

    def is_controlling_in(self, side: str, part: range) -> bool:
        """Whether the side is controlling in all these states, whatever the other one is (`IsControllingIn`)."""
        key = ("controlled", side)
        if key not in self._indices:
            self._indices[key] = [at for at in range(len(self.steps) + 1) if not self.state(at, side).controlling]
        return not any_in(self._indices[key], part)

    def rounds(self, side: str, first: int, end: int) -> list[Round]:
        """Returns the side's rounds from this `handle_timeout` call on, up to an index."""
        row = self.timeouts[side]
        if side not in self._rounds:
            self._rounds[side] = [Round(self.now(at), at, range(at + 1, stop)) for at, stop in zip(row, [*row[1:], len(self)])]
        found = self._rounds[side][bisect_left(row, first):bisect_left(row, end)]
        if found:
            found[-1] = replace(found[-1], behind=range(found[-1].moment + 1, end))
        return found


def brings_success(step: Step) -> bool:
    """Whether an accepted success response is received (`BringsSuccess`)."""
    return step.entry.call == "handle_packet" and bool(step.entry.returned) and message_of(step.entry.given[3]).kind == "success"
