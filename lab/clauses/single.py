"""Rounds in the log of one agent, as `rounds` and `due_rounds` of `run` have them (`Rounds`, `OpenRounds`)."""

from __future__ import annotations

from bisect import bisect_left
from collections.abc import Iterable
from dataclasses import dataclass

from ..pairs import Path
from .execution import MAX, Execution, Lacks, Round, any_in, entries_of, is_between, is_in_round, lacks, part_of
from .fair import is_new_agent
from .opening import pair_of
from .progress import are_open_enough, awaits, checks_for, due_by, is_unanswered
from .staying import may_end_in_rounds
from .verdict import Verdict, first_in


@dataclass(frozen=True)
class Choice:
    """The side whose log it is, the number of its pair, and the segment: so many rounds, from a `handle_timeout` call up to `end`."""

    side: str
    pair: int
    first: int
    end: int

    def rounds(self, x: Execution) -> list[Round]:
        """Returns the rounds."""
        return x.rounds(self.side, self.first, self.end)


# ---- the preconditions that both clauses have

def is_passing(x: Execution, side: str, by: int, r: Round) -> Lacks:
    """The `handle_timeout` call is later than `by`, and only calls that may come in a round follow (`IsPassing`)."""
    return lacks(late=by < r.now, early=r.now < MAX, between=are_in_round(x, side, r))


def are_in_round(x: Execution, side: str, r: Round) -> bool:
    """Whether only calls that may come in a round follow the `handle_timeout` call."""
    return not any_in(x.calls_besides(side, is_in_round), r.behind)


def are_plain(x: Execution, side: str, rounds: list[Round]) -> bool:
    """Whether only packets and polls follow the `handle_timeout` calls (`ArePlain`)."""
    return not any(any_in(x.calls_besides(side, is_between), r.behind) for r in rounds)


def are_passing(x: Execution, side: str, by: int, rounds: list[Round]) -> Lacks:
    """Returns what the first of the rounds lacks that is not passing."""
    if not any_in(x.calls_besides(side, is_in_round), entries_of(rounds)) and all(by < r.now < MAX for r in rounds):
        return []
    return next((missing for r in rounds if (missing := is_passing(x, side, by, r))), [])


def is_answered(x: Execution, side: str, path: Path, rounds: list[Round]) -> bool:
    """Whether a success response is accepted in each of the rounds that sends a check on the path (`IsAnswered`)."""
    checks = part_of(x.checks(side, path), entries_of(rounds))
    return all(any_in(x.successes(side), r.behind) for at in checks for r in rounds if r.moment == at)


def are_enough(x: Execution, side: str, by: int, rounds: list[Round]) -> bool:
    """Whether there are as many plain rounds as pairs that are due, or 2n - 1 for n pairs and one for each added one (`OpenRoundsSuffice`).

    If checks may go ahead, it is twice as many, or 4n - 1 and two."""
    first, last = x.state(rounds[0].moment, side), x.state(rounds[-1].behind.stop, side)
    if checks_for(first.modern, due_by(by, rounds[0].now, first)) <= len(rounds) and are_plain(x, side, rounds):
        return True
    return are_open_enough(first, last, len(rounds))


def shared(x: Execution, c: Choice, by: int) -> dict[str, bool | Lacks]:
    """Returns what both clauses require, except for how many rounds there are, and when they begin."""
    rounds, agent = c.rounds(x), x.state(c.first, c.side)
    pair = pair_of(agent, c.pair)
    path = agent.path(pair)
    return {"IsFresh": is_new_agent(x.state(0, c.side)),
            "Awaits": awaits(rounds[0].now, by, agent, pair),
            "IsUnanswered": is_unanswered(agent, pair),
            "IsAnswered": is_answered(x, c.side, path, rounds),
            "IsControllingIn": x.is_controlling_in(c.side, range(c.first, c.end + 1)),
            "IsEndedIn": not may_end_in_rounds(x, c.side, path, rounds)}


def due_of(x: Execution, c: Choice) -> int:
    """Returns the due time of the pair, computed when the rounds begin."""
    agent = x.state(c.first, c.side)
    return pair_of(agent, c.pair).due_at(x.now(c.first), agent.timing)


# ---- the search and the conclusion

def end_of(x: Execution, side: str, path: Path, place: int, count: int) -> int | None:
    """Returns the end of so many rounds, from the side's `handle_timeout` call at this place on: after the last of these calls, and
    after the response, if it sends a check on the path. None if there are fewer."""
    row = x.timeouts[side]
    if len(row) < place + count:
        return None
    last = row[place + count - 1]
    stop = row[place + count] if place + count < len(row) else len(x)
    answer = first_in(x.successes(side), range(last + 1, stop)) if x.steps[last].checks(side, path) else None
    return (last if answer is None else answer) + 1


def has_unanswered(x: Execution, c: Choice) -> bool:
    """Whether a check on the pair's path is not answered in its round."""
    agent, row = x.state(c.first, c.side), x.timeouts[c.side]
    found = x.checks(c.side, agent.path(pair_of(agent, c.pair)))
    for at in found[bisect_left(found, c.first):bisect_left(found, c.end)]:
        place = bisect_left(row, at) + 1
        if not any_in(x.successes(c.side), range(at, min(row[place] if place < len(row) else c.end, c.end))):
            return True
    return False


def by_end(x: Execution, choices: Iterable[Choice]) -> list[Choice]:
    """Sorts choices by their end. Those in which a check is not answered in its round come last."""
    return sorted(choices, key=lambda c: (has_unanswered(x, c), c.end))


def verdict_of(x: Execution, c: Choice) -> Verdict:
    """Returns the end of a choice, and when a path was selected in it."""
    return Verdict("", x.time(c.first), x.time(c.end - 1), selected_in(x, c), len(c.rounds(x)))


def selected_in(x: Execution, c: Choice) -> int | None:
    """Returns when an accepted success response of the segment selects a path (`SelectsPathIn`)."""
    found = [at for at in x.successes(c.side) if at in range(c.first, c.end) and x.steps[at].selected]
    return x.time(found[0]) if found else None
