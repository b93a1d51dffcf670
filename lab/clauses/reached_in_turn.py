"""The theorem `reached_in_turn` (`RoundsReachInTurn`): kinds take turns in 2 * k * m rounds, for k kinds of pairs. Then a pair that is due
is checked in one of them, or m of them check pairs that go before all kinds, or pairs of its kind that go before it."""

from __future__ import annotations

from collections.abc import Callable, Iterator
from dataclasses import dataclass
from weakref import WeakKeyDictionary

from ..kinds import kind_of
from ..model import Agent
from ..pairs import Pair
from ..scenario import SIDES
from .connections import succeeds_in
from . import single
from .execution import Execution, Lacks, Round, is_in_round, lacks
from .fair import is_new_agent
from .opening import most_rounds, pair_of
from .progress import is_in_line, is_lasting
from .single import is_passing
from .staying import may_end_in_rounds
from .verdict import Verdict, first_of_all, over

# The greatest number of rounds that delay the pair, and of `handle_timeout` calls of a side, for which choices are proposed.
MOST_DELAYS, MOST_CALLS = 4, 24
_KINDS: WeakKeyDictionary[Execution, dict[tuple[str, int], frozenset[int]]] = WeakKeyDictionary()


@dataclass(frozen=True)
class Choice(single.Choice):
    """The side, the number of its pair, and the segment, as in `single`, and how many of the rounds may delay the pair."""

    delays: int


# ---- the preconditions

def kind_in(agent: Agent, pair: Pair) -> int:
    """Returns the kind of a pair of the agent (`kind_in`)."""
    return kind_of(agent.local, agent.remote, pair)


def takes_turns(x: Execution, side: str, kind: int, number: int, r: Round) -> Lacks:
    """The profile is `Modern` at the `handle_timeout` call, and the pair has this kind (`TakesTurns`)."""
    old, new = x.state(r.moment, side), x.state(r.moment + 1, side)
    return lacks(rule=new.modern, keeps=all(kind_in(old, p) == kind for p in old.pairs if p.number == number))


def kinds_at(x: Execution, side: str, moment: int) -> frozenset[int]:
    """Returns the kinds of the pairs before the call, which are kept with the log."""
    kept = _KINDS.setdefault(x, {})
    if (side, moment) not in kept:
        agent = x.state(moment, side)
        kept[side, moment] = frozenset(kind_in(agent, p) for p in agent.pairs)
    return kept[side, moment]


def kinds_of(x: Execution, side: str, rounds: list[Round]) -> set[int]:
    """Returns the kinds of the pairs before the `handle_timeout` calls."""
    return {kind for r in rounds for kind in kinds_at(x, side, r.moment)}


def in_rounds(x: Execution, c: Choice) -> dict[str, bool | Lacks]:
    """Returns what each theorem requires of the agent, of the pair and of the rounds."""
    rounds, agent = c.rounds(x), x.state(c.first, c.side)
    own, now = pair_of(agent, c.pair), x.now(c.first)
    by = min(own.due_at(now, agent.timing), now)
    return {"IsFresh": is_new_agent(x.state(0, c.side)), "line": is_in_line(now, by, agent, own),
            "IsPassing": next((missing for r in rounds if (missing := is_passing(x, c.side, by, r))), []),
            "lasting": all(is_lasting(r.now, agent, own) for r in rounds)}


def unless_reached(x: Execution, c: Choice, at: int | None) -> dict[str, bool | Lacks]:
    """Returns what each theorem requires of rounds that do not reach the pair. There may be a reason: a success response, or a pair that
    may be gone."""
    rounds, agent = c.rounds(x), x.state(c.first, c.side)
    path = agent.path(pair_of(agent, c.pair))
    return {"IsAnsweredIn": at is not None or not succeeds_in(x, c.side, path, rounds),
            "IsEndedIn": at is not None or not may_end_in_rounds(x, c.side, path, rounds)}


def lacking(x: Execution, c: Choice) -> Lacks:
    """Returns the preconditions that do not hold."""
    rounds, agent = c.rounds(x), x.state(c.first, c.side)
    kind = kind_in(agent, pair_of(agent, c.pair))
    turns: Lacks = next((missing for r in rounds if (missing := takes_turns(x, c.side, kind, c.pair, r))), [])
    return lacks(**in_rounds(x, c), TakesTurns=turns, enough=2 * len(kinds_of(x, c.side, rounds)) * c.delays <= len(rounds),
                 **unless_reached(x, c, reached_at(x, c)))


# ---- the conclusion

def is_delayed(x: Execution, side: str, kind: int, number: int, r: Round) -> bool:
    """Whether the call checks another pair, which goes before all kinds, or has this kind and goes before the pair (`IsDelayed`)."""
    agent, step = x.state(r.moment, side), x.steps[r.moment]
    own = pair_of(agent, number)

    def place(pair: Pair) -> tuple[int, int]:
        return pair.due_at(r.now, agent.timing), -pair.priority

    return any(p.number != number and step.checks(side, agent.path(p))
               and (agent.goes_first(p) or (kind_in(agent, p) == kind and place(p) <= place(own))) for p in agent.pairs)


def has_path(agent: Agent) -> bool:
    """Whether a path is selected, or the agent is Connected or Completed (`HasPath`)."""
    return agent.selected is not None or agent.state.is_connected()


def reached_by(x: Execution, c: Choice, is_delay: Callable[[Round], bool], ends: Callable[[Agent], bool]) -> int | None:
    """Returns when a check is sent on the pair's path, or as many rounds have delayed the pair as the choice allows, or the agent's state
    ends the rounds. None if the pair is gone before."""
    agent, delays = x.state(c.first, c.side), 0
    path = agent.path(pair_of(agent, c.pair))
    for r in c.rounds(x):
        if x.steps[r.moment].checks(c.side, path):
            return r.now
        if not any(p.number == c.pair for p in x.state(r.moment, c.side).pairs):
            return None
        delays += is_delay(r)
        if delays == c.delays:
            return r.now
        if (at := next((at for at in (r.moment, *r.behind) if ends(x.state(at + 1, c.side))), None)) is not None:
            return x.time(at)
    return None


def reached_at(x: Execution, c: Choice) -> int | None:
    """Returns when a check is sent on the pair's path, or so many rounds have delayed the pair, or the agent has a path."""
    agent = x.state(c.first, c.side)
    kind = kind_in(agent, pair_of(agent, c.pair))
    return reached_by(x, c, lambda r: is_delayed(x, c.side, kind, c.pair, r), has_path)


# ---- the search

def spans(x: Execution, side: str, place: int) -> Iterator[tuple[int, int]]:
    """Returns for each number of delays the fewest rounds that suffice, from the side's `handle_timeout` call at this place on."""
    row, kinds, delays = x.timeouts[side], set[int](), 1
    for later in range(most_rounds(x, side, place, is_in_round)):
        moment = row[place + later]
        if delays > MOST_DELAYS or not x.state(moment + 1, side).modern:
            return
        kinds |= kinds_at(x, side, moment)
        if kinds and 2 * len(kinds) * delays <= later + 1:
            yield later + 1, delays
            delays += 1


def choices(x: Execution) -> Iterator[Choice]:
    """Proposes each pair that is due before one of a side's first `handle_timeout` calls, at which it has no path, with such rounds."""
    for side in SIDES:
        row = x.timeouts[side]
        for place, first in enumerate(row[:MOST_CALLS]):
            agent, now = x.state(first, side), x.now(first)
            if has_path(agent):
                continue
            for count, delays in spans(x, side, place):
                yield from (Choice(side, p.number, first, row[place + count - 1] + 1, delays)
                            for p in agent.pairs if p.due_at(now, agent.timing) < now)


def find(x: Execution) -> Verdict:
    """Returns the first such choice, or one in which neither came true."""
    return first_of_all(choices(x), lambda c: lacking(x, c), lambda c: over(c.rounds(x), reached_at(x, c)), "TakesTurns")
