"""The theorem `executions_reach_served` (`ExecutionsReachServed`): a controlling agent has no valid pair, and one on which a request was
served is due by the first of 2 * m + 1 rounds. Fewer than m of the later ones check other pairs before it. Then a check is sent on its
path in one of them, or a success response is accepted."""

from __future__ import annotations

from collections.abc import Iterator
from dataclasses import dataclass

from ..scenario import SIDES
from .connections import succeeds_in
from .execution import MAX, Execution, Lacks, Round, any_in, lacks
from .fair import is_new_agent
from .opening import Counts, controlling_calls, pair_of, rounds_of
from .progress import awaits, is_unanswered
from .served import suffices_for_served
from .single import are_in_round, are_passing
from .staying import may_end_in_rounds
from .verdict import Verdict, first_of_all, over


@dataclass(frozen=True)
class Choice:
    """The side whose log it is, the number of its pair, the first `handle_timeout` call, and how many rounds there are."""

    side: str
    pair: int
    first: int
    count: int

    def rounds(self, x: Execution) -> list[Round]:
        """Returns the rounds."""
        return rounds_of(x, self.side, self.first, self.count)


# ---- the preconditions

def lacking(x: Execution, c: Choice) -> Lacks:
    """Returns the preconditions that do not hold. If the path is not reached there may be a reason: a pair that may be gone."""
    rounds, agent = c.rounds(x), x.state(c.first, c.side)
    own, now = pair_of(agent, c.pair), rounds[0].now
    by = min(own.due_at(now, agent.timing), now)
    return lacks(IsFresh=is_new_agent(x.state(0, c.side)), controlling=agent.controlling, Awaits=awaits(now, by, agent, own),
                 IsUnanswered=is_unanswered(agent, own), first=lacks(early=now < MAX, between=are_in_round(x, c.side, rounds[0])),
                 IsOpenRound=are_passing(x, c.side, by, rounds[1:]), SufficesForServed=suffices_for_served(x, c.side, c.pair, rounds),
                 EndsAmong=reached_at(x, c) is not None or not may_end_in_rounds(x, c.side, agent.path(own), rounds))


# ---- the conclusion

def reached_at(x: Execution, c: Choice) -> int | None:
    """Returns when a check is sent on the pair's path, or the round begins in which a success response is accepted."""
    agent = x.state(c.first, c.side)
    path = agent.path(pair_of(agent, c.pair))
    return next((r.now for r in c.rounds(x) if x.steps[r.moment].checks(c.side, path) or any_in(x.successes(c.side), r.behind)
                 or succeeds_in(x, c.side, path, [r])), None)


# ---- the search

def choices(x: Execution) -> Iterator[Choice]:
    """Proposes each such pair at each `handle_timeout` call by which it is due, with the fewest rounds that suffice."""
    counts = {side: Counts(x, side) for side in SIDES}
    for place, side, pair, _ in controlling_calls(x, SIDES):
        if (count := counts[side].least_served(place, pair.number)) is not None:
            yield Choice(side, pair.number, x.timeouts[side][place], count)


def find(x: Execution) -> Verdict:
    """Returns the first such choice, or one in which the path was not reached."""
    return first_of_all(choices(x), lambda c: lacking(x, c), lambda c: over(c.rounds(x), reached_at(x, c)), "IsServed")
