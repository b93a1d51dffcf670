"""`run`, clause `selects_in_time` (`RoundsSelectInTime`): what the theorem `executions_select_in_time` says of one agent, in its log. The
rounds are consecutive entries of the log, whatever the other agent is."""

from __future__ import annotations

from .executions_select_in_time import Choice, Search, earliest, limit, suffice_for_check, trip, verdict_of
from .execution import MAX, Execution, Lacks, lacks
from .fair import is_new_agent
from .in_time import delay
from .opening import pair_of
from .progress import awaits, is_unanswered
from .single import are_in_round, are_passing
from .staying import may_end_in_rounds
from .verdict import Verdict, first_that_holds


def lacking(x: Execution, c: Choice) -> Lacks:
    """Returns the preconditions that do not hold (`ControllingRounds`, `SufficeInTime`)."""
    rounds, agent = c.rounds(x), x.state(c.first, c.side)
    enough, opening = rounds[:c.count], rounds[0]
    pair = pair_of(agent, c.pair)
    by = min(pair.due_at(opening.now, agent.timing), opening.now)  # so `by` is no later than the first call
    return lacks(IsFresh=is_new_agent(x.state(0, c.side)), between=all(are_in_round(x, c.side, r) for r in rounds),
                 IsControllingIn=x.is_controlling_in(c.side, range(c.first, c.end + 1)), Awaits=awaits(opening.now, by, agent, pair),
                 IsUnanswered=is_unanswered(agent, pair), early=opening.now < MAX, IsPassing=are_passing(x, c.side, by, enough[1:]),
                 LaterSuffice=suffice_for_check(x, c.side, by, enough, c.pair), punctual=delay(x, c.side, enough) is not None,
                 IsAnsweredInBy=trip(x, c) is not None, MayEndOver=not may_end_in_rounds(x, c.side, c.path(x), enough))


def choices(x: Execution) -> list[Choice]:
    """Proposes choices of all `handle_timeout` calls, the earliest bound first. Those without enough rounds come last."""
    found = list(Search(x).choices())
    enough = sorted((c for of_call, _ in found for c in of_call), key=lambda c: earliest(limit(x, c)))
    return [*enough, *(c for _, few in found for c in few)]


def find(x: Execution) -> Verdict:
    """Returns the earliest bound."""
    return first_that_holds(choices(x), lambda c: lacking(x, c), lambda c: verdict_of(x, c), "Awaits.there")
