"""Pairs on which a request was served, with the profile `Modern`: they are urgent, so few rounds suffice for their checks."""

from __future__ import annotations

from ..model import Agent
from ..pairs import Pair
from .execution import Execution, Lacks, Round, lacks


def is_served(agent: Agent, pair: Pair) -> Lacks:
    """The profile is `Modern`, a request was served on the pair, and no pair on its path is valid (`IsServed`)."""
    path = agent.path(pair)
    return lacks(rule=agent.modern, requested=pair.requests > 0,
                 invalid=not any(p.is_valid and agent.path(p) == path for p in agent.pairs))


def is_overtaken_at(x: Execution, side: str, number: int, moment: int) -> bool:
    """Whether the `handle_timeout` call checks another pair: the selected one, or an urgent one whose turn comes before that of the pair,
    if this is still there (`IsOvertaken`)."""
    agent, step, now = x.state(moment, side), x.steps[moment], x.now(moment)
    sent = [p for p in agent.pairs if p.number != number and step.checks(side, agent.path(p))]
    places = [agent.place_in_order(p, now, True) for p in agent.pairs if p.number == number] if sent else []
    return any(p.number == agent.selected or (p.is_urgent and all(agent.place_in_order(p, now, True) <= place for place in places))
               for p in sent)


def is_overtaken(x: Execution, side: str, number: int, r: Round) -> bool:
    """Whether the call of the round does."""
    return is_overtaken_at(x, side, number, r.moment)


def suffices_for_served(x: Execution, side: str, number: int, rounds: list[Round]) -> Lacks:
    """A request was served on the pair, and 2 * m rounds follow the first one, or more, fewer than m of which check other pairs before it
    (`SufficesForServed`, `LaterSufficeForServed`, `ServedRoundsSuffice`)."""
    agent, later = x.state(rounds[0].moment, side), rounds[1:]
    served: Lacks = next((is_served(agent, p) for p in agent.pairs if p.number == number), ["there"])
    m = 1 + sum(is_overtaken(x, side, number, r) for r in later)
    return lacks(IsServed=served, few=2 * m <= len(later))


def least_served(x: Execution, side: str, number: int, moments: list[int]) -> int | None:
    """Returns how many of these rounds of a side suffice so for a pair, at least."""
    agent = x.state(moments[0], side)
    if is_served(agent, next(p for p in agent.pairs if p.number == number)):
        return None
    m = 1
    for later, moment in enumerate(moments[1:], 1):
        m += is_overtaken_at(x, side, number, moment)
        if 2 * m <= later:
            return later + 1
    return None


def served_rounds_reach(x: Execution, side: str, number: int, by: int, rounds: list[Round]) -> Lacks:
    """A request was served on the pair, which is due before the first of 2 * m rounds or more. None of their `handle_timeout` calls selects
    a path, and fewer than m check other pairs before it (`ServedRoundsReach`)."""
    agent = x.state(rounds[0].moment, side)
    served: Lacks = next((is_served(agent, p) for p in agent.pairs if p.number == number), ["there"])
    m = 1 + sum(is_overtaken(x, side, number, r) for r in rounds)
    return lacks(late=by < rounds[0].now, IsServed=served, quiet=not any(x.steps[r.moment].selected for r in rounds),
                 few=2 * m <= len(rounds))


def least_reaching(x: Execution, side: str, number: int, moments: list[int]) -> int | None:
    """Returns how many of these rounds of a side suffice so for a pair, at least."""
    agent = x.state(moments[0], side)
    if is_served(agent, next(p for p in agent.pairs if p.number == number)):
        return None
    m = 1
    for count, moment in enumerate(moments, 1):
        m += is_overtaken_at(x, side, number, moment)
        if 2 * m <= count:
            return count
    return None
