"""How the logs that the clauses speak of begin (`WorldRoles`)."""

from __future__ import annotations

from ..model import Agent
from ..pairs import Timing
from ..scenario import SIDES
from .execution import Execution, Lacks, lacks


def is_new_agent(agent: Agent) -> bool:
    """Whether the agent is as it was made, in either role and with either profile (`IsNewlyCreated`, `IsFresh`)."""
    return agent == Agent(agent.creds, agent.tie_breaker, agent.controlling, timing=Timing(modern=agent.modern))


def are_new_agents(x: Execution) -> bool:
    """Whether both agents are."""
    return all(is_new_agent(x.state(0, side)) for side in SIDES)


def is_empty(x: Execution) -> bool:
    """Whether no packet is in flight when the log begins: each one that is delivered was sent before."""
    sent = {(s.entry.side, s.entry.returned.contents): s.at for s in reversed(x.steps) if s.entry.call == "poll_transmit"}
    arrivals = x.session.arrivals.items()
    return all(sent.get(("b" if side == "a" else "a", contents), len(x)) < at for (side, contents), all_at in arrivals for at in all_at)


def have_distinct_ids(x: Execution) -> bool:
    """Whether no two checks have the same transaction ID (`HaveDistinctIds`)."""
    ids = [s.issued.id for s in x.steps if s.issued is not None and s.issued.kind == "request"]
    return len(set(ids)) == len(ids)


def compares_ties(x: Execution, side: str) -> bool:
    """Whether the side is never lite, or never has the profile `Modern`, by which a lite agent keeps its role (`ComparesTies`)."""
    lite = x.indices(("is_lite", side), lambda s: s.before[side].lite)
    keeps = x.indices(("keeps_role", side), lambda s: s.before[side].modern)
    return not lite or not keeps


def is_new_world(x: Execution) -> Lacks:
    """Both agents are new, no packet is in flight, and IDs differ (`IsNewWorld`)."""
    return lacks(new=are_new_agents(x), empty=is_empty(x), distinct=have_distinct_ids(x))


def is_fair_world(x: Execution) -> Lacks:
    """So it is, and the agents' tie-breakers differ and decide the roles (`IsFairWorld`)."""
    tie = x.state(0, "a").tie_breaker != x.state(0, "b").tie_breaker
    compares = all(compares_ties(x, side) for side in SIDES)
    return lacks(start=is_new_world(x), tie=tie, compares=compares)
