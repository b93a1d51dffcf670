"""When a pair waits for its check, and how many rounds suffice for it (`Progress`, `Reached`, `FirstTimeouts`, `FirstChecks`)."""

from __future__ import annotations

from collections.abc import Sequence

from ..clock import MILLISECOND
from ..model import Agent
from ..pairs import Pair, Path
from .execution import Lacks, lacks


# ---- one pair

def is_there(agent: Agent, pair: Pair) -> bool:
    """Whether it is one of the agent's pairs."""
    return any(p.number == pair.number and p == pair for p in agent.pairs)


def is_checking(agent: Agent) -> Lacks:
    """The agent is not lite, and knows the remote credentials (`IsChecking`)."""
    return lacks(full=not agent.lite, peer=agent.peer is not None)


def is_paced(agent: Agent) -> bool:
    """Whether checks are at least a millisecond apart, and a pair stores its last one (`IsPaced`)."""
    return agent.timing.initial >= MILLISECOND and agent.timing.greatest >= MILLISECOND and agent.timing.retransmits > 0


def awaits(at: int, by: int, agent: Agent, pair: Pair) -> Lacks:
    """The pair waits for its check: its due time, computed at a time, is at most `by` (`Awaits`)."""
    return lacks(checking=is_checking(agent), paced=is_paced(agent), queue=not agent.queue, there=is_there(agent, pair),
                 due=pair.due_at(at, agent.timing) <= by)


def is_unanswered(agent: Agent, pair: Pair) -> Lacks:
    """No pair is valid yet, no nomination is to be sent at once, and this pair will not be removed before its check (`IsUnanswered`)."""
    return lacks(calm=not agent.nominates_at_once, invalid=not any(p.is_valid for p in agent.pairs), young=pair.may_repeat(agent.timing))


def is_in_line(at: int, by: int, agent: Agent, pair: Pair) -> Lacks:
    """The pair waits for its check, and nothing nominates it first (`IsInLine`)."""
    return lacks(checking=is_checking(agent), queue=not agent.queue, there=is_there(agent, pair),
                 due=pair.due_at(at, agent.timing) <= by, settled=not pair.is_valid or pair.due is not None,
                 young=pair.may_repeat(agent.timing), lasting=is_lasting(at, agent, pair))


def is_lasting(now: int, agent: Agent, pair: Pair) -> bool:
    """Whether consent does not end before this time: if it is valid, its last answered check is recent enough (`IsLasting`)."""
    return not pair.is_valid or pair.stays_answered(now, agent.timing.consent)


# ---- how many rounds suffice

def checks_for(is_modern: bool, count: int) -> int:
    """Returns how many checks hold so many of the pair that is due first: twice as many, if checks may go ahead (`checks_for`)."""
    return 2 * count if is_modern else count


def nominations_ahead(agent: Agent, selections: int) -> int:
    """Returns how many nominations may be sent at once, before pairs that are due earlier, while so many calls select a path: none if
    they have no numbers (`nominations_ahead`)."""
    return agent.nomination_due + selections if agent.numbers else 0


def due_by(by: int, now: int, agent: Agent) -> int:
    """Returns how many pairs are due by a time, with due times computed now (`due_by`)."""
    return sum(p.due_at(now, agent.timing) <= by for p in agent.pairs)


def are_as_many_as_due(by: int, agent: Agent, times: Sequence[int]) -> bool:
    """Whether there are as many times as pairs that are due, computed at the first of them (`AreAsManyAsDue`)."""
    return bool(times) and checks_for(agent.modern, due_by(by, times[0], agent)) <= len(times)


def are_open_enough(first: Agent, last: Agent, rounds: int, ahead: int = 0) -> bool:
    """Whether there are 2n - 1 rounds for n pairs, and one for each pair that is added, and for each nomination that may be sent at once:
    so many are `ahead`. If checks may go ahead, it is 4n - 1, and two."""
    needed = checks_for(first.modern, 2 * len(first.pairs) + last.next_number + ahead)
    return needed <= rounds + 1 + checks_for(first.modern, first.next_number)


def suffice_for_due(by: int, now: int, first: Agent, second: Agent, later: Sequence[int]) -> bool:
    """Whether rounds in which the agent only polls suffice for a pair that is due by a time (`SufficeForDue`)."""
    if by < now and are_as_many_as_due(by, first, [now, *later]):
        return True
    return len(first.pairs) <= 1 or are_as_many_as_due(by, second, later)


def suffices_from_due(first: Agent, second: Agent, last: Agent, later: int, ahead: int = 0) -> bool:
    """Whether so many rounds after the first one suffice for a pair that is due by the first one (`SufficesFromDue`)."""
    return len(first.pairs) <= 1 or are_open_enough(second, last, later, ahead)


def suffices(by: int, now: int, first: Agent, second: Agent, last: Agent, later: int, all_ahead: int = 0, ahead: int = 0) -> bool:
    """Whether so many rounds after the first one suffice for a pair that is due by it. If the pair is due before it, the first one counts
    too (`Suffices`). So many nominations may be sent at once: `all_ahead` in all rounds, and `ahead` in those after the first."""
    return (by < now and are_open_enough(first, last, later + 1, all_ahead)) or suffices_from_due(first, second, last, later, ahead)


# ---- selection

def is_alone(agent: Agent, path: Path) -> bool:
    """Whether at most one pair uses the path's addresses (`IsOnlyPair`)."""
    return len(agent.on(path)) <= 1


def are_nominated_on(agent: Agent, path: Path) -> bool:
    """Whether each pair on the path is nominated (`AreNominatedOn`)."""
    return all(agent.stays_nominated(p) for p in agent.on(path))


def is_top_selected(agent: Agent) -> bool:
    """Whether the selected pair is eligible, and the chosen one or, unless the agent follows its peer, as great (`HasSelected`)."""
    top = agent.chosen()
    return top is not None and agent.remains(top) and any(p.number == agent.selected and agent.is_eligible(p) for p in agent.pairs)


def has_selected(agent: Agent, path: Path) -> bool:
    """Whether the path is that of an eligible pair, and of the chosen one or, unless the agent follows its peer, of one as great
    (`HasSelected`)."""
    top, eligible = agent.chosen(), [p for p in agent.on(path) if agent.is_eligible(p)]
    return top is not None and any(p.number == top.number or (not agent.follows and p.priority == top.priority) for p in eligible)
