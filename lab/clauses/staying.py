"""Which calls may remove a pair of a path (`Staying`, `Removing`, `AskedExecutions`)."""

from __future__ import annotations

from ..candidates import Joined
from ..kinds import COUNT, kind_between, kind_of
from ..model import Agent
from ..pairs import Pair, Path
from ..replay import Step
from .execution import Execution, Round, any_in, entries_of, is_between


def is_replaced_by(agent: Agent, pair: Pair, combination: tuple[int, int]) -> bool:
    """Whether the combination is redundant with the pair, and has a greater priority (`is_replaced_by`)."""
    local, remote = combination
    path = agent.local[local].base, agent.remote[remote].address
    return path == agent.path(pair) and pair.priority < agent.priority_between(local, remote)


def is_rival(agent: Agent, pair: Pair, kind: int) -> bool:
    """Whether a pair of this kind may take the pair's place at the limit: with `Modern` only one of its own does (`is_rival`)."""
    return not agent.modern or kind == kind_of(agent.local, agent.remote, pair)


def ranks_with(agent: Agent, pair: Pair, other: Pair) -> bool:
    """Whether the other pair is a rival with no smaller priority (`ranks_with`)."""
    return pair.priority <= other.priority and is_rival(agent, pair, kind_of(agent.local, agent.remote, other))


def combines_with(agent: Agent, pair: Pair, combination: tuple[int, int]) -> bool:
    """Whether the pair of the combination would be a rival with no smaller priority (`combines_with`)."""
    local, remote = combination
    kind = kind_between(agent.local, agent.local[local], agent.remote[remote])
    return pair.priority <= agent.priority_between(local, remote) and is_rival(agent, pair, kind)


def rank_count(agent: Agent, combinations: list[tuple[int, int]], pair: Pair) -> int:
    """Returns how many pairs rank with the pair, at most, after these are formed (`rank_count`)."""
    return sum(ranks_with(agent, pair, p) for p in agent.pairs) + sum(combines_with(agent, pair, c) for c in combinations)


def most_pairs(agent: Agent, ranked: int) -> int:
    """Returns how many pairs there are at most, if so many rank with the pair that is removed (`most_pairs`).

    With `Modern` no kind has more pairs than its own."""
    return COUNT * ranked if agent.modern else ranked


def may_be_removed(agent: Agent, combinations: list[tuple[int, int]], pair: Pair) -> bool:
    """Whether forming these combinations may remove the pair (`MayBeRemoved`)."""
    are_many = agent.max_pairs < len(agent.pairs) + len(combinations)
    is_over = agent.max_pairs < most_pairs(agent, rank_count(agent, combinations, pair))
    return (are_many and is_over) or any(is_replaced_by(agent, pair, c) for c in combinations)


def may_end_by_joining(joined: Joined[Agent] | None, pair: Pair) -> bool:
    """Whether an added candidate may remove the pair: an ignored one does not (`MayEndByRemote`, `MayEndByLocal`)."""
    if joined is None:
        return False
    agent, combinations = joined
    return pair not in agent.pairs or may_be_removed(agent, combinations, pair)


def is_given_up(now: int, agent: Agent, pair: Pair) -> bool:
    """Whether the pair's checks were not answered in time, or it is the selected one and gives way (`is_expired`, `gives_way`)."""
    return not pair.stays(now, agent.timing, agent.lite) or agent.gives_way(pair, now)


def may_end(step: Step, pair: Pair) -> bool:
    """Whether the call may remove the pair of the side that makes it (`MayEnd`)."""
    entry, agent = step.entry, step.before[step.entry.side]
    if entry.call == "handle_timeout":
        return agent.request_at(entry.given[0]) is None and is_given_up(entry.given[0], agent, pair)
    if entry.call == "add_local_candidate":
        return may_end_by_joining(agent.with_local(entry.given[0], entry.returned), pair)
    if entry.call == "add_remote_candidate":
        return may_end_by_joining(agent.with_remote(entry.given[0]), pair)
    if entry.call == "invalidate_candidate":
        return bool(entry.returned) and agent.to_discard(entry.given[0]) in ((pair.local, None), (None, pair.remote))
    return entry.call in ("ice_restart", "recreate_candidate_pairs")


def ends(step: Step, path: Path) -> bool:
    """Whether the call may remove a pair that uses the path's addresses (`Ends`)."""
    return not is_between(step.entry.call) and any(may_end(step, p) for p in step.before[step.entry.side].on(path))


def ends_of(x: Execution, side: str, path: Path) -> list[int]:
    """Returns the indices at which a call of the side may remove a pair of the path (`MayEndAt`)."""
    return x.kept(("ends", side, path), lambda: [at for at in removals(x, side) if ends(x.steps[at], path)])


def removals(x: Execution, side: str) -> list[int]:
    """Returns the indices at which a call of the side may remove any pair."""
    return x.indices(("ends", side), lambda s: s.entry.side == side and not is_between(s.entry.call)
                     and any(may_end(s, p) for p in s.before[side].pairs))


def may_end_in(x: Execution, side: str, path: Path, part: range) -> bool:
    """Whether a call of the side may remove a pair of the path at one of these entries (`MayEndAt`)."""
    return any_in(ends_of(x, side, path), part)


def may_end_in_rounds(x: Execution, side: str, path: Path, rounds: list[Round]) -> bool:
    """Whether a call between the `handle_timeout` calls of the rounds may remove a pair of the path (`MayEndInRounds`)."""
    return may_end_in(x, side, path, entries_of(rounds)) and any(may_end_in(x, side, path, r.behind) for r in rounds)
