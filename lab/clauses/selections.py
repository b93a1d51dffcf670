"""Rounds of one of two agents, and checks that are answered in them (`Selections`)."""

from __future__ import annotations

from ..pairs import Path
from ..replay import other
from .execution import MAX, Execution, Lacks, Round, any_in, is_between, is_in_round, lacks
from .accepted_nominations import SUCCESS, Network
from .progress import suffice_for_due, suffices
from .served import suffices_for_served


def makes_in_round(x: Execution, side: str, part: range) -> bool:
    """Whether the side makes only calls that may come in a round (`MakesInRound`)."""
    return not any_in(x.calls_besides(side, is_in_round), part)


def makes_polls(x: Execution, side: str, part: range) -> bool:
    """Whether the side makes only polls, whatever it receives (`MakesPolls`)."""
    return not any_in(x.calls_besides(side, is_between), part)


def is_kept(x: Execution, side: str, r: Round) -> Lacks:
    """The `handle_timeout` call returned Ok, as all of the log, and only calls that may come in a round follow (`IsKept`)."""
    return lacks(early=r.now < MAX, between=makes_in_round(x, side, r.behind))


def are_kept(x: Execution, side: str, by: int, rounds: list[Round]) -> Lacks:
    """The first `handle_timeout` call is no earlier than `by`, and the others are later (`AreKept`)."""
    kept: Lacks = next((missing for r in rounds if (missing := is_kept(x, side, r))), [])
    return lacks(**{"from": by <= rounds[0].now}, late=all(by < r.now for r in rounds[1:]), kept=kept)


def makes_polls_in(x: Execution, side: str, rounds: list[Round]) -> bool:
    """Whether the side makes only polls in the rounds (`MakesPollsIn`)."""
    return all(makes_polls(x, side, r.behind) for r in rounds)


def are_enough(x: Execution, side: str, by: int, rounds: list[Round], last: int) -> bool:
    """Whether there are enough rounds, which end at the entry `last`, also if candidates are added in them (`SideRoundsSuffice`)."""
    first, second = x.state(rounds[0].moment, side), x.state(rounds[0].behind.stop, side)
    return suffices(by, rounds[0].now, first, second, x.state(last, side), len(rounds) - 1)


def are_each_polled(x: Execution, side: str, by: int, rounds: list[Round]) -> Lacks:
    """There are enough rounds, in which the side only polls (`AreEachPolled`)."""
    first, second = x.state(rounds[0].moment, side), x.state(rounds[0].behind.stop, side)
    few = suffice_for_due(by, rounds[0].now, first, second, [r.now for r in rounds[1:]])
    return lacks(few=few, polls=makes_polls_in(x, side, rounds))


def suffice_for_pair(x: Execution, side: str, by: int, rounds: list[Round], pair: int) -> Lacks:
    """There are enough rounds in one of three ways, up to the end of the rounds (`SufficeForPair`)."""
    polled = are_each_polled(x, side, by, rounds)
    is_enough = are_enough(x, side, by, rounds, rounds[-1].behind.stop)
    if is_enough or not polled or not suffices_for_served(x, side, pair, rounds):
        return []
    return [*(f"AreEachPolled.{part}" for part in polled), "SideRoundsSuffice", "ServedRoundsSuffice"]


def checks(x: Execution, side: str, path: Path, r: Round) -> bool:
    """Whether the `handle_timeout` call sends a check on the path (`Checks`)."""
    return x.steps[r.moment].checks(side, path)


def checks_in(x: Execution, side: str, path: Path, rounds: list[Round]) -> bool:
    """Whether one of the rounds does."""
    return any(checks(x, side, path, r) for r in rounds)


def is_controlling(x: Execution, side: str, part: range) -> bool:
    """Whether the side is controlling after each entry, and the other side controlled (`IsControlling`)."""
    return x.none_but(other(side), range(part.start + 1, part.stop + 1))


def is_answered_in_time(n: Network, side: str, path: Path, part: range) -> Lacks:
    """A check on the path is delivered, and its success response back, while the check is pending (`IsAnsweredInTime`)."""
    return n.exists(side, part, lambda h: h.path == path, SUCCESS, True)
