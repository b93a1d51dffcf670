"""`World::run`, clause `selects_in_time`, of pairs on which a request was served (`ServedRoundsSuffice`): with the profile `Modern` k is
2 * m then, if fewer than m of the rounds check other pairs before, however many pairs there are."""

from __future__ import annotations

from collections.abc import Iterator

from .accepted_nominations import Network
from .executions_select_in_time import Choice, by_first_call, first_call_that_holds
from .execution import Lacks
from .opening import Counts
from .selects_in_time import NetworkSearch, lacking_with, verdict_of
from .served import suffices_for_served
from .verdict import Verdict


def lacking(n: Network, c: Choice) -> Lacks:
    """Returns the preconditions that do not hold."""
    return lacking_with(n, c, lambda _, rounds: suffices_for_served(n.x, c.side, c.pair, rounds))


class ServedSearch(NetworkSearch):
    """The search for choices with a pair on which a request was served."""

    def least(self, counts: Counts, place: int, by: int, pair: int, until: int) -> int | None:
        """Returns the least number of rounds that suffice for the pair."""
        return counts.least_served(place, pair)


def choices(n: Network) -> Iterator[Choice]:
    """Proposes choices by the first `handle_timeout` call, of one call those with the earliest bound first."""
    return by_first_call(ServedSearch(n).choices())


def find(n: Network) -> Verdict:
    """Returns what holds at the first call with a choice that lacks nothing."""
    return first_call_that_holds(choices(n), lambda c: lacking(n, c), lambda c: verdict_of(n, c))
