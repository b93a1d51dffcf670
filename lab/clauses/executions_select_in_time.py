"""The theorem `executions_select_in_time` (`ExecutionsSelectInTime`): a pair of a controlling agent is due by the first of k + 1 rounds,
which suffice for it. Candidates may be added in them. The caller is punctual, and checks on the pair's path are answered within a round
trip. Then an accepted response selects a path. Its round begins at most k times the pacing interval and the caller's delay, and a round
trip, after the first one."""

from __future__ import annotations

from collections.abc import Callable, Iterable, Iterator
from dataclasses import dataclass
from itertools import groupby

from ..pairs import Path
from ..scenario import SIDES
from .execution import MAX, Execution, Lacks, Round, any_in, entries_of, lacks, part_of
from .fair import is_new_agent
from .in_time import delay
from .opening import Counts, controlling_calls, pair_of
from .progress import awaits, is_unanswered, suffice_for_due, suffices
from .served import suffices_for_served
from .single import are_in_round, are_passing, are_plain
from .staying import may_end_in_rounds
from .verdict import Verdict, first_in, first_of_all


@dataclass(frozen=True)
class Choice:
    """The side whose log it is, the number of its pair, and the rounds, from a `handle_timeout` call up to the entry `end`. The first
    `count` ones are to suffice, and more may follow."""

    side: str
    pair: int
    first: int
    count: int
    end: int

    def rounds(self, x: Execution) -> list[Round]:
        """Returns the rounds."""
        return x.rounds(self.side, self.first, self.end)

    def path(self, x: Execution) -> Path:
        """Returns the pair's path."""
        agent = x.state(self.first, self.side)
        return agent.path(pair_of(agent, self.pair))


# ---- the bound and the conclusion

def trip(x: Execution, c: Choice) -> int | None:
    """Returns the least round trip within which the checks on the path are answered (`IsAnsweredWithin`): a success response is accepted in
    a round that begins so long after each of them, or earlier. None: there is a check, and none is accepted."""
    rounds, part = c.rounds(x), range(c.first, c.end)
    sent = [x.now(at) for at in part_of(x.checks(c.side, c.path(x)), part)]
    if not sent:
        return 0
    answers = part_of(x.successes(c.side), part)
    return max(0, max(r.now for r in rounds if r.moment < answers[0]) - min(sent)) if answers else None


def limit(x: Execution, c: Choice) -> int | None:
    """Returns by when a round begins in which a path is selected."""
    return limit_of(x, c, trip(x, c))


def limit_of(x: Execution, c: Choice, within: int | None) -> int | None:
    """Returns the same for this round trip."""
    rounds = c.rounds(x)[:c.count]
    late = delay(x, c.side, rounds)
    if within is None or late is None:
        return None
    return rounds[0].now + (len(rounds) - 1) * (pace(x, c.side, rounds) + late) + within


def pace(x: Execution, side: str, rounds: list[Round]) -> int:
    """Returns the greatest pacing interval in the rounds (`IsTimed`: `begins`, `keeps`)."""
    sets = x.indices(("paces", side), lambda s: s.entry.side == side and s.entry.call == "set_timing_advance")
    return max([x.state(rounds[0].moment, side).advance, *(x.state(at + 1, side).advance for at in part_of(sets, entries_of(rounds)))])


def selected_at(x: Execution, c: Choice) -> int | None:
    """Returns when the first round begins in which an accepted success response selects a path (`SelectsBy`)."""
    found = [at for at in x.successes(c.side) if x.steps[at].selected]
    return min((r.now for r in c.rounds(x) if any_in(found, r.behind)), default=None)


# ---- the preconditions

def suffice_for_check(x: Execution, side: str, by: int, rounds: list[Round], pair: int) -> bool:
    """Whether the later rounds suffice for a pair that is due by a time: fewer, if only packets and polls come in them and in the first
    one, or if a request was served on the pair (`SufficeForCheck`)."""
    start, later, stop = rounds[0], rounds[1:], rounds[-1].behind.stop
    first, second, end = x.state(start.moment, side), x.state(start.behind.stop, side), x.state(stop, side)
    is_polled = are_plain(x, side, rounds) and suffice_for_due(by, start.now, first, second, [r.now for r in later])
    return is_polled or suffices(by, start.now, first, second, end, len(later)) or not suffices_for_served(x, side, pair, rounds)


def lacking(x: Execution, c: Choice) -> Lacks:
    """Returns the preconditions that do not hold."""
    rounds, agent = c.rounds(x), x.state(c.first, c.side)
    enough, start, more = rounds[:c.count], rounds[0], rounds[c.count:]
    pair = pair_of(agent, c.pair)
    by = min(pair.due_at(start.now, agent.timing), start.now)  # so `by` is no later than the first call
    return lacks(IsFresh=is_new_agent(x.state(0, c.side)), controlling=agent.controlling, Awaits=awaits(start.now, by, agent, pair),
                 IsUnanswered=is_unanswered(agent, pair), first=lacks(early=start.now < MAX, between=are_in_round(x, c.side, start)),
                 ExecutionRounds=x.is_controlling_in(c.side, range(c.first + 1, c.end + 1)),
                 IsOpenRound=are_passing(x, c.side, by, enough[1:]), AreInRound=all(are_in_round(x, c.side, r) for r in more),
                 SufficeForCheck=suffice_for_check(x, c.side, by, enough, c.pair), punctual=delay(x, c.side, enough) is not None,
                 IsAnsweredWithin=trip(x, c) is not None, EndsAmong=not may_end_in_rounds(x, c.side, c.path(x), enough))


# ---- the search

class Search:
    """The search for choices of one clause. Its checks are answered in a way of its own."""

    def __init__(self, x: Execution) -> None:
        self.x = x

    def answer(self, side: str, path: Path, first: int) -> int | None:
        """Returns at which entry the first answer comes after a `handle_timeout` call."""
        return first_in(self.x.successes(side), range(first + 1, len(self.x)))

    def limit(self, c: Choice) -> int | None:
        """Returns by when a round begins in which a path is selected."""
        return limit(self.x, c)

    def least(self, counts: Counts, place: int, by: int, pair: int, until: int) -> int | None:
        """Returns the least number of rounds that suffice for the pair."""
        return counts.least(place, by, pair, until)

    def choices(self) -> Iterator[tuple[list[Choice], list[Choice]]]:
        """Proposes choices for each first `handle_timeout` call: those with enough rounds, the earliest bound first; and those with too few
        rounds. They go up to the last of the rounds, and up to the first answer."""
        counts = {side: Counts(self.x, side) for side in SIDES}
        for (side, place), calls in groupby(controlling_calls(self.x, SIDES), key=lambda call: (call[1], call[0])):
            row = self.x.timeouts[side][place:]
            agent = self.x.state(row[0], side)
            enough: list[Choice] = []
            hopeless: list[Choice] = []
            for _, _, pair, due in calls:
                answer = self.answer(side, agent.path(pair), row[0])
                until = 0 if answer is None else answer + 1
                count = self.least(counts[side], place, due, pair.number, until)
                wanted = counts[side].rounds_for_due(place, due) if count is None else count
                chosen = Choice(side, pair.number, row[0], wanted, max(row[:wanted][-1] + 1, until))
                (hopeless if count is None else enough).append(chosen)
            yield sorted(enough, key=lambda c: earliest(self.limit(c))), hopeless


def earliest(bound: int | None) -> int:
    """Returns the bound of a choice, or the greatest time if it has none."""
    return MAX if bound is None else bound


def by_first_call(proposed: Iterable[tuple[list[Choice], list[Choice]]]) -> Iterator[Choice]:
    """Proposes these choices by the first call. Those without enough rounds come last."""
    hopeless: list[Choice] = []
    for enough, few in proposed:
        yield from enough
        hopeless += few
    yield from hopeless


def choices(x: Execution) -> Iterator[Choice]:
    """Proposes choices by the first call."""
    return by_first_call(Search(x).choices())


def first_call_that_holds(found: Iterable[Choice], lacking_of: Callable[[Choice], Lacks], verdict: Callable[[Choice], Verdict]) -> Verdict:
    """Returns the earliest bound of the first call with a choice that lacks nothing; or one of this call whose conclusion does not come
    true."""
    failed = []
    for _, of_call in groupby(found, key=lambda c: (c.side, c.first)):
        of_first = first_of_all(of_call, lacking_of, verdict, "Awaits.there")
        if of_first.held:
            return of_first
        failed.append(of_first.failed)
    return Verdict(min(failed, key=lambda names: names.count(","), default="Awaits.there"))


def verdict_of(x: Execution, c: Choice) -> Verdict:
    """Returns the bound of a choice, and when a path was selected."""
    return Verdict("", x.time(c.first), limit(x, c), selected_at(x, c), c.count)


def find(x: Execution) -> Verdict:
    """Returns what holds at the first call with a choice that lacks nothing."""
    return first_call_that_holds(choices(x), lambda c: lacking(x, c), lambda c: verdict_of(x, c))
