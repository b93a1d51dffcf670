"""The theorem `leaves_in_time` (`LeavesInTime`): while an agent is connected on a path on which nothing keeps consent, the next
`handle_timeout` of a punctual caller comes at most a pacing interval and its own delay after consent ends; from then on it is not."""

from __future__ import annotations

from bisect import bisect_left
from collections.abc import Iterator
from dataclasses import dataclass

from ..clock import SECOND
from ..model import Agent
from ..pairs import Consent, Pair, Path
from ..replay import Step
from ..scenario import SIDES
from ..stun import message_of
from .execution import Execution, Lacks, Round, any_in, brings_success, is_in_round, lacks
from .fair import is_new_agent
from .in_time import delay
from .seen import success_path, walk
from .staying import may_end_in
from .valid_have_consented import is_never_lite
from .verdict import Verdict, first_of_all


@dataclass(frozen=True)
class Choice:
    """The side; the `handle_timeout` calls of its rounds, from `first` on, up to one after which a path was selected last, and the next
    one; this path; and the pairs before the first call, with what the log shows of their checks."""

    side: str
    first: int
    moment: int
    following: int
    path: Path | None
    pairs: tuple[Pair, ...]

    def rounds(self, x: Execution) -> list[Round]:
        """Returns the rounds, and the next one."""
        return x.rounds(self.side, self.first, self.following + 1)

    def consent(self, x: Execution) -> Consent | None:
        """Returns how long a response keeps a pair in the state before the first call."""
        return x.state(self.first, self.side).timing.consent

    def pace(self, x: Execution) -> int:
        """Returns the greatest pacing interval in the rounds (`IsTimed`: `begins`, `keeps`)."""
        return max(x.state(at, self.side).advance for at in range(self.first, self.following + 1))


# ---- what keeps consent

def asks(step: Step) -> bool:
    """Whether a check of the peer is accepted."""
    return step.entry.call == "handle_packet" and bool(step.entry.returned) and message_of(step.entry.given[3]).kind == "request"


def answers_on(x: Execution, side: str, path: Path | None) -> list[int]:
    """Returns the indices at which the side accepts a success response on the path (`IsAnsweredAlong`)."""
    return x.indices(("answered on", side, path), lambda s: s.entry.side == side and brings_success(s) and success_path(s) == path)


def checks_on(x: Execution, side: str, path: Path | None) -> list[int]:
    """Returns the indices at which the side accepts a check of the peer on the path (`IsRequestedAlong`)."""
    return x.indices(("asked on", side, path), lambda s: s.entry.side == side and asks(s) and success_path(s) == path)


def consent_until(c: Consent, agent: Agent, path: Path | None, pairs: tuple[Pair, ...]) -> int | None:
    """Returns when consent on the path ends if nothing arrives (`consent_until`), by its pairs (`IsLastHeard`). None: no check on it had a
    response."""
    own = [p for p in pairs if agent.path(p) == path]
    sent = [p.consented for p in own if p.consented is not None]
    heard = [p.last_request for p in own if p.last_request is not None]
    if not sent:
        return None
    answered = max(sent) + c.timeout
    return answered if c.strict or not heard else max(answered, max(heard) + 15 * SECOND)


# ---- the preconditions and the conclusion

def is_silent(x: Execution, c: Choice) -> Lacks:
    """Only calls of rounds are made, and nothing keeps consent on the path (`IsSilentRound`)."""
    rounds, consent = c.rounds(x)[:-1], c.consent(x)

    def none_in(indices: list[int]) -> bool:
        return not any(any_in(indices, r.behind) for r in rounds)

    return lacks(between=none_in(x.calls_besides(c.side, is_in_round)), unanswered=none_in(answers_on(x, c.side, c.path)),
                 unasked=(consent is not None and consent.strict) or none_in(checks_on(x, c.side, c.path)))


def lacking(x: Execution, c: Choice) -> Lacks:
    """Returns the preconditions that do not hold."""
    agent, consent = x.state(c.first, c.side), c.consent(x)
    last = x.steps[c.moment].after[c.side]
    responded = consent is None or consent_until(consent, agent, c.path, c.pairs) is not None
    heard = lacks(rule=consent is not None, peer=agent.peer is not None, queue=not agent.queue, responded=responded)
    return lacks(IsFresh=is_new_agent(x.state(0, c.side)), AreNeverLite=is_never_lite(x, c.side, c.first), IsLastHeard=heard,
                 IsSilentRound=is_silent(x, c), connected=last.state.is_connected() and c.path is not None,
                 punctual=delay(x, c.side, c.rounds(x)) is not None,
                 Ends=c.path is None or not may_end_in(x, c.side, c.path, range(c.moment + 1, c.following)))


def verdict_of(x: Execution, c: Choice) -> Verdict:
    """Whether the call came before consent ended, and the next one at most so long after that."""
    consent, late = c.consent(x), delay(x, c.side, c.rounds(x))
    assert consent is not None and late is not None
    until = consent_until(consent, x.state(c.first, c.side), c.path, c.pairs)
    assert until is not None
    return Verdict("", x.time(c.first), until + c.pace(x) + max(late, 0), x.now(c.following) if x.now(c.moment) < until else None)


# ---- the search

def choices(x: Execution) -> Iterator[Choice]:
    """Proposes each two `handle_timeout` calls that follow one another, with as many silent rounds before the first as there are."""
    for side in SIDES:
        row, states = x.timeouts[side], {}
        others = x.calls_besides(side, is_in_round)
        for step, seen in walk(x, side):
            if not step.is_timeout or step.at == row[-1]:
                continue
            place, path = bisect_left(row, step.at), seen.selected
            states[step.at] = seen.pairs(step.before[side])
            noises = [others, answers_on(x, side, path)] + ([] if is_strict(x, side, step.at) else [checks_on(x, side, path)])
            last = max((indices[found - 1] for indices in noises if (found := bisect_left(indices, step.at))), default=-1)
            first = row[bisect_left(row, last)]
            yield Choice(side, first, step.at, row[place + 1], path, states[first])


def is_strict(x: Execution, side: str, at: int) -> bool:
    """Whether consent is strict in the state before the entry."""
    consent = x.state(at, side).timing.consent
    return consent is not None and consent.strict


def find(x: Execution) -> Verdict:
    """Returns the first such call, or one after which the agent is connected too late, or after which the next one comes too late."""
    return first_of_all(choices(x), lambda c: lacking(x, c), lambda c: verdict_of(x, c), "connected")
