"""The theorem `connected_are_answered` (`ConnectedAreAnswered`): with the profile `Modern`, an agent that is never lite is connected only
on a path on which a check got a response that was sent less than the timeout before, or, if consent is not strict, on which a check of
the peer arrived less than 15 s before."""

from __future__ import annotations

from ..pairs import Consent, Pair
from . import connected_have_consent
from .connected_have_consent import Choice, choices
from .execution import Execution, Lacks, lacks
from .valid_have_consented import is_never_lite
from .verdict import Verdict, first_of_all


def lacking(x: Execution, c: Choice) -> Lacks:
    """Returns the preconditions that do not hold."""
    rule = x.steps[c.moment].after[c.side].timing.consent
    return [*connected_have_consent.lacking(x, c), *lacks(AreNeverLite=is_never_lite(x, c.side, c.moment), rule=rule is not None)]


def is_alive_by(consent: Consent, now: int, p: Pair) -> bool:
    """Whether a check that was sent recently got a response, or, unless consent is strict, a check of the peer arrived (`IsAliveBy`)."""
    if p.consented is None:
        return False
    return now < p.consented + consent.timeout or (not consent.strict and p.is_heard(now))


def verdict_of(x: Execution, c: Choice) -> Verdict:
    """Whether it is so after the call."""
    time, consent = x.time(c.moment), x.steps[c.moment].after[c.side].timing.consent
    is_true = consent is not None and any(is_alive_by(consent, x.now(c.moment), p) for p in c.pairs)
    return Verdict("", time, time, time if is_true else None)


def find(x: Execution) -> Verdict:
    """Returns the first such call, or one after which the path is not alive."""
    return first_of_all(choices(x), lambda c: lacking(x, c), lambda c: verdict_of(x, c), "connected")
