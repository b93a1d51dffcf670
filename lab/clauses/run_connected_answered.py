"""`run`, clause `connected_answered` (`PathsAreAlive`): with the profile `Modern`, and if the agent was never lite before, the path of
`connected` is that of a pair that is alive by the responses to its checks and the checks of the peer."""

from __future__ import annotations

from . import run_connected
from .connected_are_answered import verdict_of
from .connected_have_consent import Choice
from .execution import Execution, Lacks, lacks
from .valid_have_consented import is_never_lite
from .verdict import Verdict, first_of_all


def lacking(x: Execution, c: Choice) -> Lacks:
    """Returns the preconditions that do not hold."""
    rule = x.steps[c.moment].after[c.side].timing.consent
    return [*run_connected.lacking(x, c), *lacks(NeverLite=is_never_lite(x, c.side, c.moment), rule=rule is not None)]


def find(x: Execution) -> Verdict:
    """Returns the first such call, or one after which the path is not alive."""
    return first_of_all(run_connected.choices(x), lambda c: lacking(x, c), lambda c: verdict_of(x, c), "connected")
