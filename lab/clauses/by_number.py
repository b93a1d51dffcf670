"""`World::run`, clause `by_number` (`LeadingPathIsSelected`): with renomination at both sides the controlling one nominates a path. By a
`handle_timeout` call of the controlled one that serves no early request, a pair on the path was nominated by the greatest number. Then both
selected the path last."""

from __future__ import annotations

from ..model import Agent
from ..numbers import number_of
from ..pairs import Path
from .accepted_nominations import Network
from .execution import Lacks, lacks
from .one_path import Choice, check_that_nominates, find as find_by, is_segment
from .verdict import Verdict


def leads_by_number(agent: Agent, path: Path) -> bool:
    """Whether the agent goes by numbers, and one eligible pair, which is on the path, was nominated by a greater number than all others
    (`LeadsByNumber`)."""
    goes = agent.numbers and agent.numbers_seen and not agent.controlling

    def is_greatest(number: int) -> bool:
        return all(number_of(q) < number_of(p) for p in agent.pairs if p.number == number
                   for q in agent.pairs if q.number != number and q.is_nominated)

    return goes and any(is_greatest(p.number) for p in agent.on(path) if agent.is_eligible(p))


def lacking(n: Network, c: Choice) -> Lacks:
    """Returns the preconditions that do not hold."""
    part, whole = range(c.start, c.moment), range(c.start, c.moment + 1)
    return lacks(
        **is_segment(n, c, whole), IsNominated=check_that_nominates(n, c, part, lambda h: []),
        LeadsByNumber=leads_by_number(n.x.state(c.moment + 1, c.side), c.path))


def find(n: Network) -> Verdict:
    """Returns the first such call, or one after which the sides selected other paths."""
    return find_by(n, lacking, "IsNominated.handed")
