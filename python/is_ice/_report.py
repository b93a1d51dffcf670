"""Why a session failed: what it tried, and what came back."""

from __future__ import annotations

from collections.abc import Callable, Iterable, Mapping, Sequence
from itertools import islice

from .agent import IceAgent
from .candidate import CandidateFields
from .errors import NoAgent
from .events import CandidatePair

_MOST = 8  # of a list


def _listed(what: str, texts: Iterable[str], count: int) -> str:
    """A list, of which only the first ones are named."""
    more = f" and {count - _MOST} more" if count > _MOST else ""
    return f"{what}: {', '.join(islice(texts, _MOST)) or 'none'}{more}"


def _candidate_text(fields: CandidateFields) -> str:
    return f"{fields.address} ({fields.kind.name.replace('_', '-').lower()})"


def _pair_text(pair: CandidatePair, local: list[CandidateFields], remote: list[CandidateFields]) -> str:
    state = pair.state.name.replace("_", " ").lower()
    return (f"{local[pair.local].address} -> {remote[pair.remote].address} {state}, {pair.checks_sent} checks sent, "
            f"{pair.responses} answered, {pair.requests_received} received")


def tried(agent: IceAgent, discarded: Mapping[str, int], problems: Sequence[str] = ()) -> str:
    """Says what an agent tried and what came back. `discarded` counts the STUN messages that nobody took, by kind. `problems` are those of
    servers."""
    local, remote, pairs, stats = agent.local_fields(), agent.remote_fields(), agent.pairs, agent.stats
    removed, failed = agent.removed_pairs(), agent.failed_sends()
    return "; ".join([
        f"state {agent.state.name.capitalize()}",
        _listed("local candidates", map(_candidate_text, local), len(local)),
        _listed("remote candidates", map(_candidate_text, remote), len(remote)),
        _listed("pairs", (_pair_text(pair, local, remote) for pair in pairs), len(pairs)),
        _listed("removed pairs", map(str, removed), len(removed)),
        f"{stats.bind_request_sent} checks sent, {stats.bind_success_recv} answered, {stats.bind_request_recv} received in all",
        _listed("failed sends", map(str, failed), len(failed)),
        _listed("discarded", (f"{count} x {kind}" for kind, count in discarded.items()), len(discarded)),
        *([_listed("servers", problems, len(problems))] if problems else [])])


def failure(why: str, what_was_tried: Callable[[], str], unknown_hosts: int, ended: bool) -> str:
    """Says why a connection failed, and what it tried. `unknown_hosts`: mDNS names of the peer without an address. `ended`: the peer
    signaled the end of its candidates."""
    told = f"ICE negotiation failed: {why}"
    try:
        told += "; " + what_was_tried()
    except NoAgent:
        return told
    if unknown_hosts:
        told += f"; mDNS names of the peer without an address: {unknown_hosts}"
    return told if ended else told + "; the peer did not signal the end of its candidates"
