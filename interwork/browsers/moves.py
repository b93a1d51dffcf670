"""Sessions in which the selected path moves, with numbered nominations: one side nominates another path, and the other side follows."""

from __future__ import annotations

from collections.abc import Awaitable, Callable

from browser import Browser
from is_ice import Candidate
from nominations import Nomination
from plays import Outcome, begin, renew
from session import Session
from side import Setup

_SETTLED = 1.5  # seconds until the other path, if there is one, was checked too
_PATIENCE = 20.0  # seconds for a path to move
_AT_ONCE = 1.0  # seconds: Chromium leaves a path by itself only 2 s after its last packet there, or later
_QUIET = 1.0  # seconds in which a path has to stay
_MOST = 0xFFFF  # the greatest local preference (RFC 8445, section 5.1.2.1)

# What happens to the paths. The session then has to move to another one.
Step = Callable[[Session], Awaitable[None]]


async def appears(session: Session) -> None:
    """The agent gets an address of the other IP version, and signals it. Its preference is the greatest."""
    session.side.agent.set_local_preference(_MOST)
    line = await session.bind(not session.setup.ipv6)
    await session.call("addCandidate", line)
    session.side.loop.wake()


async def goes(session: Session) -> None:
    """The agent's address on the selected path is gone. The agent knows it."""
    gone = session.side.paths[-1][1].source
    session.side.loop.lost.add(gone)
    session.side.agent.invalidate_candidate(Candidate.host(gone))
    session.side.loop.wake()


async def is_cut(session: Session) -> None:
    """No datagram passes on the selected path any more. The agent does not know it, and its pair remains valid."""
    session.side.loop.lost.add(session.side.paths[-1][1].source)


async def restarts(session: Session) -> None:
    """The side that made the offer restarts ICE."""
    await renew(session, session.setup.browser_offers)


async def _begin(browser: Browser, setup: Setup) -> tuple[Session, bool]:
    session, is_connected = await begin(browser, setup)
    if is_connected:
        await session.follow(_SETTLED)
    return session, is_connected and await session.is_on_one_path()


def _has_moved(session: Session, before: tuple[int, int] | None) -> bool:
    """Returns whether both sides selected the same path, which is not this one."""
    return session.agent_path() == session.browser_path() != before


def _are_numbered(new: list[Nomination], last: int, first: Nomination) -> bool:
    """Returns whether each path has the next number after `last`, and that of the nomination `first` is the greatest."""
    numbers = {one.number or 0 for one in new} - {last}
    return numbers == set(range(last + 1, (first.number or 0) + 1)) != set()


async def _move(session: Session, step: Step) -> tuple[str, float]:
    """After a step both sides have to select another path and stay there. Returns how it came out, and the seconds between both selections.

    It is late by the time since the agent selected the path, or since the browser nominated it.
    """
    loop, before, by_agent = session.side.loop, session.agent_path(), session.side.agent.controlling
    nominated = loop.sent if by_agent else loop.received
    count, last = len(nominated), nominated[-1].number or 0
    await step(session)
    if not await session.follow(_PATIENCE, lambda s: _has_moved(s, before)):
        return "not followed", 0.0
    await session.follow(_QUIET)
    if not _has_moved(session, before) or not session.is_connected():
        return "lost", 0.0
    new, path = nominated[count:], session.agent_path()
    first = next((one for one in new if one.ports == path), None)
    if first is None or session.setup.renomination and not _are_numbered(new, last, first):
        return "another number", 0.0
    selections: list[float] = [session.side.paths[-1][0], session.told["moves"][-1][0]]
    selected, followed = selections if by_agent else reversed(selections)
    at_once = followed < (selected if by_agent else first.at) + _AT_ONCE
    return "followed" if at_once else "followed late", followed - selected


async def move(browser: Browser, setup: Setup, **steps: Step) -> Outcome:
    """After each step the controlling side nominates another path, and the other side follows. Times are between both selections."""
    session, is_settled = await _begin(browser, setup)
    outcome = Outcome("followed" if is_settled else "not connected")
    for name, step in steps.items():
        if outcome.word != "followed":
            break
        outcome.word, seconds = await _move(session, step)
        if outcome.word.startswith("followed"):
            outcome.ms[name] = 1000 * seconds
    await session.end()
    return outcome


async def repeat(browser: Browser, setup: Setup) -> Outcome:
    """The browser moves to a better path. Then its first nomination arrives once more, and has no effect."""
    session, is_settled = await _begin(browser, setup)
    outcome = Outcome("not connected")
    if is_settled:
        outcome.word, _ = await _move(session, appears)
    if outcome.word == "followed":
        first, count = session.side.loop.received[0], len(session.side.paths)
        session.side.loop.receive(first.remote, first.local, first.data)
        await session.follow(_QUIET)
        kept = len(session.side.paths) == count and session.is_connected()
        outcome.word = "kept" if kept and not session.side.dropped else "turned back"
    await session.end()
    return outcome


async def settle(browser: Browser, setup: Setup) -> Outcome:
    """Both sides connect. Have they selected the same path when all is checked?"""
    session, is_settled = await _begin(browser, setup)
    outcome = Outcome("one path" if is_settled else "two paths" if session.is_connected() else "not connected")
    await session.end()
    return outcome
