"""The table of cases: what happens in a session, how many sessions there are, and how they have to come out."""

from __future__ import annotations

import functools
from collections.abc import Awaitable, Callable
from dataclasses import dataclass
from typing import Any

import moves
import plays
from moves import Step
from plays import Outcome
from side import Setup

# One session, with the browser (None without one) and the number of the session in its case.
Play = Callable[[Any, int], Awaitable[Outcome]]


@dataclass(frozen=True)
class Case:
    """`sessions` sessions, each of which has to come out in one of the words of `expected`."""

    name: str
    play: Play
    expected: tuple[str, ...] = ("connected",)
    sessions: int = 20
    quick: int = 2  # sessions with --quick; 0: the case takes too long for it
    waits: bool = False  # its sessions mostly wait, so they run at the same time, and next to those of other such cases
    mdns: bool = False
    ipv6: bool = False
    both: bool = False  # the machine needs an IPv4 and an IPv6 address
    capture: bool = False  # the page captures sound
    aiortc: bool = False
    relays: bool = False  # through a TURN server
    only: str = ""  # the browser for which this is expected; empty: both


def _case(name: str, setup: Setup, play: Callable[..., Awaitable[Outcome]] = plays.connect, *expected: str) -> Case:
    return Case(name, lambda browser, _: play(browser, setup), expected or ("connected",), mdns=setup.mdns, ipv6=setup.ipv6,
                relays=bool(setup.relays_only))


def _cut(name: str, seconds: float, setup: Setup, *expected: str, play: Callable[..., Awaitable[Outcome]] = plays.cut,
         only: str = "") -> Case:
    return Case(name, lambda browser, _: play(browser, setup, seconds), expected, sessions=5, quick=0, waits=True, only=only)


def _numbered(name: str, browser_offers: bool, play: Callable[..., Awaitable[Outcome]] = plays.connect, expected: str = "connected",
              lite: bool = False, mdns: bool = False) -> Case:
    setup = Setup(browser_offers, lite=lite, mdns=mdns, option=True, renomination=True)
    return Case(f"numbers, {name}", lambda browser, _: play(browser, setup), (expected,), sessions=5, mdns=mdns)


def _move(name: str, browser_offers: bool, *expected: str, numbers: bool = True, both: bool = False, capture: bool = False,
          waits: bool = False, only_ipv4: bool = False, play: Callable[..., Awaitable[Outcome]] = moves.move, **steps: Step) -> Case:
    setup = Setup(browser_offers, both=both, option=numbers, renomination=numbers, only_ipv4=only_ipv4)
    return Case(f"numbers, {name}" if numbers else name, lambda browser, _: play(browser, setup, **steps), expected or ("followed",),
                sessions=5, waits=waits, both=True, capture=capture, only="chromium")


def _without_setting(expected: str, only: str) -> Case:
    setup = Setup(True, option=True)
    return Case("option without the setting, browser offers", lambda browser, _: plays.connect(browser, setup), (expected,), sessions=5,
                quick=0, waits=True, only=only)


_restart_by_browser = functools.partial(plays.restart, by_browser=True)
_restart_by_agent = functools.partial(plays.restart, by_browser=False)

CONNECTING = [
    _case("browser offers", Setup(True)),
    _case("agent offers", Setup(False)),
    _case("browser offers, agent lite", Setup(True, lite=True)),
    _case("agent offers, agent lite", Setup(False, lite=True)),
    _case("browser offers, candidates 300 ms late", Setup(True, late=True)),
    _case("agent offers, candidates 300 ms late", Setup(False, late=True)),
    _case("browser offers, agent lite, candidates 300 ms late", Setup(True, lite=True, late=True)),
    _case("both controlling", Setup(True, conflict=True)),
    _case("both controlled", Setup(False, conflict=True)),
    _case("IPv6, browser offers", Setup(True, ipv6=True)),
    _case("IPv6, agent offers", Setup(False, ipv6=True)),
    _case("IPv6, browser offers, agent lite", Setup(True, lite=True, ipv6=True)),
    _case("mDNS names, browser offers", Setup(True, mdns=True)),
    _case("mDNS names, agent offers", Setup(False, mdns=True)),
    _case("mDNS names, browser offers, agent lite", Setup(True, lite=True, mdns=True)),
]

RESTARTS = [
    _case("restart by the browser, which offered", Setup(True), _restart_by_browser, "connected again"),
    _case("restart by the browser, which answered", Setup(False), _restart_by_browser, "connected again"),
    _case("restart by the browser, agent lite", Setup(True, lite=True), _restart_by_browser, "connected again"),
    _case("restart by the agent, which offered", Setup(False), _restart_by_agent, "connected again"),
    _case("restart by the agent, which answered", Setup(True), _restart_by_agent, "connected again"),
    _case("restart by the agent, agent lite", Setup(True, lite=True), _restart_by_agent, "connected again"),
]

# Neither side has anything but relayed candidates: iceTransportPolicy "relay", and `relay_only` of the agent's loop.
RELAYS = [
    _case("relays only, browser offers", Setup(True, relays_only="udp")),
    _case("relays only, agent offers", Setup(False, relays_only="udp")),
    _case("relays only, browser offers, candidates 300 ms late", Setup(True, relays_only="udp", late=True)),
    _case("relays only, agent offers, candidates 300 ms late", Setup(False, relays_only="udp", late=True)),
    _case("relays only, over TCP, browser offers", Setup(True, relays_only="tcp")),
    _case("relays only, over TCP, agent offers", Setup(False, relays_only="tcp")),
    _case("relays only, restart by the browser", Setup(True, relays_only="udp"), _restart_by_browser, "connected again"),
    _case("relays only, restart by the agent", Setup(False, relays_only="udp"), _restart_by_agent, "connected again"),
    Case("relays only, nothing happens for 60 s", lambda browser, _: plays.peace(browser, Setup(True, relays_only="udp"), 60), ("kept",),
         sessions=5, quick=0, waits=True, relays=True),
]

# Both descriptions have a=ice-options:renomination, so nominations have numbers. Then Chromium nominates without USE-CANDIDATE, and an
# agent without the setting selects nothing; Firefox goes by USE-CANDIDATE with the option too, and never follows a moved path.
NUMBERS = [
    _numbered("browser offers", True),
    _numbered("agent offers", False),
    _numbered("browser offers, agent lite", True, lite=True),
    _numbered("mDNS names, browser offers", True, mdns=True),
    _numbered("mDNS names, agent offers", False, mdns=True),
    _numbered("restart by the browser, which offered", True, _restart_by_browser, "connected again"),
    _numbered("restart by the agent, which offered", False, _restart_by_agent, "connected again"),
    _without_setting("not connected", only="chromium"),
    _without_setting("connected", only="firefox"),
]

# Chromium gathers by the default routes only, unless the page captures. Then it goes back to a path of lower priority, which it had left,
# only once the path in use has failed. With sound captured each IP version is a network of its own, and it goes back at once.
MOVES = [
    _move("agent offers, a better path appears", False, appears=moves.appears),
    _move("agent offers, its path goes", False, both=True, goes=moves.goes),
    _move("agent offers, its path goes", False, "followed late", numbers=False, both=True, waits=True, goes=moves.goes),
    _move("agent offers, a better path appears and goes", False, "followed late", appears=moves.appears, goes=moves.goes),
    _move("agent offers, a better path appears and goes, sound captured", False, capture=True, appears=moves.appears, goes=moves.goes),
    _move("agent offers, a better path appears, then a restart", False, appears=moves.appears, restarts=moves.restarts),
    _move("browser offers, a better path appears", True, appears=moves.appears),
    _move("browser offers, a better path appears and is cut", True, waits=True, appears=moves.appears, cut=moves.is_cut),
    _move("browser offers, a better path appears, then a restart", True, appears=moves.appears, restarts=moves.restarts),
    _move("browser offers, a better path appears, first nomination again", True, "kept", play=moves.repeat),
    _move("browser offers, its path is cut", True, both=True, waits=True, cut=moves.is_cut),
    _move("browser offers, its IPv6 candidates are not signaled", True, "one path", both=True, only_ipv4=True, play=moves.settle),
    _move("browser offers, its IPv6 candidates are not signaled", True, "two paths", "one path", numbers=False, both=True, only_ipv4=True,
          play=moves.settle),
]

# A lite agent removes a pair 15 s after the last check of the peer, by default, a full one after 11 unanswered checks, which takes about
# 26 s, or about 20 s with 9 checks. With Modern it takes no less than a whole series of checks, 20.9 s with 9: here, where checks
# are 2 s apart when the cut begins, one more is sent, and the pair is removed after 23 s. What a controlled agent removed comes back only
# by an ICE restart: Chromium sends no more checks, and those of Firefox do not nominate again. With a lite agent each check of Chromium
# nominates, but it sends none any more after 15 s without a response, and no check of the agent makes it begin again. Firefox nominates
# only once, and still sends checks after 20 s.
CUTS = [
    _cut("cut for 8 s, agent controlled", 8, Setup(True), "kept"),
    _cut("cut for 8 s, agent controlling", 8, Setup(False), "kept"),
    _cut("cut for 8 s, agent lite", 8, Setup(True, lite=True), "kept"),
    _cut("cut for 12 s, agent lite, timeout 6 s", 12, Setup(True, lite=True, lite_timeout=6), "came back", only="chromium"),
    _cut("cut for 12 s, agent lite, timeout 6 s", 12, Setup(True, lite=True, lite_timeout=6), "no path", only="firefox"),
    _cut("cut for 20 s, agent lite", 20, Setup(True, lite=True), "no path"),
    _cut("cut for 20 s, agent lite, then restarted", 20, Setup(True, lite=True), "connected again", play=plays.cut_and_restart),
    _cut("cut for 20 s, agent lite, timeout 30 s", 20, Setup(True, lite=True, lite_timeout=30), "no path", only="chromium"),
    _cut("cut for 20 s, agent lite, timeout 30 s", 20, Setup(True, lite=True, lite_timeout=30), "kept", only="firefox"),
    _cut("cut for 22.5 s, agent controlled", 22.5, Setup(True), "kept"),
    _cut("cut for 25 s, agent controlled, 9 checks", 25, Setup(True, checks=9), "no path"),
    _cut("cut for 25 s, agent controlled, 9 checks, then restarted", 25, Setup(True, checks=9), "connected again",
         play=plays.cut_and_restart),
    _cut("nothing happens for 60 s", 60, Setup(True), "kept", play=plays.peace),
]


async def _with_browser(browser: Any, number: int) -> Outcome:
    import rtc
    return await rtc.with_browser(browser, browser_offers=number // 2 % 2 == 0, video=number % 2 == 1)


def _with_itself(offers_by_agent: bool, answers_by_agent: bool) -> Play:
    async def play(_: Any, number: int) -> Outcome:
        import rtc
        return await rtc.with_itself(offers_by_agent, answers_by_agent, video=number % 2 == 1)

    return play


AIORTC_WITH_BROWSER = [
    Case("aiortc: data channel, half with video", _with_browser, ("works",), 12, 4, aiortc=True),
    Case("aiortc: data channel, half with video, mDNS names", _with_browser, ("works",), 12, 4, mdns=True, aiortc=True),
]
AIORTC_WITH_ITSELF = [
    Case("aiortc offers to aiortc", _with_itself(True, True), ("works",), 12, aiortc=True),
    Case("aiortc offers to aiortc over aioice", _with_itself(True, False), ("works",), 12, aiortc=True),
    Case("aiortc over aioice offers to aiortc", _with_itself(False, True), ("works",), 12, aiortc=True),
]
WITH_BROWSER = CONNECTING + RELAYS + RESTARTS + NUMBERS + MOVES + CUTS + AIORTC_WITH_BROWSER
