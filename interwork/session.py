"""Plays one session of a case: both connect, hear each other, agree on the path and perhaps restart."""
import asyncio
from dataclasses import dataclass

import programs
import servers
from programs import Program, are_connected, introduce, settle, talk, until


@dataclass
class Result:
    """What became of a session. `fault` says what failed first, or is None if the session did all that it should."""

    fault: str | None
    seconds: float | None
    log: str
    media: float | None = None  # seconds until media may flow both ways, if that is not when both had a path, and is known


async def play(case, network, stacks, roles):
    """Plays a session, and ends both programs."""
    words = [[*own, *of_network, *relay, role] for own, of_network, relay, role
             in zip(case.words, network.options, case.relay_options(), roles)]
    a, b = (Program(stacks[name], each, namespace) for name, each, namespace in zip(case.stacks, words, network.namespaces))
    a.trickles, b.trickles = case.trickles == "a", case.trickles == "b"
    a.relays_only = b.relays_only = case.relays_only
    try:
        await introduce(a, b)
        fault, seconds = await connect(a, b, case, network)
        if fault is None and case.restarts:
            fault, seconds = await restart(a, b, case, network)
        log = f"      paths {a.path} and {b.path}, states {a.state} and {b.state}\n" + programs.log(a, b)
        return Result(fault, seconds, log, media(a, b, network))
    finally:
        await asyncio.gather(a.end(), b.end())


def media(a, b, network):
    """The seconds from the last signal until both users may send. None if that is when both had a path, or if it is not known."""
    if not hasattr(network, "valid_at") or not (a.ufrag and b.ufrag) or not (a.stack.sends_early or b.stack.sends_early):
        return None
    times = [network.valid_at(f"{theirs.ufrag}:{own.ufrag}") if own.stack.sends_early else own.connected_at
             for own, theirs in ((a, b), (b, a))]
    return None if None in times else max(times) - max(a.signal_at, b.signal_at)


async def connect(a, b, case, network):
    """Waits for the first path. Returns a fault or None, and the seconds from the last signal until both had a path."""
    if not await until(lambda: are_connected(a, b), (a, b), case.seconds):
        ended = [f"{p.stack.name} ended with status {p.process.returncode}" for p in (a, b) if not p.is_running()]
        return ", ".join(ended) or "not connected", None
    seconds = max(a.connected_at, b.connected_at) - max(a.signal_at, b.signal_at)
    return await after_path(a, b, case, network, "first"), seconds


async def after_path(a, b, case, network, word):
    """What both do on a path. Returns a fault or None."""
    if case.relays_only and not is_between_relays(a, b):
        return "a path without two relays"
    if not case.chat:
        return None
    if network.same_path and case.same_path and not await settle(a, b):
        return "different paths"
    heard = await talk(a, b, word)
    return None if all(heard) else "not heard"


def is_between_relays(a, b):
    """Whether the path of both is one between two relayed addresses. Of its path a browser reports the ports only."""
    ports = [[address.rsplit(":", 1)[1] for address in program.path] for program in (a, b)]
    return all(address.startswith(f"{servers.ADDRESS}:") for address in a.path) and ports[0] == ports[1][::-1]


async def restart(a, b, case, network):
    """One of both restarts. Each has to report a path of the new session, and chat passes meanwhile."""
    counts = len(a.paths), len(b.paths)
    begun = asyncio.get_running_loop().time()
    (a if case.restarts == "a" else b).tell("/restart")
    chat = asyncio.ensure_future(talk(a, b, "meanwhile"))

    def is_new():
        return len(a.paths) > counts[0] and len(b.paths) > counts[1] and are_connected(a, b)

    is_done = await until(is_new, (a, b), case.seconds)
    seconds = asyncio.get_running_loop().time() - begun
    heard = await chat
    if not is_done:
        return "no path after the restart", None
    if not all(heard):
        return "not heard during the restart", seconds
    return await after_path(a, b, case, network, "second"), seconds
