"""`PathsAreAnswered`, `PathsAreNominatedByPeer`, `PathsAreFirstChoice` and `ConnectedHavePath`: which paths an agent selects along its log,
each at the call that selects it, whenever its event is polled. The greatest nomination of a pair is seen by no call: it is read off the
requests that got a success response."""

from __future__ import annotations

from collections import defaultdict
from collections.abc import Iterator
from dataclasses import dataclass

from is_ice.stun import StunMessage

from ..guarantees import Path
from ..stun import message_of, nomination_of
from ..view import Called, ShownPair
from ..witness import Record, accepted
from .found import Found


def checks_of(c: Called) -> Iterator[tuple[Path, bytes]]:
    """Returns the path and the ID of each check that the call queued."""
    for p in c.packets:
        if message_of(p.contents).kind == "request":
            yield (p.source, p.destination), message_of(p.contents).transaction


def paths_are_answered(record: Record) -> Found:
    """`PathsAreAnswered`: a response on the reverse of the path arrived at this call or before it, and since the last clear: it is signed
    with the peer's password of that time, and has the ID of a check that was queued for the path since then."""
    found = Found()
    if not record.keeps_modern():
        return found
    checks, answered = defaultdict[Path, set[bytes]](set), set[Path]()
    for c in record.witness.calls:
        if c.clears:
            checks.clear()
            answered.clear()
        if (answer := accepted(c.entry, "success")) and c.before.peer is not None:
            path, contents = answer
            if message_of(contents).transaction in checks[path] and StunMessage(contents).verify(c.before.peer.pass_.encode()):
                answered.add(path)
        for path in c.selected:
            found.add(path in answered, f"call {c.at}: {path[0]} {path[1]} was selected, and not answered")
        for path, id in checks_of(c):
            checks[path].add(id)
    return found


def nominates(contents: bytes, numbered: bool) -> bool:
    """Whether a request nominates its pair (`as_taken`): if nominations have numbers and it has one, that is above 0."""
    number = nomination_of(contents) if numbered else None
    return message_of(contents).use_candidate if number is None else number > 0


def paths_are_nominated_by_peer(record: Record) -> Found:
    """`PathsAreNominatedByPeer`: the agent is controlled since the last clear, and by this call it accepted a request on the reverse of the
    path that nominates it, as the settings before this call or an earlier one take requests."""
    found = Found()
    if not record.keeps_modern():
        return found
    requests, nominated = {False: set[Path](), True: set[Path]()}, set[Path]()
    is_controlled = not record.witness.began_controlling
    for c in record.witness.calls:
        is_controlled = (c.clears or is_controlled) and not c.after.controlling
        if request := accepted(c.entry, "request"):
            for numbered, paths in requests.items():
                paths.update([request[0]] * nominates(request[1], numbered))
        nominated |= requests[c.before.settings.renomination and c.before.is_modern]
        for path in c.selected if is_controlled else ():
            found.add(path in nominated, f"call {c.at}: {path[0]} {path[1]} was selected, and not nominated by the peer")
    return found


# ---- the first choice

@dataclass
class _Asked:
    """What the peer asked of a controlled agent with renomination, since the last clear: the path that it nominated last, the greatest
    number for each path, and whether a nomination with a number was served since the last restart."""

    last: Path | None
    numbers: dict[Path, int]
    has_numbers: bool = False

    def take(self, c: Called, requests: dict[bytes, bytes]) -> None:
        """Adds a call that may serve a request."""
        if c.clears:
            self.last, self.numbers = None, {}
            self.has_numbers &= c.entry.call != "ice_restart"
        numbered = c.before.settings.renomination and c.before.is_modern
        for p in c.packets:
            request = requests.get(message_of(p.contents).transaction) if message_of(p.contents).kind == "success" else None
            if request is not None and not c.after.controlling:
                path, number = (p.source, p.destination), nomination_of(request) or 0 if numbered else 0
                self.last = path if nominates(request, numbered) else self.last
                self.numbers[path] = max(number, self.numbers.get(path, 0))
                self.has_numbers |= number > 0
        self.numbers = {path: number for path, number in self.numbers.items() if c.after.on(path)}

    def favored(self, c: Called) -> list[ShownPair]:
        """Returns the pair that goes before all others (`favored`), if there is one."""
        pairs, settings = c.after.eligible(), c.after.settings
        if c.after.controlling or not settings.renomination:
            return []
        if self.has_numbers and c.after.is_modern:
            return sorted(pairs, key=lambda p: (max(1, self.numbers.get(p.path, 0)), p.is_selected, p.priority))[-1:]
        return ([p for p in pairs if p.path == self.last] or [p for p in pairs if p.is_selected])[:1] if self.last else []


def is_first_choice(c: Called, path: Path | None, asked: _Asked) -> bool:
    """Whether the path is that of an eligible pair with the greatest priority, or of the favored pair (`HasSelected`)."""
    pairs = c.after.eligible()
    tops = asked.favored(c) or [p for p in pairs if p.priority == max(q.priority for q in pairs)]
    return any(p.path == path for p in tops)


def paths_are_first_choice(record: Record) -> Found:
    """`PathsAreFirstChoice`: after an accepted success response, and after a `handle_timeout` that serves no early request, a pair is
    eligible; the path that was selected last is the first choice."""
    found, path = Found(), None
    asked, requests = _Asked(None, {}), dict[bytes, bytes]()
    for c in record.witness.calls:
        if request := accepted(c.entry, "request"):
            requests[message_of(request[1]).transaction] = request[1]
        asked.take(c, requests)
        path = next(reversed(c.selected), None if c.clears else path)
        if (c.evaluates or accepted(c.entry, "success")) and c.after.eligible():
            found.add(is_first_choice(c, path, asked), f"call {c.at}: the path that was selected last is not the first choice")
    return found


# ---- the state

def connected_have_path(record: Record) -> Found:
    """`ConnectedHavePath`: after each call the agent is connected exactly if the path that it selected last since the last clear is that of
    a valid and nominated pair (`IsAgreed`)."""
    found, path = Found(), None
    if not record.keeps_modern():
        return found
    for c in record.witness.calls:
        path = next(reversed(c.selected), None if c.clears else path)
        is_live = any(p.is_valid and p.is_nominated and p.path == path for p in c.after.pairs)
        what = "can" if is_live else "cannot"
        found.add(c.after.is_connected == is_live, f"call {c.at}: {c.after.state}, and the path selected last {what} be used")
    return found
