"""A small model of one agent. It reads no integrity: the log says what was accepted.

Each step takes an agent and returns the next one, with the packet that it issues and the paths that it selects."""

from __future__ import annotations

from collections.abc import Callable
from dataclasses import dataclass, replace

from is_ice import SocketAddress
from is_ice.stun import StunMessage

from .candidates import CHARGE, LEAST_ADVANCE, Candidates, put
from .clock import SECOND
from .kinds import is_brought, kind_of, turn_of
from .numbers import LAST_NUMBER, as_taken
from .pairs import Pair, Path, Place
from .requests import Request, request_of
from .states import has_nominated, has_possible, next_state
from .stun import message_of

# How many early requests an agent stores.
QUEUE_LIMIT = 100


@dataclass(frozen=True)
class Issued:
    """A packet that a call issues: a request, a success or a failure."""

    kind: str
    path: Path
    id: bytes


Result = tuple["Agent", "Issued | None", tuple[Path, ...]]


@dataclass(frozen=True)
class Agent(Candidates):
    """An agent, and the deadline that the library keeps for it."""

    deadline: int | None = None

    # ---- nomination

    def _changed(self, number: int, change: Callable[[Pair], Pair]) -> Agent:
        return replace(self, pairs=tuple(change(p) if p.number == number else p for p in self.pairs))

    def _nominate(self) -> tuple[Agent, tuple[Path, ...]]:
        top = self.chosen()
        if top is None or self.remains(top):
            return self, ()
        new = replace(self, selected=top.number, nominations=min(self.nominations + 1, LAST_NUMBER), nomination_due=True)
        if not top.is_nominated and (self.controlling or self.lite):
            new = new._changed(top.number, lambda p: replace(p, nomination="success" if self.lite else "nominated"))
        return new, (self.path(top),)

    def _evaluated(self, now: int) -> Agent:
        """Returns it with its connection state evaluated."""
        is_possible = has_possible(self.local, self.remote, self.pairs, now, self.timing)
        return replace(self, state=next_state(self.state, has_nominated(self.pairs), is_possible, self.lite))

    def _settled(self, now: int) -> Agent:
        """Returns it after nomination: with `Modern` its state is evaluated."""
        return self._evaluated(now) if self.settles else self

    def reselected(self, old: Agent) -> tuple[Agent, tuple[Path, ...]]:
        """Returns it after a call that added or invalidated a candidate of `old`, with the paths that the call selects: with `Modern`, if
        the selected pair is gone, nomination is evaluated, and the state as of the last `handle_timeout`."""
        if not (old.settles and old.has_selected and not self.has_selected):
            return self, ()
        new, told = self._nominate()
        return new._evaluated(old.last or 0), told

    # ---- serving a request

    def _serve(self, q: Request) -> Result:
        at = next((i for i, c in enumerate(self.local) if c.is_direct and c.address == q.local and not c.is_discarded), None)
        if at is None:
            at = next((i for i, c in enumerate(self.local) if c.is_direct and c.address == q.local), None)
        if self.peer is None or q.ufrag != self.peer.ufrag or at is None:
            return self, None, ()
        rival = q.controlling if self.controlling else q.controlled
        if rival is not None and (self.keeps_role or rival <= self.tie_breaker):
            return self, Issued("failure", (q.local, q.source), q.id), ()
        new = self if rival is None else self.switched()
        return (new, None, ()) if new.controlling and q.use_candidate else new._serve_at(q, at)

    def switched(self) -> Agent:
        """Switches the role, and computes all priorities again."""
        new = replace(self, controlling=not self.controlling)
        return replace(new, pairs=tuple(replace(p, priority=new.priority_between(p.local, p.remote)) for p in self.pairs))

    def _serve_at(self, q: Request, local: int) -> Result:
        remote = self._place_of(q.source)
        if remote is None:
            return self, None, ()
        new = self
        if remote == len(self.remote) or self.remote[remote].address != q.source:
            removed = tuple(r for r in self.removed if r.pair.remote != remote)  # their candidate is no longer there
            places = put(self.remote, remote, Place("prflx", q.source, q.source, q.priority, is_found=True))
            new = replace(self, remote=places, removed=removed)
        pair = next((p for p in new.pairs if (p.local, p.remote) == (local, remote)), None)
        if pair is None:
            if new.local[local].is_discarded:
                return new, None, ()
            pair = Pair(new.next_number, local, remote, new.priority_between(local, remote))
            new = replace(new, pairs=(*new.pairs, pair), next_number=new.next_number + 1)
        was_valid, taken = pair.is_valid, as_taken(q, new.numbers)
        if not new.controlling and taken.use_candidate:
            new = replace(new, last_nominated=pair.number, numbers_seen=new.numbers_seen or bool(taken.nomination))
        new = new._changed(pair.number, lambda p: self._served(new, p, taken))
        selects = new.controlling or new.modern
        new, told = new._nominate() if selects and was_valid else (new, ())
        new = new._settled(self.triggered_time(q)) if told else new
        return new, Issued("success", (new.local[local].base, q.source), q.id), told

    def triggered_time(self, q: Request) -> int:
        """Returns when a request triggers a check: at once, and not before the last `handle_timeout`."""
        return max(q.time, self.last or 0)

    def _place_of(self, source: SocketAddress) -> int | None:
        """Returns the index of a request's sender among the remote candidates, or the one that it gets; None if it gets none."""
        live = [i for i, c in enumerate(self.remote) if c.address == source and not c.is_discarded]
        if live:
            return max(live, key=lambda i: self.remote[i].priority)
        if any(c.address == source for c in self.remote):
            return None
        return len(self.remote) if self.is_below(sum(c.is_found for c in self.remote)) else self.vacant_place()

    @staticmethod
    def _served(agent: Agent, pair: Pair, q: Request) -> Pair:
        new = (pair.triggered(agent.triggered_time(q)) if agent.modern else pair).asked(q.time)
        state = "succeeded" if agent.lite and not agent.controlling else pair.state
        asks = not agent.controlling and q.use_candidate and not pair.is_nominated
        nomination = ("success" if agent.lite else "nominated") if asks else pair.nomination
        greatest = pair.greatest if agent.controlling else max(pair.greatest, q.nomination or 0)
        return replace(new, state=state, nomination=nomination, greatest=greatest)

    # ---- packets

    def packet(self, now: int, source: SocketAddress, local: SocketAddress, contents: bytes) -> Result:
        """Takes an accepted packet, and reports its source if it is new."""
        new, issued, told = self._taken(now, source, local, contents)
        is_dropped = message_of(contents).kind == "request" and new.peer is not None and issued is None
        waiting = len(told) + (new.state is not self.state)  # endpoints poll all events after each call
        passes_over = source in new.sources or not new.is_below(waiting) or (new.modern and is_dropped)
        return new if passes_over else new._discovered(source), issued, told

    def _discovered(self, source: SocketAddress) -> Agent:
        sources = (*self.sources, source)
        return replace(self, sources=sources if self.max_discovered is None else sources[-self.max_discovered:])

    def discovered_since(self, old: Agent) -> SocketAddress | None:
        """Returns the source that was reported, if the agent was `old` before the packet."""
        return None if self.sources == old.sources else self.sources[-1]

    def _taken(self, now: int, source: SocketAddress, local: SocketAddress, contents: bytes) -> Result:
        message = message_of(contents)
        if message.kind == "request":
            q = request_of(now, source, local, contents)
            if self.peer is None:
                return replace(self, queue=(*self.queue, q)[-QUEUE_LIMIT:]), None, ()
            return self._serve(q)
        pair = next((p for p in self.pairs if self.path(p) == (local, source) and any(c.id == message.transaction for c in p.checks)), None)
        if pair is None:
            return self, None, ()
        if message.kind == "failure":
            sent = next(c for c in pair.checks if c.id == message.transaction)
            is_rejected = message.code == 487 and sent.controlling == self.controlling and not self.keeps_role
            noted = self._changed(pair.number, lambda p: replace(p, error=message.code or p.error))
            return (noted.switched() if is_rejected else noted), None, ()
        new = self._mapped(pair, contents)._changed(pair.number, lambda p: p.answered(now, message.transaction))
        chosen, told = new.formed_again()._nominate()
        return chosen._evaluated(now), None, told

    def _mapped(self, pair: Pair, contents: bytes) -> Agent:
        mapped, brought = StunMessage(contents).mapped_address, sum(c.kind == "prflx" for c in self.local)
        if mapped is None or any(c.address == mapped for c in self.local) or not self.is_below(brought):
            return self
        own = self.local[pair.local]
        return replace(self, local=(*self.local, Place("prflx", mapped, own.base, own.check_priority)))

    # ---- timeouts

    def timeout(self, now: int, id: bytes, seen: Path | None = None) -> Result:
        """Takes a `handle_timeout`. `seen` is the path of the check that was sent, which decides between equal pairs."""
        begun = self if self.settles else self._evaluated(now)
        if self.peer is not None and (queue := self._current(now)) != ():
            last = now if self.modern and self.last is None else self.last
            return replace(begun, queue=queue[1:], last=last)._serve(queue[0])
        start = replace(begun, last=now, queue=self._current(now) if self.peer is not None else self.queue)
        new, first = start.path_left(now)._nominate()
        kept = new.without_expired(now)
        second: tuple[Path, ...] = ()
        if kept is not new:
            new, second = kept._nominate()
            new = new._evaluated(now)
        else:
            new = new._settled(now)
        new, issued = new._check(now, id, seen)
        return new, issued, first + second

    def _check(self, now: int, id: bytes, seen: Path | None) -> tuple[Agent, Issued | None]:
        if self.peer is None:
            return self, None
        if self.lite:
            return replace(self, pairs=tuple(p if p.last_request is not None else p.asked(now) for p in self.pairs)), None
        new = replace(self, pairs=tuple(p.fixed(now, self.timing) for p in self.pairs))
        is_ahead = new.is_ahead_turn(now)
        first = new._first_to_check(now, is_ahead)
        if not first:
            return new, None
        pair = next((p for p in first if new.path(p) == seen), first[0])
        begun = new._changed(pair.number, Pair.renominated) if new.nominates_at_once else new
        checked = begun._changed(pair.number, lambda p: p.checked(now, self.timing, self.controlling, id))
        following = kind_of(self.local, self.remote, pair) + 1 if is_ahead else self.next_kind
        due = self.nomination_due and pair.number != self.selected
        charged = max(now, self.charged_until) + CHARGE
        after = replace(checked, ahead_turn=not is_ahead, next_kind=following, charged_until=charged, nomination_due=due)
        return after, Issued("request", new.path(pair), id)

    def _first_to_check(self, now: int, is_ahead: bool) -> list[Pair]:
        """Returns the pairs of which one is checked: the selected one, if its nomination is to be sent, else those that come first."""
        if self.nominates_at_once:
            return [p for p in self.pairs if p.number == self.selected]
        along = self.asked_along(now) if is_ahead else []
        if along:
            return along
        order = {p.number: self.place_in_order(p, now, is_ahead) for p in self.pairs if p.due_at(now, self.timing) <= now}
        return [p for p in self.pairs if order.get(p.number) == min(order.values())] if order else []

    def place_in_order(self, pair: Pair, now: int, is_ahead: bool) -> tuple[int, int, int]:
        """Returns what decides which of the due pairs is checked: if the check goes ahead its turn, then its due time and its priority."""
        return self._turn_of(pair) if is_ahead else 0, pair.due_at(now, self.timing), -pair.priority

    def _turn_of(self, pair: Pair) -> int:
        """Returns the turn of a pair: the selected one comes before urgent ones, these come before all kinds, and of them the ones that a
        request brought come last."""
        if self.modern and pair.number == self.selected:
            return 0
        if self.modern and pair.is_urgent:
            return 2 if is_brought(self.remote, pair) else 1
        return 3 + turn_of(self.next_kind, kind_of(self.local, self.remote, pair))

    def next_call(self) -> int | None:
        """Returns when `handle_timeout` has something to do next: never while the peer is unknown."""
        if self.peer is None or self.last is None:
            return None
        soon = self.last + self.pacing(self.last)
        if self.queue or self.is_pressing:
            return soon
        if self.lite or not self.pairs:
            return self.last + 3 * SECOND
        return max(min(p.fixed(self.last, self.timing).wake_at(self.last, self.timing) for p in self.pairs), soon)

    def fixed_after(self, soon: bool) -> Agent:
        """Returns it after what follows a call of the library with `Modern`: due times are fixed, and the deadline is moved."""
        if not self.modern:
            return self
        at = self.next_call()
        if at is not None and self.last is not None and soon and self.has_credit(self.last):
            at = min(at, self.last + LEAST_ADVANCE)
        if at is not None and self.deadline is not None and not self.is_settled:
            at = min(at, self.deadline)
        return replace(self.poll_timeout(True)[0], deadline=at)

    def poll_timeout(self, is_waiting: bool) -> tuple[Agent, int | None]:
        """Returns when `handle_timeout` is due, and fixes due times. `is_waiting`: a packet waits to be polled."""
        if self.last is None:
            return self, None
        soon = self.last + self.pacing(self.last)
        new = replace(self, pairs=tuple(p.fixed(self.last, self.timing) for p in self.pairs))
        if is_waiting or self.queue or self.is_pressing:
            return new if self.modern else self, soon
        if self.lite or not self.pairs:
            return self, self.last + 3 * SECOND
        return new, max(min(p.wake_at(self.last, self.timing) for p in new.pairs), soon)
