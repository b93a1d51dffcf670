"""The candidates, pairs and checks of an agent as values, and the rules of one pair: when it is due, and when it fails."""

from __future__ import annotations

from dataclasses import dataclass, replace

from is_ice import Settings, SocketAddress

from .clock import MILLISECOND, SECOND

# The numbers of the library's settings: what a new agent of the model has.
ORIGINAL = Settings.original()

# How many early retransmissions there are, the delay before each, and the longest delay after them.
EARLY_RETRANSMITS = 2
EARLY_INTERVAL = 100 * MILLISECOND
EARLY_CAP = 350 * MILLISECOND

# How long checks without a response are repeated early at most, also on a pair whose first check followed a request, and how long a pair
# is at its beginning after its first check.
EARLY_TIME = 2150 * MILLISECOND
ASKED_TIME = 1200 * MILLISECOND
BEGINNING = 500 * MILLISECOND

# How much later than the one before a response may come, or sooner, how long a silent nominated pair is checked quickly, after the longest
# RTO since its last answered check, how often at most, and how often after that.
LATENESS = 30 * MILLISECOND
HUSHED_TIME = 4500 * MILLISECOND
SHORT_INTERVAL = 70 * MILLISECOND
HUSHED_INTERVAL = 500 * MILLISECOND
# A nominated pair comes before others while fewer checks than that have no response.
URGENT_CHECKS = 8

# How long a silent pair is kept at least, after the longest RTO since its last answered check, and how much longer if many checks were lost
# before.
LEAST_SILENCE = 850 * MILLISECOND
LOSSY_TIME = 2200 * MILLISECOND
# So soon after the peer's check of the pair that it nominates the selected one is checked, or so soon before.
CHOICE_TIME = 200 * MILLISECOND
# The greatest number of lost checks that a pair stores.
MOST_LOST = (1 << 32) - 1

# How many checks of a silent pair follow the answered check of another one, at which the silent one is left.
FOLLOWING = 4

# From the source to the destination, as the agent that sends on it sees them.
Path = tuple[SocketAddress, SocketAddress]


def reversed_path(path: Path) -> Path:
    """Returns the path back."""
    return path[1], path[0]


def early_delay(count: int) -> int:
    """Returns the delay after the last of `count` checks that are repeated early, with the profile `Modern`: after the early
    retransmissions it doubles up to the cap."""
    doubled: int = EARLY_INTERVAL * 2 ** max(0, count - EARLY_RETRANSMITS)
    return min(doubled, EARLY_CAP)


@dataclass(frozen=True)
class Consent:
    """How long the response to a check keeps a pair, in nanoseconds after the check was sent. Unless it is strict, the peer's checks keep
    the pair too."""

    timeout: int
    strict: bool = False


@dataclass(frozen=True)
class Timing:
    """The settings of retransmission, and the profile. Durations are nanoseconds. `limit`: how long a response keeps a pair, if it is set;
    `strict`: the peer's checks keep none."""

    initial: int = ORIGINAL.initial_rto
    greatest: int = ORIGINAL.max_rto
    retransmits: int = ORIGINAL.max_retransmits
    lite: int = ORIGINAL.lite_timeout
    modern: bool = False
    limit: int | None = None
    strict: bool = False

    def delay(self, count: int) -> int:
        """Returns the delay after the last of `count` checks, in whole milliseconds: it doubles up to a bound."""
        if count == 0:
            return 0
        doubled: int = self.initial // MILLISECOND * 2 ** min(count - 1, self.retransmits)
        return min(doubled, self.greatest // MILLISECOND) * MILLISECOND

    def timeout(self) -> int:
        """Returns how long a full series of checks without a response takes."""
        return sum(self.delay(n) for n in range(2, self.retransmits + 1)) + self.delay(self.retransmits)

    @property
    def consent(self) -> Consent | None:
        """How long a response keeps a pair: with the profile `Original` until enough checks have none (`consent_of`)."""
        return Consent(self.greatest + self.timeout() if self.limit is None else self.limit, self.strict) if self.modern else None


@dataclass(frozen=True)
class Place:
    """A candidate at its index. `is_found` marks a remote candidate that a request added."""

    kind: str
    address: SocketAddress
    base: SocketAddress
    priority: int
    related: object = None
    is_discarded: bool = False
    is_found: bool = False

    @property
    def is_direct(self) -> bool:
        """Whether packets are received at its own address."""
        return self.kind in ("host", "relay")

    @property
    def check_priority(self) -> int:
        """The PRIORITY of a check from it: that of a peer-reflexive candidate."""
        return self.priority if self.kind == "prflx" else (110 << 24) + self.priority % (1 << 24)

    def is_same_place(self, other: Place) -> bool:
        """Whether both have the same address and base."""
        return self.address == other.address and self.base == other.base

    def is_same_origin(self, other: Place) -> bool:
        """Whether both are of the same kind and have the same related address."""
        return self.kind == other.kind and self.related == other.related


@dataclass(frozen=True)
class Check:
    """A check that was sent."""

    id: bytes
    sent: int
    nominated: bool
    controlling: bool
    answered: int | None = None


def unanswered(checks: tuple[Check, ...]) -> int:
    """Returns how many checks follow the last answered one."""
    for count, check in enumerate(reversed(checks)):
        if check.answered is not None:
            return count
    return len(checks)


@dataclass(frozen=True)
class Pair:
    """A pair. `nomination` is none, nominated, attempt or success; `state` is waiting, progress or succeeded. `sent`, `requests` and
    `answers` count checks, checks of the peer, and responses. `first_sent` is when its first check was sent, `first_after_request` when
    the first one after a request of the peer was, `consented` when the last check that got a response was, `lost` how many checks had
    none yet when a later one had its first, `greatest` the greatest number by which the peer nominated it, and `error` the code of the
    last error response."""

    number: int
    local: int
    remote: int
    priority: int
    checks: tuple[Check, ...] = ()
    nomination: str = "none"
    state: str = "waiting"
    last_request: int | None = None
    due: int | None = None
    sent: int = 0
    first_sent: int | None = None
    first_after_request: int | None = None
    requests: int = 0
    answers: int = 0
    consented: int | None = None
    lost: int = 0
    greatest: int = 0
    error: int | None = None

    @property
    def is_valid(self) -> bool:
        """Whether a check of it succeeded."""
        return self.state == "succeeded"

    @property
    def is_nominated(self) -> bool:
        """Whether it is nominated."""
        return self.nomination != "none"

    @property
    def is_nominating(self) -> bool:
        """Whether it is nominated, and no response arrived to a check that nominates it."""
        return self.nomination in ("nominated", "attempt")

    @property
    def silent_count(self) -> int:
        """How many checks have no response: all, as long as there was none."""
        return self.sent if self.answers == 0 else unanswered(self.checks)

    @property
    def is_urgent(self) -> bool:
        """Whether it may be checked before pairs that are due earlier: the peer waits for it to become valid, or it is nominating, and few
        checks have no response."""
        is_few = self.nomination == "nominated" or unanswered(self.checks) < URGENT_CHECKS
        return (self.requests > 0 and not self.is_valid) or (self.is_nominating and is_few)

    @property
    def last_sent(self) -> int:
        """When its last check was sent, or 0."""
        return self.checks[-1].sent if self.checks else 0

    # ---- when it is due

    def due_at(self, now: int, timing: Timing) -> int:
        """Returns its due time: the fixed one, or the one that is computed now."""
        if self.due is not None:
            return self.due
        if self.nomination == "nominated":
            wanted = now if now < 60 * SECOND else now - 60 * SECOND
        else:
            wanted = self._next(now, timing)
        return min(wanted, now + timing.greatest)

    def _next(self, now: int, timing: Timing) -> int:
        if not self.checks:
            return now
        return self.checks[-1].sent + self._delay(now, timing)

    def _delay(self, now: int, timing: Timing) -> int:
        if not timing.modern:
            return self._usual_delay(now, timing)
        repeated = early_delay(self.silent_count) if self.is_repeated_early(now, timing) else self._usual_delay(now, timing)
        return min(self._hushed_delay(now, timing), repeated) if self.is_hushed else repeated

    @property
    def is_hushed(self) -> bool:
        """Whether it is valid and nominated, and has checks without a response."""
        return self.is_valid and self.is_nominated and unanswered(self.checks) > 0

    def _hushed_delay(self, now: int, timing: Timing) -> int:
        trip = next((c.answered - c.sent for c in reversed(self.checks) if c.answered is not None), 0)
        is_quick = self.may_repeat(timing) or (self.consented is not None and now < self.consented + timing.greatest + HUSHED_TIME)
        wait = trip + LATENESS if unanswered(self.checks) == 1 else trip - LATENESS
        return max(SHORT_INTERVAL if is_quick else HUSHED_INTERVAL, wait)

    def _usual_delay(self, now: int, timing: Timing) -> int:
        silent = unanswered(self.checks)
        first = len(self.checks) - silent
        is_silent = first < len(self.checks) and timing.greatest < 2 * (now - self.checks[first].sent)
        return timing.delay(silent if is_silent else len(self.checks))

    def is_repeated_early(self, now: int, timing: Timing) -> bool:
        """Whether its checks are repeated early: for some time while no response arrived on it; and those that nominate a pair with a
        response, until `max_retransmits` checks have none."""
        return self.is_early_on(now, timing) if self.answers == 0 else self.is_nominating and self.may_repeat(timing)

    def is_early_on(self, now: int, timing: Timing) -> bool:
        """Whether less than that has passed since its first check, or since the first one after a request of the peer."""
        span = min(ASKED_TIME if self.is_asked_first else EARLY_TIME, timing.timeout())
        return any(since is not None and now < since + span for since in (self.first_sent, self.first_after_request))

    @property
    def is_asked_first(self) -> bool:
        """Whether its first check followed a request of the peer: so it is with each pair that a request brings."""
        return self.first_sent is not None and self.first_sent == self.first_after_request

    def is_beginning(self, now: int) -> bool:
        """Whether its first check was sent less than half a second ago, or is still to be sent."""
        return self.first_sent is None or now < self.first_sent + BEGINNING

    def fixed(self, now: int, timing: Timing) -> Pair:
        """Fixes its due time."""
        return self if self.due is not None else replace(self, due=self.due_at(now, timing))

    # ---- when it fails

    def stays(self, now: int, timing: Timing, lite: bool) -> bool:
        """Whether its consent has not expired; for a lite agent, whether the peer's checks go on."""
        if lite:
            return self.last_request is None or now - self.last_request < timing.lite
        return self.has_consent(now, timing.consent) and self.is_possible(now, timing)

    def is_possible(self, now: int, timing: Timing) -> bool:
        """Whether the path may still work: checks are left, or the deadline of the pair has not come."""
        return self.may_repeat(timing) or now < self.possible_until(timing)

    def possible_until(self, timing: Timing) -> int:
        """Returns how long it is kept if no checks are left: as long as the peer's last check keeps it, a response to its last check may
        come, or a whole series of checks takes."""
        return max(self.request_end, self.response_end(timing), self.series_end(timing))

    @property
    def request_end(self) -> int:
        """How long the peer's last check keeps it."""
        return 0 if self.last_request is None else self.last_request + 15 * SECOND

    def response_end(self, timing: Timing) -> int:
        """Returns how long a response to its last check may come."""
        return self.checks[-1].sent + timing.delay(timing.retransmits) if self.checks else 0

    def series_end(self, timing: Timing) -> int:
        """Returns how long a whole series of checks takes with `Modern`, which repeats checks early: so their time counts, too."""
        start = self.series_start if timing.modern else None
        return 0 if start is None else start + timing.timeout()

    @property
    def series_start(self) -> int | None:
        """When its checks without a response began: with its first check if there was no response, unless that check followed a request;
        otherwise with the first one without."""
        if self.answers == 0:
            return None if self.is_asked_first else self.first_sent
        silent = unanswered(self.checks)
        return self.checks[-silent].sent if silent else None

    def is_heard(self, now: int) -> bool:
        """Whether a check of the peer arrived less than 15 s ago."""
        return now < self.request_end

    def has_consent(self, now: int, consent: Consent | None) -> bool:
        """Whether consent to send on it has not ended (RFC 7675): without a response it never does."""
        return self.stays_answered(now, consent) or (consent is not None and not consent.strict and self.is_heard(now))

    def stays_answered(self, now: int, consent: Consent | None) -> bool:
        """Whether its last check that got a response was sent recently enough; without one, or with `Original`, it counts as such."""
        return consent is None or self.consented is None or now < self.consented + consent.timeout

    def wake_at(self, now: int, timing: Timing) -> int:
        """Returns when it needs a `handle_timeout`: when it is due, or when consent ends if nothing arrives."""
        due, consent = self.due_at(now, timing), timing.consent
        if consent is None or self.consented is None:
            return due
        return min(due, max(self.consented + consent.timeout, 0 if consent.strict else self.request_end))

    def may_repeat(self, timing: Timing) -> bool:
        """Whether fewer than `max_retransmits` checks follow its last answered one."""
        return unanswered(self.checks) < timing.retransmits

    # ---- its silence

    def is_long_silent(self, now: int, timing: Timing) -> bool:
        """Whether its last check that had a response was sent long ago (`is_long_silent`)."""
        return self.consented is None or self.consented + timing.greatest + LEAST_SILENCE <= now

    @property
    def is_lossy(self) -> bool:
        """Whether more than a third of its checks were lost (`is_lossy`)."""
        return self.answers < 2 * self.lost

    def is_silent_enough(self, now: int, timing: Timing) -> bool:
        """Whether it was silent for long, for longer if it is lossy (`is_silent_enough`)."""
        return self.is_long_silent(now - LOSSY_TIME if self.is_lossy else now, timing)

    def is_choice_at(self, first: int) -> bool:
        """Whether the peer checked it at about this time (`is_choice_at`)."""
        return self.last_request is not None and abs(first - self.last_request) < CHOICE_TIME

    def silence(self) -> tuple[int, int] | None:
        """Returns the time from its first check without a response to the first of its last four (`silence_of`)."""
        silent = unanswered(self.checks)
        return (self.checks[-silent].sent, self.checks[-FOLLOWING:][0].sent) if silent else None

    def silence_until(self, now: int) -> tuple[int, int] | None:
        """Returns the time from the first of its last four checks that have no response until now (`silence_until`)."""
        late = min(FOLLOWING, unanswered(self.checks))
        return (self.checks[-late].sent, now) if late else None

    def outlives(self, silence: tuple[int, int]) -> bool:
        """Whether a check of it that was sent in this time had a response in it."""
        return any(c.answered is not None and c.answered < silence[1] and silence[0] < c.sent < silence[1] for c in self.checks)

    # ---- what happens to it

    def renominated(self) -> Pair:
        """Returns it with its nomination begun again, if it is nominated."""
        return replace(self, nomination="nominated") if self.is_nominated else self

    def checked(self, now: int, timing: Timing, controlling: bool, id: bytes) -> Pair:
        """Returns it after a check: only the last ones are stored."""
        checks = (*self.checks, Check(id, now, self.is_nominated, controlling))[-timing.retransmits:]
        nomination = "attempt" if self.nomination == "nominated" else self.nomination
        state = "progress" if self.state == "waiting" else self.state
        first = now if self.first_sent is None else self.first_sent
        again = self.first_after_request
        if self.requests > 0 and again is None:
            again = now
        sent = replace(self, checks=checks, due=None, sent=self.sent + 1, first_sent=first, first_after_request=again)
        return replace(sent, nomination=nomination, state=state)

    def answered(self, now: int, id: bytes) -> Pair:
        """Returns it after a success response to the check."""
        at = next(i for i, c in enumerate(self.checks) if c.id == id)
        check = replace(self.checks[at], answered=now)
        done = check.nominated and self.nomination == "attempt"
        passed = 0 if self.answers == 0 else max(unanswered(self.checks) - (len(self.checks) - at), 0)
        return replace(self, checks=(*self.checks[:at], check, *self.checks[at + 1:]), due=None, answers=self.answers + 1,
                       consented=_later(check.sent, self.consented), lost=min(self.lost + passed, MOST_LOST),
                       nomination="success" if done else self.nomination, state="succeeded" if self.state == "progress" else self.state)

    def asked(self, now: int) -> Pair:
        """Returns it after a check of the peer."""
        return replace(self, requests=self.requests + 1, last_request=now)

    def triggered(self, at: int) -> Pair:
        """Returns it after the first request on it, unless it is valid: a due time that is fixed is at most `at`."""
        return self if self.is_valid or self.requests > 0 else self.moved_up(at)

    def moved_up(self, at: int) -> Pair:
        """Returns it with a due time of at most `at`, if one is fixed."""
        return self if self.due is None else replace(self, due=min(at, self.due))

    def taking_over(self, other: Pair, lite: bool) -> Pair:
        """Returns it with what it copies from the pair that it replaces."""
        nomination = {"none": self.nomination, "attempt": "nominated"}.get(other.nomination, other.nomination)
        state, consented = "succeeded" if other.is_valid else self.state, _later(other.consented, self.consented)
        new = replace(self, nomination=nomination, state=state, consented=consented, greatest=max(other.greatest, self.greatest))
        return replace(new, requests=other.requests, last_request=other.last_request) if lite else new


def _later(one: int | None, other: int | None) -> int | None:
    """Returns the later of two times, if there is one."""
    return max((time for time in (one, other) if time is not None), default=None)


def pair_priority(controlling: int, controlled: int) -> int:
    """Returns the priority of a pair of two candidate priorities (RFC 8445, section 6.1.2.3)."""
    return (min(controlling, controlled) << 32) + 2 * max(controlling, controlled) + (controlling > controlled)
