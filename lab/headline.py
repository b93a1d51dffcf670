"""Decides the clauses of docs/HEADLINE.md on what a program passed to agents and got from them, by the definitions of
crates/is_c_theorems/specs. Those of `Seen.antt`, `Headline.antt` and `TwoAgents.antt`, and consent, are decided here, the others in
`clauses/`."""

from __future__ import annotations

from collections import defaultdict
from collections.abc import Callable, Iterable, Mapping, Sequence
from dataclasses import dataclass, field

from is_ice.stun import StunMessage

from .clauses import along, bounded, deliveries, frugal, new_agents, settings_set, uses
from .clauses.found import Found, Records, other
from .clauses.seen import CLEARING
from .clock import SECOND
from .consent import timeout
from .figures import aligned
from .guarantees import Broken, Path
from .log import Entry, Log
from .pool import Fault, Portion
from .scenario import SIDES, Scenario
from .stun import message_of, nomination_of
from .witness import Record, accepted, gets, play, selected

CONSENT = timeout()  # since the last check that was answered was sent
PEER_CONSENT = 15 * SECOND  # since the last check of the peer arrived


# ---- one agent

def selected_are_answered(record: Record) -> Found:
    """`SelectedAreAnswered`: since pairs were last cleared, by a restart or by forming them again, the program passed a response on the
    reverse of the path, signed with the peer's password that it had set last, with the ID of a check of the path that it got since then."""
    found = Found()
    if not record.keeps_modern():
        return found
    checks, answers = defaultdict[Path, set[bytes]](set), defaultdict[Path, set[bytes]](set)
    password: bytes | None = None
    for at, e in record.entries:
        if e.call in CLEARING:
            checks.clear()
            answers.clear()
        if e.call == "ice_restart":
            password = None
        if e.call == "set_remote_credentials":
            password = e.given[0].pass_.encode()
        if check := gets(e, "request"):
            checks[check[0]].add(message_of(check[1]).transaction)
        if (answer := accepted(e, "success")) and password is not None and StunMessage(answer[1]).verify(password):
            answers[answer[0]].add(message_of(answer[1]).transaction)
        if path := selected(e):
            found.add(bool(checks[path] & answers[path]), f"call {at}: {path[0]} {path[1]} was not answered")
    return found


def selected_are_nominated_by_peer(record: Record) -> Found:
    """`SelectedAreNominatedByPeer`: the agent was controlled since the last restart, and since then the program passed a request that
    nominates the path, on its reverse."""
    found = Found()
    if not record.keeps_modern():
        return found
    nominated: set[Path] = set()
    for at, e in record.entries:
        if e.call == "ice_restart":
            nominated.clear()
        if request := accepted(e, "request"):
            path, contents = request
            if message_of(contents).use_candidate or nomination_of(contents):
                nominated.add(path)
        if (path_now := selected(e)) and record.stays_controlled(at):
            found.add(path_now in nominated, f"call {at}: {path_now[0]} {path_now[1]} was not nominated")
    return found


def unaccepted_change_nothing(record: Record) -> Found:
    """`UnacceptedChangeNothing`: a packet that is not accepted changes nothing that queries return, and OK is not returned."""
    found = Found()
    for number, stray in enumerate(record.witness.strays):
        found.add(not stray.is_ok and not stray.is_changed, f"packet {number} that is not accepted changed the agent, or got OK")
    return found


@dataclass
class _Heard:
    """When the last answered check was sent on each path, and when the peer's last check arrived, since the last restart."""

    sent: dict[bytes, int] = field(default_factory=dict)
    answered: dict[Path, int] = field(default_factory=dict)
    asked: dict[Path, int] = field(default_factory=dict)
    path: Path | None = None  # that was selected last

    def add(self, e: Entry) -> None:
        """Adds a call."""
        if e.call == "ice_restart":
            self.sent, self.answered, self.asked, self.path = {}, {}, {}, None
        self.path = selected(e) or self.path
        if check := gets(e, "request"):
            self.sent[message_of(check[1]).transaction] = e.time
        if (answer := accepted(e, "success")) and (sent := self.sent.get(message_of(answer[1]).transaction)) is not None:
            self.answered[answer[0]] = max(self.answered.get(answer[0], 0), sent)
        if request := accepted(e, "request"):
            self.asked[request[0]] = e.time

    def is_alive(self, now: int) -> bool:
        """Whether the path has consent at this time (`IsAliveBy`)."""
        if self.path is None or self.path not in self.answered:
            return False
        asked = self.asked.get(self.path)
        return now < self.answered[self.path] + CONSENT or asked is not None and now - asked < PEER_CONSENT


def connected_are_alive(record: Record) -> Found:
    """`ConnectedAreAlive`: after a `handle_timeout` that serves no early request the agent is connected; an answered check of the path
    selected last was sent less than the time of consent before, or a check of the peer arrived on it less than 15 s before."""
    found = Found()
    if not record.keeps_consent():
        return found
    heard = _Heard()
    due: tuple[int, int] | None = None  # its events are polled first
    for at, e in (*record.entries, (-1, Entry(0, "", "end"))):
        if due is not None and not e.call.startswith("poll_"):
            found.add(heard.is_alive(due[1]), f"call {due[0]}: connected without consent")
            due = None
        heard.add(e)
        if record.witness.connected.get(at):
            due = (at, e.time)
    return found


# ---- two agents

def made(records: Records) -> list[tuple[int, Entry]]:
    """Returns the calls on both, oldest first."""
    return sorted((x for record in records.values() for x in record.entries), key=lambda x: x[0])


def are_carried(records: Records) -> bool:
    """Each packet that an agent accepted was got from the other one before (`AreCarried`)."""
    gave: dict[str, set[bytes]] = {side: set() for side in SIDES}
    for _, e in made(records):
        if e.call == "poll_transmit":
            gave[e.side].add(e.returned.contents)
        if e.call == "handle_packet" and e.returned is True and e.given[3] not in gave[other(e.side)]:
            return False
    return True


def is_begun(records: Records) -> bool:
    """No message is forged (`AreCarried`), and random bytes are fresh (`HaveFreshIds`)."""
    ids = [e.given[1][:12] for _, e in made(records) if e.call == "handle_timeout"]
    return len(ids) == len(set(ids)) and are_carried(records)


def is_fair(records: Records) -> bool:
    """`IsFair`: so it is, tie-breakers differ, and roles are left."""
    differ = records["a"].tie_breaker != records["b"].tie_breaker
    return is_begun(records) and differ and all(record.keeps_role() for record in records.values())


def by_tie(records: Records) -> tuple[Record, Record]:
    """Returns the record with the greater tie-breaker, and the other one."""
    lesser, greater = sorted(records.values(), key=lambda record: record.tie_breaker)
    return greater, lesser


def greater_keeps_role(records: Records) -> Found:
    """`GreaterKeepsRole`: in each state it has the role in which it began."""
    found = Found()
    if is_fair(records):
        greater, _ = by_tie(records)
        found.add(all(role == greater.witness.began_controlling for _, role in greater.witness.roles), "the greater one switched")
    return found


def lesser_switches_once(records: Records) -> Found:
    """`LesserSwitchesOnce`: from when it has another role than that in which it began, it keeps that one."""
    found = Found()
    if is_fair(records):
        _, lesser = by_tie(records)
        first, roles = lesser.witness.began_controlling, [role for _, role in lesser.witness.roles]
        if (not first) in roles:
            found.add(first not in roles[roles.index(not first):], "the lesser one switched back")
    return found


def roles_stay_opposite(records: Records) -> Found:
    """`RolesStayOpposite`: from when the roles are different, they stay so."""
    found = Found()
    if not is_fair(records):
        return found
    now = {side: record.witness.began_controlling for side, record in records.items()}
    changes = sorted(((at, side, role) for side, record in records.items() for at, role in record.witness.roles), key=lambda x: x[0])
    were_opposite = now["a"] != now["b"]
    is_true = True
    for _, side, role in changes:
        now[side] = role
        is_true &= not were_opposite or now["a"] != now["b"]
        were_opposite |= now["a"] != now["b"]
    if were_opposite:
        found.add(is_true, "roles became equal again")
    return found


class _Traces:
    """Which paths of a side have what `SelectedAreTraced` names, after each call of both."""

    def __init__(self, side: str) -> None:
        self.side = side
        self.checks: dict[bytes, set[Path]] = {}  # `GivesCheck`, by the bytes
        self.taken = defaultdict[bytes, set[Path]](set)  # `TakesCheck`, by the ID
        self.answers = defaultdict[bytes, set[Path]](set)  # `GivesAnswer`, by the bytes
        self.traced: set[Path] = set()  # `TakesAnswer`

    def add(self, e: Entry) -> None:
        """Adds a call."""
        if e.side == self.side:
            if check := gets(e, "request"):
                self.checks.setdefault(check[1], set()).add(check[0])
            if (answer := accepted(e, "success")) and answer[0] in self.answers[answer[1]]:
                self.traced.add(answer[0])
            return
        if request := accepted(e, "request"):
            self.taken[message_of(request[1]).transaction] |= self.checks.get(request[1], set())
        if given := gets(e, "success"):
            self.answers[given[1]] |= self.taken[message_of(given[1]).transaction]


def selected_are_traced(records: Records) -> Found:
    """`SelectedAreTraced`: before a side selects a path, it gave a check of it, the other one took that and gave a response, and the side
    took the response on the reverse of the path, in this order."""
    found = Found()
    if not is_begun(records):
        return found
    for side in SIDES:
        if not records[side].keeps_modern():
            continue
        traces = _Traces(side)
        for at, e in made(records):
            traces.add(e)
            if e.side == side and (path := selected(e)):
                found.add(path in traces.traced, f"call {at}: {path[0]} {path[1]} was not traced")
    return found


# ---- sessions

ONE: dict[str, Callable[[Record], Found]] = {
    "NewAgentsAreFresh": new_agents.new_agents_are_fresh, "FollowedAreUses": uses.followed_are_uses,
    "UnacceptedChangeNothing": unaccepted_change_nothing, "SelectedAreAnswered": selected_are_answered,
    "SelectedAreNominatedByPeer": selected_are_nominated_by_peer, "SettingsAreThoseSet": settings_set.settings_are_those_set,
    "PathsAreAnswered": along.paths_are_answered, "PathsAreNominatedByPeer": along.paths_are_nominated_by_peer,
    "PathsAreFirstChoice": along.paths_are_first_choice, "EachQueuesOne": bounded.each_queues_one,
    "ConnectedAreAlive": connected_are_alive, "ConnectedHavePath": along.connected_have_path, "StaysBounded": bounded.stays_bounded,
    "ResponsesConnect": deliveries.responses_connect, "FrugalSecondsHaveFewChecks": frugal.frugal_seconds_have_few_checks}
LOGGED: dict[str, Callable[[Log], Found]] = {"SessionsAreRuns": uses.sessions_are_runs}
TWO: dict[str, Callable[[Records], Found]] = {
    "GreaterKeepsRole": greater_keeps_role, "LesserSwitchesOnce": lesser_switches_once, "RolesStayOpposite": roles_stay_opposite,
    "SelectedAreTraced": selected_are_traced}
DELIVERED: dict[str, Callable[[deliveries.Session], Found]] = {
    "DeliveredAreAccepted": deliveries.delivered_are_accepted, "NominatedConnect": deliveries.nominated_connect,
    "NominationsConnect": deliveries.nominations_connect, "BothBecomeConnected": deliveries.both_become_connected}
CLAUSES = (*ONE, *LOGGED, *TWO, *DELIVERED)
# The scenario in which both begin with one role, so that one switches: `LesserSwitchesOnce` speaks of such sessions.
CONFLICT = "role_conflict"
TITLE = "In how many percent of the sessions the preconditions of each theorem held, and in how many cases of them all"


def decide(records: Records) -> dict[str, Found]:
    """Decides each clause on a session; those of one agent on both sides."""
    found = {clause: Found() for clause in ONE}
    for clause, find in ONE.items():
        for one in map(find, records.values()):
            found[clause].held += one.held
            found[clause].faults += one.faults
    session, log = deliveries.Session(records), records["a"].log
    return (found | {clause: find_logged(log) for clause, find_logged in LOGGED.items()}
            | {clause: find_two(records) for clause, find_two in TWO.items()}
            | {clause: find_delivered(session) for clause, find_delivered in DELIVERED.items()})


def is_ordinary(scenario: Scenario) -> bool:
    """Whether both sides are full agents, one of them controlling, and always connect."""
    a, b = scenario.a, scenario.b
    return scenario.connects == "always" and not (a.lite or b.lite) and a.controlling != b.controlling


@dataclass(frozen=True)
class Decided:
    """A session, and in how many cases the preconditions of each clause held."""

    scenario: str
    seed: int
    held: dict[str, int]


@dataclass(frozen=True)
class Play:
    """Plays a portion of sessions, and decides the clauses on each. `settle_s`: how long they go on after the last selection at least."""

    settle_s: float = 0

    def __call__(self, portion: Portion) -> list[Decided] | Fault:
        """Returns what was found, up to the first fault."""
        scenario, seeds = portion
        decided = []
        for seed in seeds:
            try:
                found = decide(play(scenario, seed, self.settle_s))
            except Broken as broken:
                return Fault(scenario.name, seed, str(broken))
            if faults := [f"{clause}: {fault}" for clause, one in found.items() for fault in one.faults]:
                return Fault(scenario.name, seed, faults[0])
            decided.append(Decided(scenario.name, seed, {clause: one.held for clause, one in found.items()}))
        return decided


def groups_of(scenarios: Sequence[Scenario]) -> dict[str, list[str]]:
    """Returns the columns of the table, each with its scenarios: the ordinary sessions, and any other scenario."""
    ordinary = [s.name for s in scenarios if is_ordinary(s)]
    return ({"ordinary": ordinary} if ordinary else {}) | {s.name: [s.name] for s in scenarios if not is_ordinary(s)}


def table(groups: Mapping[str, Sequence[str]], decided: Iterable[Decided]) -> str:
    """Returns a table: of how many percent of the sessions of each group the preconditions of each clause held, and in how many cases of
    all sessions together. Its first row has the number of sessions."""
    sessions = list(decided)
    own = {group: [d for d in sessions if d.scenario in names] for group, names in groups.items()}

    def row(clause: str) -> list[str]:
        shares = (f"{100 * sum(d.held[clause] > 0 for d in found) / max(len(found), 1):.1f}" for found in own.values())
        return [f"`{clause}`", *shares, str(sum(d.held[clause] for d in sessions))]

    head = ["theorem", *(f"{group} %" for group in groups), "cases"]
    return aligned([head, ["sessions", *(str(len(found)) for found in own.values()), str(len(sessions))], *map(row, CLAUSES)])
