"""The table of cases: which stacks, in which network, how many sessions, and how many of them are expected to connect."""
import itertools
from dataclasses import dataclass, replace

import networks
import servers

ING, ED = "controlling", "controlled"
ONE, ONE_IPV6 = ("-a", "127.0.0.1"), ("-a", "fd00::1")
MANY = tuple(word for address in networks.LOOPBACK_ADDRESSES for word in ("-a", address.split("/")[0]))
GREATEST = str(2**64 - 1)


@dataclass(frozen=True)
class Case:
    """Sessions of one kind between two stacks, of which the first is ours if one is."""

    network: tuple  # its kind and settings
    stacks: tuple
    title: str
    words: tuple = ((), ())  # the options of both programs
    roles: tuple | None = None  # of both; None: they alternate
    restarts: str | None = None  # "a" or "b": who restarts
    trickles: str | None = None  # "a" or "b": whose candidates are passed on one by one after its signal
    relay: tuple = (False, False)  # who uses the TURN server
    relays_only: bool = False  # only relayed candidates are passed on to the other side
    sessions: int = 4
    quick: int = 1  # sessions in a quick run; 0: left out
    at_least: float = 1.0  # the part of the sessions that has to connect
    none: bool = False  # none may connect
    seconds: float = 20  # to connect
    why: str = ""  # why it is not that all connect
    same_path: bool = True  # whether both have to select the same path
    chat: bool = True  # whether both have to be heard

    def expected(self, sessions):
        """The least and the greatest number of sessions that connect."""
        return (0, 0) if self.none else (int(sessions * self.at_least), sessions)

    def roles_of(self, number):
        """The roles in a session."""
        return self.roles or ((ING, ED), (ED, ING))[number % 2]

    def relay_options(self):
        """The options for the TURN server, of both."""
        at, (user, password) = f"{servers.ADDRESS}:{servers.PORT}", servers.USER.split(":")
        of_peer, of_others = ("-s", f"turn:{at}", "-u", user, "-k", password), ("-u", at, "-U", servers.USER)
        return [(of_peer if name == "peer" else of_others) if uses else () for name, uses in zip(self.stacks, self.relay)]

    def network_name(self):
        """The network for people."""
        names = {"loopback": "loopback", "hosts": "two hosts", "wire": "lossy wire"}
        return names.get(self.network[0]) or f"{self.network[1]} - {self.network[2]}" + ", far" * (self.network[0] == "far")

    def server(self):
        """The STUN server of a network with NATs."""
        return self.network[3] if len(self.network) > 3 else "coturn"

    def is_for_everybody(self):
        """Whether the case needs neither root nor namespaces."""
        return self.network == LOOPBACK and self.words and all(set(words) <= {*ONE, "-L", "-t", "0", GREATEST} for words in self.words)


LOOPBACK = ("loopback",)
HOSTS = ("hosts",)
LOSSY, FAR = ("wire", 0.3, 0.2, 0.1), ("wire", 0.1, 0.0, 0.0, 0.1)
SERVERS = ("rtpengine", "janus")


def nat(a, b, *server):
    return ("nat", a, b, *server)


# ---- loopback

def roles_over_loopback(a, b):
    """The roles, with one address, with IPv6 and with five addresses."""
    for title, words in (("one address", ONE), ("IPv6", ONE_IPV6), ("five addresses", MANY)):
        yield Case(LOOPBACK, (a, b), f"{title}, ours controls", (words, words), (ING, ED), quick=int(words != ONE_IPV6))
        # A controlling aioice uses the pair whose check succeeded last, not the one of the greatest priority.
        yield Case(LOOPBACK, (a, b), f"{title}, theirs controls", (words, words), (ED, ING), quick=int(words != ONE_IPV6),
                   same_path=b != "aioice" or words != MANY)


def conflicts(a, b):
    """Both begin with one role, and the tie-breakers decide."""
    for role in (ING, ED):
        yield Case(LOOPBACK, (a, b), f"role conflict, both {role}", (ONE, ONE), (role, role))


def pion_conflicts():
    """Our tie-breaker decides whether we switch. If pion has to, nothing repairs the conflict."""
    why = "pion ignores requests in a role conflict, and error responses 487"
    for role in (ING, ED):
        for name, number in (("least", "0"), ("greatest", GREATEST)):
            we_switch = name == "least"
            yield Case(LOOPBACK, ("Connection", "pion"), f"role conflict, both {role}, our tie-breaker {name}",
                       ((*ONE, "-t", number), ONE), (role, role), none=not we_switch, seconds=20 if we_switch else 10,
                       why="" if we_switch else why)


def lite(a, b, both=True):
    """One side is lite, which is the controlled one."""
    yield Case(LOOPBACK, (a, b), "ours is lite", ((*ONE, "-L"), ONE), (ED, ING))
    if both:
        yield Case(LOOPBACK, (a, b), "theirs is lite", (ONE, (*ONE, "-L")), (ING, ED))


def restarts(a, b):
    """One side restarts a connected session."""
    for words, addresses in ((ONE, "one address"), (MANY, "five addresses")):
        for who, name in (("a", "ours"), ("b", "theirs")):
            yield Case(LOOPBACK, (a, b), f"{name} restarts, {addresses}", (words, words), restarts=who, quick=int(words == MANY))


def over_loopback():
    """All cases over loopback."""
    for other in ("peer", "pion", "libnice", "aioice", "Connection"):
        yield from roles_over_loopback("peer", other)
    for other in ("peer", "libnice", "aioice", "Connection"):
        yield from conflicts("peer", other)
    yield from pion_conflicts()
    yield Case(LOOPBACK, ("peer", "pion"), "five addresses, theirs trickles", (MANY, (*MANY, "-T")))
    for nomination in ("regular", "aggressive"):
        yield Case(LOOPBACK, ("peer", "libnice"), f"{nomination} nomination", (MANY, (*MANY, "-N", nomination)), (ED, ING))
    for other, both in (("pion", True), ("libnice", True), ("aioice", False), ("peer", False)):
        yield from lite("peer", other, both)
    for other in ("peer", "pion", "libnice"):
        yield from restarts("peer", other)


# ---- servers, over a cable: Janus takes no loopback address

def on_hosts(*indices):
    """The options for the addresses of both hosts: 0 is the IPv4 address, and 1 the IPv6 address."""
    return [tuple(word for index in indices for word in ("-a", addresses[index])) for addresses in networks.HOST_ADDRESSES]


IPV4, IPV6, BOTH = on_hosts(0), on_hosts(1), on_hosts(0, 1)
ROLES = (("ours controls", (ING, ED)), ("theirs controls", (ED, ING)))


def with_server(name, title, roles, addresses=IPV4, ours=(), theirs=(), by="peer", **more):
    """A case with a server, with these options of both in addition to the addresses."""
    a, b = addresses
    return Case(HOSTS, (by, name), title, ((*a, *ours), (*b, *theirs)), roles, **more)


def over_hosts(name):
    """All cases of a server over a cable. It makes the offer if it begins as controlling."""
    for who, roles in ROLES:
        for title, addresses in (("IPv4", IPV4), ("IPv6", IPV6), ("both IP versions", BOTH)):
            yield with_server(name, f"{title}, {who}", roles, addresses, quick=int(addresses is BOTH))
        yield with_server(name, f"ours trickles, {who}", roles, BOTH, theirs=("-t",), trickles="a", quick=0)
        if name == "janus":
            yield with_server(name, f"theirs trickles, {who}", roles, BOTH, theirs=("-T",), quick=0)
    for role in (ING, ED):
        yield with_server(name, f"role conflict, both {role}", (role, role))
    yield with_server(name, "ours restarts", (ING, ED), BOTH, restarts="a", quick=0)
    yield with_server(name, "theirs restarts", (ED, ING), BOTH, restarts="b", quick=0)
    yield from lite_with_server(name)


def lite_with_server(name):
    """Lite sessions. A server that answers begins as controlled, also with a lite peer, so nobody controls until a 487 arrives.

    A lite agent of ours keeps its role, whatever the tie-breakers are (RFC 8445, section 6.1.1: the full agent controls).
    """
    yield with_server(name, "ours is lite, theirs controls", (ED, ING), ours=("-L",), theirs=("-l",))
    for word, number in (("greatest", GREATEST), ("least", "0")):
        yield with_server(name, f"both begin controlled, ours lite, our tie-breaker {word}", (ED, ED), ours=("-L", "-t", number),
                          theirs=("-l",), by="Connection")
    yield with_server(name, "theirs is lite, ours controls", (ING, ED), theirs=("-L",))
    yield with_server(name, "both begin controlled, theirs lite", (ED, ED), ours=("-l",), theirs=("-L",), by="Connection")


# ---- NATs

UNREACHABLE = {("port", "symmetric"), ("symmetric", "port"), ("symmetric", "symmetric")}
QUICK_NATS = {("port", "port"), ("none", "symmetric"), ("symmetric", "symmetric")}


def without_relay(a, b, kinds):
    """Both use the STUN server. Neither can reach the other if one NAT is symmetric, and the other one filters."""
    none = kinds in UNREACHABLE
    why = "the peer sees other ports than the STUN server" if none else ""
    return Case(nat(*kinds), (a, b), "STUN", none=none, seconds=15 if none else 20, quick=int(kinds in QUICK_NATS), why=why)


def over_nats():
    """All combinations of two NATs, without a relay and, if they need one, with it."""
    for a in networks.KINDS:
        for b in networks.KINDS:
            for other in ("peer", "pion"):
                yield without_relay("peer", other, (a, b))
            if (a, b) in (("port", "port"), ("symmetric", "none"), ("cone", "symmetric"), ("symmetric", "symmetric")):
                for other in ("libnice", "aioice"):
                    yield without_relay("peer", other, (a, b))
            if (a, b) in UNREACHABLE:
                yield from with_relay((a, b))


def over_servers():
    """STUN servers with both of our clients. Between these NATs a session needs what the server says, on both sides."""
    for server in servers.PACKAGES:
        for ours in ("peer", "Connection"):
            yield Case(nat("port", "port", server), (ours, ours), f"STUN by {server}", quick=int(server == "stund"))


def over_browsers():
    """Browsers, each side with its own NAT. Nobody there resolves the mDNS names, so the sessions must not wait for them."""
    for name in ("chromium", "firefox"):
        for who, roles in ROLES:
            for ours in ("Connection", "peer"):
                for title, words, quick in (("addresses", (), 0), ("mDNS names", ("-M",), int(ours == "Connection"))):
                    yield Case(nat("port", "port"), (ours, name), f"{title}, {who}", ((), words), roles, quick=quick, seconds=60)
                yield between_relays(ours, name, who, roles)


def between_relays(ours, name, who, roles):
    """Both have relayed candidates only. Browsers and `Connection` have a policy for it; `peer` has none, so no others are passed on."""
    words = ("-R",) if ours == "Connection" else ()
    return Case(nat("symmetric", "symmetric"), (ours, name), f"relays only, {who}", (words, ()), roles, relay=(True, True),
                relays_only=True, quick=int(ours == "peer"), seconds=60)


def with_relay(kinds):
    """One side uses the TURN server, or both do."""
    quick = int(kinds in QUICK_NATS)
    for other in ("Connection", "pion", "aioice", "libnice"):
        yield Case(nat(*kinds), ("Connection", other), "TURN for both", relay=(True, True), quick=quick)
    for other in ("peer", "pion", "aioice", "libnice"):
        yield Case(nat(*kinds), ("peer", other), "TURN for both", relay=(True, True), quick=int(other == "peer") * quick)
    for other in ("peer", "pion"):  # behind a symmetric NAT its packets reach the relayed address from a port that was not signaled
        yield Case(nat(*kinds), ("Connection", other), "TURN for ours", relay=(True, False), quick=0)
    yield Case(nat(*kinds), ("peer", "pion"), "TURN for theirs", relay=(False, True), quick=quick)


# ---- a lossy wire

def over_the_wire():
    """30 % of the packets are lost, 10 % come twice, and each waits up to 0.2 s, so that they overtake each other."""
    for other in ("peer", "pion", "libnice"):
        yield Case(LOSSY, ("peer", other), "30 % loss, reordering", sessions=10, quick=2, at_least=0.9, seconds=40)
    yield Case(LOSSY, ("peer", "aioice"), "30 % loss, reordering", sessions=10, quick=0, at_least=0.8, seconds=40,
               why="aioice gives up early")
    yield Case(LOSSY, ("Connection", "Connection"), "30 % loss, reordering", sessions=10, quick=0, at_least=0.9, seconds=40)
    for other in ("peer", "pion", "libnice", *SERVERS):
        for who, roles in ROLES:
            yield Case(FAR, ("peer", other), f"10 % loss, 100 ms, {who}", roles=roles, sessions=10, quick=0, at_least=0.9, seconds=40)


# ---- far hosts

FAR_KINDS = (("none", "none"), ("port", "port"), ("symmetric", "none"))
DELAYS, LOSSES, HOSTS_A_SIDE = (0, 0.02, 0.1, 0.3), (0, 0.3), (5, 1)


def far_title(hosts, delay, loss):
    return f"{hosts} host{'s' * (hosts > 1)}, {1000 * delay:.0f} ms, {100 * loss:.0f} % loss"


def far_case(stacks, network, who, roles):
    """Chat is not said: what counts is when media could flow. With loss a session may need long.

    Without NATs and loss the pair that works has a random place among those of 5 hosts: the times differ more, so there are more sessions.
    """
    _, *kinds, hosts, delay, loss = network
    is_spread = hosts > 1 and not loss and tuple(kinds) == ("none", "none") and stacks[0] == stacks[1]
    at_least, why = (0.9 if loss else 1.0), ""
    if stacks == ("libnice", "libnice") and delay == 0.3:
        at_least, why = 0.0, "libnice fails in some sessions with this delay; why is not known"
    words = ("-A",) if stacks[1] == "chromium" else ()  # it gathers at all addresses
    return Case(network, stacks, far_title(hosts, delay, loss) + who, ((), words), roles, sessions=60 if is_spread else 20, quick=0,
                at_least=at_least, why=why, seconds=40 if loss else 20, chat=False)


def over_distance(is_foreign):
    """Our programs with themselves, and the one in C with each other stack in both roles; or each of the others with itself."""
    others = ("libnice", "pion", "aioice")
    own = [(name, name) for name in (others if is_foreign else ("peer", "Connection"))]
    for hosts, loss, kinds, delay in itertools.product(HOSTS_A_SIDE, LOSSES, FAR_KINDS, DELAYS):
        network = ("far", *kinds, hosts, delay, loss)
        yield from (far_case(stacks, network, "", (ING, ED)) for stacks in own)
        for other in () if is_foreign else (*others, "chromium"):
            yield from (far_case(("peer", other), network, f", {who}", roles) for who, roles in ROLES)


def foreign():
    """Sessions without our agent, which show that the tests themselves work."""
    yield Case(LOOPBACK, ("pion", "pion"), "five addresses", (MANY, MANY))
    yield Case(LOOPBACK, ("aioice", "libnice"), "one address", (ONE, ONE))
    yield Case(nat("port", "port"), ("pion", "aioice"), "STUN")
    yield Case(nat("symmetric", "symmetric"), ("pion", "libnice"), "TURN for both", relay=(True, True))
    yield Case(LOSSY, ("pion", "pion"), "30 % loss, reordering", sessions=10, quick=0, at_least=0.9, seconds=40)
    for name in ("chromium", "firefox"):
        yield Case(nat("port", "port"), ("aioice", name), "mDNS names, theirs controls", ((), ("-M",)), (ED, ING), seconds=60)
    for name in SERVERS:
        for who, roles in ROLES:
            yield with_server(name, f"both IP versions, {who}", roles, BOTH, by="libnice")
            yield Case(FAR, ("libnice", name), f"10 % loss, 100 ms, {who}", roles=roles, sessions=10, quick=0, at_least=0.9, seconds=40)


def table(quick=False, is_foreign=False, is_far=False):
    """The cases in order, those of a network after each other."""
    ours = (*over_loopback(), *over_hosts("rtpengine"), *over_hosts("janus"), *over_nats(), *over_servers(), *over_browsers(),
            *over_the_wire())
    cases = list(over_distance(is_foreign)) if is_far else list(foreign()) if is_foreign else list(ours)
    if quick:
        cases = [replace(case, sessions=case.quick) for case in cases if case.quick]
    order = list(dict.fromkeys(case.network for case in cases))
    return sorted(cases, key=lambda case: order.index(case.network))
