"""Tests kinds of pairs: which takes the next turn, which loses a pair at the limit, and the states and bounds that this depends on."""

import unittest
from dataclasses import replace
from itertools import product

from is_ice import Candidate, IceAgent, IceConnectionState, IceCreds, Settings, SocketAddress, line_fields
from lab import scenario
from lab.clauses.progress import are_as_many_as_due, are_open_enough, checks_for
from lab.clauses.staying import combines_with, most_pairs, rank_count
from lab.clock import MILLISECOND, Clock
from lab.kinds import counted_kind, is_inner, is_public, kind_between, kind_of, network_of, turn_of
from lab.log import Beginning, Log, LoggedAgent
from lab.pairs import Place, Timing
from lab.replay import replay
from lab.session import Session
from lab.states import CHECKING, COMPLETED, CONNECTED, DISCONNECTED, NEW, has_possible, next_state
from lab.tests.stories import LINE, MODERN, ORIGINAL, TO_B, A, B, Story

V6, OUTSIDE, MAPPED = SocketAddress("fd00::1", 1), SocketAddress("203.0.113.2", 9), SocketAddress("203.0.113.1", 9)
OWN, THEIRS, OWN_V6 = SocketAddress("192.0.2.1", 9), SocketAddress("192.0.2.2", 9), SocketAddress("2001:db8::1", 1)  # public hosts
SECOND_A, SECOND_B = A._replace(port=A.port + 1), B._replace(port=B.port + 1)
FAR, FAR_V6 = SocketAddress("172.16.0.1", 9), SocketAddress("fd00:0:1::1", 1)  # of other networks than A, B and V6
# The first and the last address of each range of IPv4 that is not public (RFC 1918, RFC 6598, loopback, link-local).
INNER = ("10.0.0.0", "10.255.255.255", "172.16.0.0", "172.31.255.255", "192.168.0.0", "192.168.255.255",
         "100.64.0.0", "100.127.255.255", "127.0.0.0", "127.255.255.255", "169.254.0.0", "169.254.255.255")
# The last address before each of them and the first one after it. Then second octets of these ranges after other first octets, and
# addresses for documentation (RFC 5737).
OUTER = ("9.255.255.255", "11.0.0.0", "172.15.255.255", "172.32.0.0", "192.167.255.255", "192.169.0.0",
         "100.63.255.255", "100.128.0.0", "126.255.255.255", "128.0.0.0", "169.253.255.255", "169.255.0.0",
         "171.16.0.1", "173.31.0.1", "191.168.0.1", "193.168.0.1", "99.64.0.1", "101.127.0.1", "168.254.0.1", "170.254.0.1",
         "192.0.2.1", "198.51.100.1", "203.0.113.1")
# 2000::/3, and what is before and after it: unique local and link-local addresses, loopback, IPv4 addresses in IPv6.
OUTER_V6 = ("2000::", "2001:db8::1", "3fff::", "3fff:ffff:ffff:ffff:ffff:ffff:ffff:ffff")
INNER_V6 = ("1fff:ffff:ffff:ffff:ffff:ffff:ffff:ffff", "4000::", "fc00::1", "fd00::", "fe80::1", "::1", "::ffff:203.0.113.1",
            "64:ff9b::203.0.113.1")


def place(kind: str, address: SocketAddress, base: SocketAddress | None = None) -> Place:
    return Place(kind, address, base or address, 1)


class Numbers(unittest.TestCase):
    def test_the_remote_kind_and_the_ip_version(self) -> None:
        numbers = {kind: kind_between((), place("host", A), place(kind, FAR)) for kind in ("prflx", "srflx", "relay", "host")}
        self.assertEqual(numbers, {"prflx": 1, "srflx": 3, "relay": 5, "host": 7})
        self.assertEqual([kind_between((), place("host", V6), place(kind, FAR_V6)) for kind in numbers], [0, 2, 4, 6])

    def test_inner_pairs_are_of_one_kind(self) -> None:
        local = (place("host", A), place("srflx", MAPPED, A), place("host", SECOND_A), place("relay", MAPPED), place("host", V6))
        inner = [is_inner(local, candidate, place("host", FAR)) for candidate in local]
        self.assertEqual(inner, [False, False, True, False, False])  # no base of IPv6 has a candidate that counts as server-reflexive
        self.assertEqual([kind_between(local, local[2], place(kind, FAR)) for kind in ("prflx", "host")], [8, 8])

    def test_a_discarded_candidate_does_not_count(self) -> None:
        for candidate in (place("srflx", MAPPED, A), place("host", OWN)):
            local = (place("host", A), replace(candidate, is_discarded=True), place("host", SECOND_A))
            self.assertFalse(any(is_inner(local, candidate, place("host", FAR)) for candidate in local))

    def test_the_round_of_the_kinds(self) -> None:
        self.assertEqual(sorted(range(9), key=lambda kind: turn_of(5, kind)), [*range(5, 9), *range(5)])
        self.assertEqual(sorted(range(9), key=lambda kind: turn_of(9, kind)), [*range(9)])


class Public(unittest.TestCase):
    """A host candidate with a public address counts as server-reflexive (RFC 8445, section 5.1.3)."""

    def test_which_addresses_are_public(self) -> None:
        self.assertEqual([ip for ip in (*INNER, *INNER_V6) if is_public(ip)], [])
        self.assertEqual([ip for ip in (*OUTER, *OUTER_V6) if not is_public(ip)], [])

    def test_host_candidates_only(self) -> None:
        for address, expected in ((A, "host"), (V6, "host"), (OWN, "srflx"), (OWN_V6, "srflx")):
            self.assertEqual([counted_kind(place(kind, address)) for kind in ("host", "srflx", "prflx", "relay")],
                             [expected, "srflx", "prflx", "relay"])

    def inner(self, *local: Place) -> list[bool]:
        return [is_inner(local, c, place("host", FAR_V6 if c.base.version == 6 else FAR)) for c in local]

    def test_packets_of_a_private_base_stay_inside_if_another_one_is_public(self) -> None:
        local = (place("host", A), place("host", OWN), place("host", SECOND_A))
        self.assertEqual(self.inner(*local), [True, False, True])
        self.assertEqual([kind_between(local, c, place("host", B)) for c in local], [8, 7, 8])

    def test_those_of_a_base_with_a_server_reflexive_candidate_do_not(self) -> None:
        local = (place("host", A), place("srflx", MAPPED, A), place("host", OWN), place("host", SECOND_A))
        self.assertEqual(self.inner(*local), [False, False, False, True])

    def test_of_private_bases_alone_nothing_is_known(self) -> None:
        private = [place("host", SocketAddress(ip, 1)) for ip in INNER if network_of(ip) != network_of(FAR.ip)]
        self.assertEqual(self.inner(*private), [False] * 11)

    def test_packets_of_a_relay_reach_the_outside(self) -> None:
        self.assertEqual(self.inner(place("host", OWN), place("relay", MAPPED), place("host", A)), [False, False, True])

    def test_another_ip_version_is_not_concerned(self) -> None:
        for own, expected in ((OWN, [True, False]), (OWN_V6, [False, True])):
            self.assertEqual(self.inner(place("host", A), place("host", V6), place("host", own)), [*expected, False])

    def test_a_remote_one_has_the_rank_of_a_server_reflexive_one(self) -> None:
        for address, expected in ((THEIRS, 3), (FAR, 7), (OWN_V6, 2), (V6, 6)):
            for other in (place("host", address), replace(place("host", address), is_discarded=True)):
                self.assertEqual(kind_between((), place("host", A), other), expected)
        self.assertEqual([kind_between((), place("host", A), place(kind, THEIRS)) for kind in ("prflx", "srflx", "relay")], [1, 3, 5])

    def test_the_others_change_their_kind_when_one_comes_or_goes(self) -> None:
        story = Story(settings=MODERN)
        found: list[list[int]] = []

        def note() -> None:
            agent = story.agents["a"]
            found.append([kind_of(agent.local, agent.remote, p) for p in sorted(agent.pairs, key=lambda p: p.local)])

        note()
        story.host("a", OWN, 100 << 24 | 65535 << 8 | 255)
        note()
        story.invalidate("a", Candidate.host(OWN))
        note()
        self.assertEqual(found, [[8], [8, 7], [8]])  # at first and at last the addresses are of one network


class Near(unittest.TestCase):
    """As long as no base of an IP version is known to reach the outside, pairs whose addresses are of one network are inner ones."""

    def test_which_addresses_are_near(self) -> None:
        for ip, other, expected in (
                ("10.0.0.0", "10.0.0.255", True), ("10.0.0.1", "10.0.1.1", False), ("10.0.0.1", "10.1.0.1", False),
                ("10.0.0.1", "11.0.0.1", False),
                ("fd00:1:2::", "fd00:1:2:ffff:ffff:ffff:ffff:ffff", True), ("fd00:1:2::1", "fd00:1:3::1", False),
                ("fd00:1:2::1", "fd00:2:2::1", False), ("fd00:1:2::1", "fd01:1:2::1", False),
                ("10.0.0.1", "::10.0.0.1", False), ("0.10.0.0", "0:0:a00::", False)):
            with self.subTest(ip=ip, other=other):
                self.assertEqual(network_of(ip) == network_of(other), expected)

    def test_only_without_a_candidate_that_counts_as_server_reflexive(self) -> None:
        near = place("host", B)
        self.assertEqual(kind_between((place("host", A),), place("host", A), near), 8)
        self.assertEqual(kind_between((place("host", A), place("srflx", MAPPED, A)), place("host", A), near), 7)
        self.assertEqual(kind_between((place("host", A), place("host", OWN_V6)), place("host", A), near), 8)  # of another IP version
        self.assertEqual(kind_between((place("relay", A),), place("relay", A), near), 7)

    def test_by_the_base(self) -> None:
        own = place("prflx", OUTSIDE, A)
        self.assertEqual(kind_between((own,), own, place("host", B)), 8)
        self.assertEqual(kind_between((own,), own, place("host", OUTSIDE._replace(port=7))), 3)


class Library(unittest.TestCase):
    """Of three pairs the library checks first the one with the greatest priority, and then the one of the next kind: that of a public
    address. Without a public address it is the one with the next priority. The model foresees the same."""

    def checks(self, local: list[str], remote: list[str]) -> list[tuple[str, str]]:
        """Returns the addresses of the first two checks between these host candidates. Each list is in order of priority."""
        clock, log, creds = Clock(), Log(), [IceCreds(side * 4, side * 22) for side in "ab"]
        log.sides = {side: Beginning(own, tie_breaker) for tie_breaker, (side, own) in enumerate(zip("ab", creds))}
        agent = LoggedAgent(IceAgent(creds[0], 0), "a", clock, log)
        agent.set_settings(Settings.modern())
        agent.set_remote_credentials(creds[1])
        lines = [agent.add_local_candidate(Candidate.host(SocketAddress(ip, 1))) for ip in local]
        priorities = [line_fields(line).priority for line in lines]
        self.assertEqual(priorities, sorted(set(priorities), reverse=True))
        for n, ip in enumerate(remote):
            agent.add_remote_candidate(LINE.format(126 << 24 | (65535 - n) << 8 | 255, ip, 2, "host"))
        found: list[tuple[str, str]] = []
        for id in (bytes(12), bytes(11) + b"1"):
            agent.handle_timeout(clock.now, id)
            agent.poll_timeout()
            packet = agent.poll_transmit()
            found.append((packet.source.ip, packet.destination.ip))
            while agent.poll_event() is not None:
                pass
            clock.now += 50 * MILLISECOND
        self.assertEqual(replay(log).differences, [])
        return found

    def test_addresses(self) -> None:
        # link-local addresses of IPv4 are no candidates
        inner = [ip for ip in INNER if not ip.startswith("169.254.")]
        for first, second, other, addresses, is_outer in (
                ("10.0.0.1", "10.0.0.2", "172.20.0.1", inner, False), ("10.0.0.1", "10.0.0.2", "172.20.0.1", OUTER, True),
                ("fd00::1", "fd00::2", FAR_V6.ip, INNER_V6, False), ("fd00::1", "fd00::2", FAR_V6.ip, OUTER_V6, True)):
            for ip in addresses:
                with self.subTest(ip=ip):
                    expected = ip if is_outer else second
                    self.assertEqual(self.checks([first, second, ip], [other]), [(first, other), (expected, other)])
                    self.assertEqual(self.checks([other], [first, second, ip]), [(other, first), (other, expected)])


class Sessions(unittest.TestCase):
    def test_one_of_a_hundred_pairs_is_found_soon(self) -> None:
        """The pair of two public addresses, or of two within a network, has the least priority; packets take 20 ms."""
        for name, seed in product(("many_interfaces", "private_interfaces"), range(3)):
            with self.subTest(scenario=name, seed=seed):
                first = Session(scenario.load(name), seed).run().first
                assert first is not None
                self.assertLess(first, 300 * MILLISECOND)


class Turns(unittest.TestCase):
    """A has two host candidates, and B two host candidates and a server-reflexive one. A sends a check every 50 ms."""

    def story(self, settings: Settings = MODERN) -> Story:
        story = Story(hosts=(2, 2), settings=settings)
        story.remote("a", LINE.format(100 << 24 | 65535 << 8 | 255, OUTSIDE.ip, OUTSIDE.port, "srflx"))
        return story

    def checks(self, story: Story, count: int, since: float = 0, apart: float = 50) -> list[tuple[SocketAddress, SocketAddress]]:
        packets = [story.timeout("a", since + apart * n) for n in range(count)]
        story.session()
        return [(packet.source, packet.destination) for packet in packets if packet is not None]

    def test_every_second_check_is_of_the_next_kind(self) -> None:
        # by priority: A B, A's first and B's second host, A's second and B's first, both second; then the server-reflexive ones
        expected = [(A, B), (A, OUTSIDE), (A, SECOND_B), (SECOND_A, B), (SECOND_A, SECOND_B), (SECOND_A, OUTSIDE)]
        self.assertEqual(self.checks(self.story(), 6), expected)

    def test_with_the_original_profile_by_priority(self) -> None:
        first, *middle, fourth, fifth = self.checks(self.story(ORIGINAL), 5)
        self.assertEqual([first, fourth, fifth], [(A, B), (SECOND_A, SECOND_B), (A, OUTSIDE)])
        self.assertEqual(sorted(middle), [(A, SECOND_B), (SECOND_A, B)])

    def test_an_earlier_due_time_comes_before_a_greater_priority(self) -> None:
        # the first pair is due again after 250 ms, or with the modern profile after 100 ms
        self.assertEqual(self.checks(self.story(ORIGINAL), 4, apart=100)[-1], (SECOND_A, SECOND_B))
        self.assertEqual(self.checks(self.story(), 4, apart=100)[2:], [(A, SECOND_B), (SECOND_A, B)])

    def test_bases_that_reach_the_outside_come_first(self) -> None:
        story = self.story()
        line = LINE.format(100 << 24 | 65535 << 8 | 255, MAPPED.ip, MAPPED.port, "srflx")
        story.local("a", Candidate.server_reflexive(MAPPED, SECOND_A), line)
        self.assertEqual(self.checks(story, 4)[1::2], [(SECOND_A, OUTSIDE), (SECOND_A, B)])

    def test_a_public_base_comes_first(self) -> None:
        story = self.story()
        story.host("a", OWN, 126 << 24 | 65000 << 8 | 255)
        self.assertEqual(self.checks(story, 4)[1::2], [(OWN, OUTSIDE), (OWN, B)])

    def test_a_remote_public_one_takes_the_turn_of_the_server_reflexive_ones(self) -> None:
        story = Story(hosts=(2, 2), settings=MODERN)
        story.remote("a", LINE.format(126 << 24 | 65000 << 8 | 255, THEIRS.ip, THEIRS.port, "host"))
        story.remote("a", LINE.format(100 << 24 | 65535 << 8 | 255, OUTSIDE.ip, OUTSIDE.port, "srflx"))
        # in between come the pairs with B by priority: A's first and B's second host, and both second
        self.assertEqual(self.checks(story, 6)[1::2], [(A, THEIRS), (SECOND_A, B), (SECOND_A, THEIRS)])

    def test_the_profile_can_be_set_at_any_time(self) -> None:
        story = self.story(ORIGINAL)
        self.assertEqual(self.checks(story, 1), [(A, B)])
        story.set("a", "set_settings", MODERN, 40)
        self.assertEqual(self.checks(story, 1, 50), [(A, OUTSIDE)])  # with the original profile the turn was set too
        story.set("a", "set_settings", ORIGINAL, 90)
        self.assertEqual(self.checks(story, 3, 100)[-1], (SECOND_A, SECOND_B))

    def test_what_a_check_sets(self) -> None:
        story, seen = self.story(), []
        for n in range(4):
            story.timeout("a", 50 * n)
            seen.append((story.agents["a"].ahead_turn, story.agents["a"].next_kind))
        self.assertEqual(seen, [(True, 0), (False, 4), (True, 4), (False, 9)])

    def test_no_turn_once_a_path_is_selected(self) -> None:
        story = self.story()
        story.exchange("a", 0)
        story.exchange("a", 50)  # the nomination, which goes ahead
        self.assertEqual((story.agents["a"].state, story.agents["a"].next_kind), (CONNECTED, 9))
        # Both are in order of due times and priorities: the second one is not of the next kind.
        self.assertEqual(self.checks(story, 2, 100), [(A, SECOND_B), (SECOND_A, B)])
        self.assertEqual((story.agents["a"].ahead_turn, story.agents["a"].next_kind), (True, 9))

    def test_a_restart_keeps_the_turn(self) -> None:
        story = self.story()
        self.checks(story, 3)
        agent = story.agents["a"].restart(IceCreds("cccc", "c" * 22), True)
        self.assertEqual((agent.ahead_turn, agent.next_kind, agent.state), (True, 4, CHECKING))


class Limit(unittest.TestCase):
    """A has three host candidates, and B three host candidates and a server-reflexive one: nine pairs of one kind, three of another."""

    def remotes(self, settings: Settings, limit: int) -> tuple[int, int]:
        story = Story(hosts=(3, 3), settings=settings)
        story.limit("a", limit)
        story.remote("a", LINE.format(100 << 24 | 65535 << 8 | 255, OUTSIDE.ip, OUTSIDE.port, "srflx"))
        agent = story.agents["a"]
        reflexive = [p for p in agent.pairs if agent.remote[p.remote].kind == "srflx"]
        hosts = sorted((p.priority for p in agent.pairs if p not in reflexive), reverse=True)
        every = sorted((agent.priority_between(own, other) for own in range(3) for other in range(3)), reverse=True)
        self.assertEqual(hosts, every[:len(hosts)])  # the lowest ones went
        return len(hosts), len(reflexive)

    def test_the_most_numerous_kind_loses_a_pair(self) -> None:
        self.assertEqual([self.remotes(MODERN, limit) for limit in (12, 11, 9, 6, 4, 2)], [(9, 3), (8, 3), (6, 3), (3, 3), (2, 2), (1, 1)])

    def test_a_public_host_is_of_the_same_kind_as_a_server_reflexive_one(self) -> None:
        # Both have nine pairs of private hosts and six of the others, whose kind comes first. So the other kind loses a pair only if it has
        # more. Of the six, those with the server-reflexive candidate have the lower priorities.
        for limit, expected in ((15, [9, 3, 3]), (12, [6, 3, 3]), (11, [6, 3, 2]), (9, [5, 3, 1]), (2, [1, 1, 0])):
            story = Story(hosts=(3, 3), settings=MODERN)
            story.limit("a", limit)
            story.remote("a", LINE.format(126 << 24 | 65000 << 8 | 255, THEIRS.ip, THEIRS.port, "host"))
            story.remote("a", LINE.format(100 << 24 | 65535 << 8 | 255, OUTSIDE.ip, OUTSIDE.port, "srflx"))
            agent = story.agents["a"]
            addresses = [agent.path(p)[1] for p in agent.pairs]
            public = [addresses.count(address) for address in (THEIRS, OUTSIDE)]
            self.assertEqual([len(addresses) - sum(public), *public], expected)

    def test_with_the_original_profile_the_lowest_one_goes(self) -> None:
        self.assertEqual([self.remotes(ORIGINAL, limit) for limit in (12, 11, 9, 6)], [(9, 3), (9, 2), (9, 0), (6, 0)])


class States(unittest.TestCase):
    def test_the_next_state(self) -> None:
        for state in (CHECKING, CONNECTED, COMPLETED, DISCONNECTED):
            self.assertEqual([next_state(state, *given, False) for given in ((False, True), (False, False), (True, True), (True, False))],
                             [CHECKING, DISCONNECTED, CONNECTED, COMPLETED])
        self.assertEqual({next_state(NEW, selected, True, False) for selected in (False, True)}, {CHECKING})
        self.assertEqual([next_state(state, True, True, True) for state in (CHECKING, CONNECTED)], [COMPLETED, CONNECTED])

    def test_without_candidates_a_pair_is_possible(self) -> None:
        one = (place("host", A),)
        self.assertEqual([has_possible(local, remote, (), 0, Timing()) for local, remote in (((), one), (one, ()), (one, one))],
                         [True, True, False])

    def test_of_two_agents(self) -> None:
        for settings, nominated in ((ORIGINAL, CHECKING), (MODERN, COMPLETED)):
            story = Story(settings=settings)
            story.exchange("a", 0)
            self.assertEqual(self.states(story), (COMPLETED, NEW))
            story.exchange("b", 1)
            story.exchange("a", 50)
            self.assertEqual(self.states(story), (COMPLETED, nominated))
            story.timeout("b", 101)
            self.assertEqual(self.states(story), (COMPLETED, COMPLETED))
            story.session()

    def states(self, story: Story) -> tuple[IceConnectionState, IceConnectionState]:
        return story.agents["a"].state, story.agents["b"].state


class Bounds(unittest.TestCase):
    """If checks may go ahead, each bound on rounds is twice that without."""

    def test_checks_for(self) -> None:
        self.assertEqual([checks_for(is_modern, 3) for is_modern in (False, True)], [3, 6])

    def test_rounds_for_pairs(self) -> None:
        for settings, open_rounds, due_rounds in ((ORIGINAL, 3, 2), (MODERN, 7, 4)):
            agent = Story(hosts=(1, 2), settings=settings).agents["a"]
            enough = [n for n in range(1, 9) if are_open_enough(agent, agent, n)]
            self.assertEqual(enough, [*range(open_rounds, 9)])
            self.assertEqual([n for n in range(9) if are_as_many_as_due(0, agent, [0] * n)], [*range(due_rounds, 9)])
            more = replace(agent, next_number=agent.next_number + 1)  # a pair was added
            self.assertEqual(checks_for(agent.modern, 1), min(n for n in range(12) if are_open_enough(agent, more, n)) - open_rounds)

    def test_rivals_at_the_limit(self) -> None:
        for (settings, ranked, most), kind in product(((ORIGINAL, 2, 2), (MODERN, 1, 9)), ("srflx", "host")):
            story = Story(settings=settings)
            story.remote("a", LINE.format(200 << 24, OUTSIDE.ip, OUTSIDE.port, kind))  # a greater priority, and another kind
            agent = story.agents["a"]
            pair = next(p for p in agent.pairs if agent.path(p) == TO_B)
            self.assertEqual(rank_count(agent, [], pair), ranked)
            self.assertEqual(most_pairs(agent, ranked), most)
            self.assertEqual(combines_with(agent, pair, (0, 1)), settings is ORIGINAL)
            self.assertTrue(combines_with(agent, pair, (0, 0)))


if __name__ == "__main__":
    unittest.main()
