"""The gatherer in simulated time: what it adds, reports and sends, and how long relays last."""

from __future__ import annotations

import copy
import pickle
import random
import unittest
from collections.abc import Callable
from typing import Any
from unittest import mock

from is_ice import (
    EndedWhy,
    GatheringComplete,
    HasAgent,
    IceConnectionState,
    IceServer,
    LocalCandidate,
    NominatedSend,
    Protocol,
    Server,
    ServerAllocated,
    ServerEnded,
    ServerMapped,
    ServerNotPermitted,
    SocketAddress,
    Transmit,
    frame_length,
    servers_of,
)
from turn_server import ALLOCATE, BIND, BINDING, PASSWORD, PERMIT, SECOND
from turn_world import AT, MS, TURN, Side, World


class Gathering(unittest.TestCase):
    def test_candidates_are_events(self) -> None:
        world = World()
        a = world.side("203.0.113.1", servers=[{"urls": ["stun:192.0.2.9", "stun:[2001:db8::9]"]}, TURN])
        self.assertEqual(a.line, a.lines[0])
        self.assertTrue(world.run(SECOND, lambda: bool(a.of(LocalCandidate))))
        allocated = a.of(ServerAllocated)[0]
        self.assertEqual((allocated.local, allocated.server, allocated.protocol), (a.local, AT, Protocol.UDP))
        self.assertEqual((allocated.relayed, allocated.mapped), (SocketAddress("198.51.100.1", 50000), a.local))
        self.assertEqual([event.line for event in a.of(LocalCandidate)], a.lines[1:])  # the mapped address is that of the host candidate
        self.assertRegex(a.lines[1], r"^candidate:\w+ 1 udp \d+ 198.51.100.1 50000 typ relay ")
        self.assertEqual((a.ice.is_gathering, a.of(GatheringComplete)), (True, []))  # the STUN server is silent
        self.assertTrue(world.run(60 * SECOND, lambda: bool(a.of(GatheringComplete))))
        (ended,) = a.of(ServerEnded)
        self.assertEqual((ended.server, ended.why, ended.code), (SocketAddress("192.0.2.9", 3478), EndedWhy.FAILED, None))
        self.assertEqual(len(a.of(GatheringComplete)), 1)

    def test_a_server_reflexive_candidate(self) -> None:
        world = World()
        a = world.side("203.0.113.1", servers=[IceServer("stun:192.0.2.1")])
        world.run(SECOND)
        self.assertEqual([event.mapped for event in a.of(ServerMapped)], [a.local])
        self.assertEqual((a.of(LocalCandidate), len(a.of(GatheringComplete))), ([], 1))  # it is redundant: there is no NAT
        seen, b = SocketAddress("203.0.113.2", 7), world.side("10.0.0.1", servers=[IceServer("stun:192.0.2.1")])
        world.sides[seen], handle = b, world.server.handle
        with mock.patch.object(world.server, "handle", lambda now, source, data: handle(now, seen[:2], data)):
            world.run(SECOND)
        self.assertEqual([event.mapped for event in b.of(ServerMapped)], [seen])
        self.assertRegex(b.of(LocalCandidate)[0].line, r"203\.0\.113\.2 7 typ srflx ")

    def test_a_turn_server_is_no_stun_server_besides(self) -> None:
        world = World()
        world.side("203.0.113.1", servers=[{"urls": "stun:192.0.2.1"}, TURN])
        world.run(SECOND)
        self.assertNotIn(BINDING, world.server.requests)

    def test_without_servers_gathering_is_complete_at_once(self) -> None:
        world = World()
        a = world.side("203.0.113.1", servers=[])
        world.run(0)
        self.assertEqual(a.of(GatheringComplete), [GatheringComplete()])
        self.assertEqual(a.ice.outgoing(world.now, a.local, AT, b"x"), Transmit(Protocol.UDP, a.local, AT, b"x"))
        self.assertIsNone(a.ice.outgoing(world.now, AT, a.local, b"x"))

    def test_names_are_for_the_caller(self) -> None:
        world = World()
        a = world.side("203.0.113.1", servers=[{**TURN, "urls": ["turn:turn.example.org", "turns:turn.example.org", "stuns:192.0.2.1"]}])
        self.assertEqual([str(server.url) for server in a.ice.to_reach],
                         ["turn:turn.example.org:3478", "turns:turn.example.org:5349"])
        world.run(SECOND)
        self.assertEqual((a.events, a.ice.is_gathering), ([], True))
        by_udp, by_tls = a.ice.to_reach
        a.ice.add_server(world.now, by_udp, AT.ip)
        a.ice.add_server(world.now, by_udp, "2001:db8::3")  # there is no socket for it
        a.ice.reached(by_udp)
        world.run(SECOND)
        self.assertEqual((len(a.of(ServerAllocated)), a.of(GatheringComplete)), (1, []))
        a.ice.reached(by_tls)  # there is no connection
        world.run(0)
        self.assertEqual(len(a.of(GatheringComplete)), 1)
        a.ice.add_server(world.now, by_udp, AT.ip)  # it has a client
        world.run(SECOND)
        self.assertEqual((len(a.of(ServerAllocated)), len(a.of(GatheringComplete)), a.ice.to_reach), (1, 2, []))
        a.ice.reach_again()
        self.assertEqual(a.ice.to_reach, [by_udp, by_tls])

    def test_the_credentials_of_a_server_are_not_printed(self) -> None:
        (server,) = servers_of([TURN])
        for value in (server, IceServer(**TURN), [server]):
            self.assertNotIn(PASSWORD, repr(value))
        self.assertEqual(servers_of([server, IceServer(["stun:a", "turn:b"])])[1:],
                         [Server(servers_of([{"urls": "turn:b"}])[0].url), *servers_of([{"urls": "stun:a"}])])

    def test_a_gatherer_is_unique(self) -> None:
        a = World().side("203.0.113.1")
        makes: tuple[Callable[[Any], object], ...] = (copy.copy, pickle.dumps)
        for make in makes:
            self.assertRaises(TypeError, make, a.ice)
        self.assertRaises(HasAgent, a.ice.__init__, a.agent)  # type: ignore[misc]

    def test_a_wrong_password_is_named_within_2_s(self) -> None:
        world = World()
        a = world.side("203.0.113.1", servers=[{**TURN, "credential": "wrong"}])
        begun = world.now
        self.assertTrue(world.run(60 * SECOND, lambda: bool(a.of(GatheringComplete))))
        self.assertLess(world.now - begun, 2 * SECOND)
        (ended,) = a.of(ServerEnded)
        self.assertEqual((ended.why, ended.unverified), (EndedWhy.FAILED, 401))
        self.assertIn("401", str(ended))

    def test_a_socket_that_is_gone(self) -> None:
        world = World()
        a = world.side("203.0.113.1")
        world.run(SECOND)
        self.assertEqual(len(a.lines), 2)
        a.ice.remove_socket(world.now, a.local)
        world.run(0)
        self.assertEqual((a.lines, a.ice.is_over, [event.why for event in a.of(ServerEnded)]), ([], True, [EndedWhy.LOST]))
        a.ice.add_socket(world.now, a.local)
        world.server.forget()
        world.run(SECOND)
        self.assertEqual((len(a.lines), a.ice.is_over), (2, False))

    def test_closing_frees_the_allocation(self) -> None:
        for after in (0, 30 * MS, 70 * MS, SECOND):  # before the first response, before the second one, after both
            world = World()
            a = world.side("203.0.113.1")
            world.run(after)
            a.ice.close(world.now)
            self.assertTrue(world.run(2 * SECOND, lambda: a.ice.is_over), after)
            self.assertEqual(([event.why for event in a.of(ServerEnded)], world.server.allocations), ([EndedWhy.CLOSED], {}))
            self.assertEqual(world.server.freed, after >= 70 * MS)


class Connecting(unittest.TestCase):
    def two(self, world: World, relay_only: bool = True) -> tuple[Side, Side]:
        a, b = world.side("203.0.113.1", True, relay_only=relay_only), world.side("203.0.113.2", False, relay_only=relay_only)
        world.join(a, b)
        return a, b

    def test_only_relayed_candidates(self) -> None:
        world = World()
        a, b = self.two(world)
        self.assertEqual([len(side.lines) for side in (a, b)], [1, 1])
        for side, other in ((a, b), (b, a)):
            path = side.agent.media_path(world.now)
            assert path is not None
            self.assertEqual((path.source, path.destination), (side.of(ServerAllocated)[0].relayed, other.of(ServerAllocated)[0].relayed))
        sent = world.talk((a, b), 10 * SECOND)
        self.assertEqual(len(a.heard) + len(b.heard), sent)
        self.assertEqual(world.server.requests[BIND], 2)  # media makes a channel, each side's to the other
        self.assertGreater(world.server.channel_data, sent - 8)

    def test_a_peer_that_cannot_be_reached_otherwise(self) -> None:
        """One side has a relay, the other one only a host candidate: checks of both arrive because remote candidates are permitted."""
        world = World()
        a, b = world.side("203.0.113.1", True), world.side("203.0.113.2", False, servers=[])
        world.opens = lambda source, destination: "198.51.100.1" in (source.ip, destination.ip)
        world.join(a, b)
        self.assertEqual(world.talk((a, b), 5 * SECOND), len(a.heard) + len(b.heard))

    def test_a_remote_candidate_is_permitted_before_a_check_goes_there(self) -> None:
        for first in ("candidate", "allocation"):
            world = World()
            a = world.side("203.0.113.1")
            if first == "allocation":
                world.run(SECOND)
            a.ice.add_remote_candidate(world.now, "candidate:1 1 udp 2130706431 203.0.113.9 9 typ host")
            a.ice.add_remote_candidate(world.now, "candidate:1 2 udp 2130706431 203.0.113.8 9 typ host")  # of another component
            world.run(SECOND)
            (mine,) = world.server.allocations.values()
            self.assertEqual(list(mine.permissions), ["203.0.113.9"], first)

    def test_15_minutes(self) -> None:
        """Nothing lapses: permissions last 300 s, allocations and channels 600 s, and nonces are stale after 60 s."""
        world = World()
        a, b = self.two(world)
        dropped = len(world.server.dropped)
        sent = world.talk((a, b), 900 * SECOND)
        self.assertEqual((len(a.heard) + len(b.heard), len(world.server.dropped)), (sent, dropped))
        self.assertGreater(world.server.stale_nonces, 5)
        self.assertEqual([len(side.of(NominatedSend)) for side in (a, b)], [1, 1])

    def test_data_comes_in_after_301_s_of_silence_to_the_peer(self) -> None:
        world = World()
        a, b = self.two(world)
        sent = world.talk((b,), 400 * SECOND)  # a only responds to checks
        self.assertEqual((len(a.heard), len(b.heard)), (sent, 0))
        self.assertGreater(a.heard[-1][0] - a.heard[0][0], 390 * SECOND)

    def test_loss(self) -> None:
        for seed in range(5):
            world = World(seed, loss=0.15)
            a, b = world.side("203.0.113.1", True, relay_only=True), world.side("203.0.113.2", False, relay_only=True)
            world.join(a, b, 15 * SECOND)
            sent = world.talk((a, b), 60 * SECOND)
            self.assertGreater(len(a.heard) + len(b.heard), sent * 0.85**5)  # through three links or four

    def test_a_refused_peer(self) -> None:
        """The server says so, what goes there is dropped at once, and other peers are served."""
        world = World()
        a, b = world.side("203.0.113.1", True, relay_only=True), world.side("203.0.113.2", False, servers=[])
        world.server.refused.add("203.0.113.9")
        world.opens = lambda source, destination: "198.51.100.1" in (source.ip, destination.ip)
        a.ice.add_remote_candidate(world.now, "candidate:1 1 udp 2130706431 203.0.113.9 9 typ host")
        world.join(a, b)
        (event,) = a.of(ServerNotPermitted)
        self.assertEqual((event.peer, event.code), ("203.0.113.9", 403))
        relayed, before = a.of(ServerAllocated)[0].relayed, len(world.sent)
        for _ in range(1500):
            self.assertIsNone(a.ice.outgoing(world.now, relayed, SocketAddress("203.0.113.9", 9), b"\x80" * 100))
        world.run(SECOND)
        self.assertLess(len(world.sent) - before, 50)
        self.assertEqual(world.talk((a, b), 5 * SECOND), len(a.heard) + len(b.heard))
        self.assertLess(world.server.requests[PERMIT], 10)

    def test_an_allocation_that_is_lost(self) -> None:
        world = World()
        a, b = self.two(world)
        world.server.forget()
        a.ice.probe(world.now)
        self.assertTrue(world.run(2 * SECOND, lambda: bool(a.of(ServerEnded))))
        self.assertEqual([(event.why, event.code) for event in a.of(ServerEnded)], [(EndedWhy.LOST, 437)])
        self.assertEqual((a.lines, a.agent.state), ([], IceConnectionState.DISCONNECTED))
        self.assertIsNone(a.ice.outgoing(world.now, a.of(ServerAllocated)[0].relayed, b.local, b"x"))

    def test_an_agent_that_was_closed_before(self) -> None:
        world = World()
        a = world.side("203.0.113.1")
        a.agent.close()
        for delay in (70 * MS, SECOND):
            a.ice.handle_servers_timeout(world.now + delay)
        a.ice.close(world.now)


class Streams(unittest.TestCase):
    """A client over TCP: its frames go to the server in a stream, and come back in chunks of any size."""

    def test_a_relay_over_tcp(self) -> None:
        world, chunks = World(), random.Random(3)
        a = world.side("203.0.113.1", servers=[{**TURN, "urls": "turn:192.0.2.1?transport=tcp"}])
        (server,) = a.ice.to_reach
        local, kept, frames = SocketAddress("203.0.113.1", 41000), bytearray(), list[bytes]()

        def arrive(data: bytes) -> None:
            while data:
                size = chunks.randrange(1, 9)
                kept.extend(data[:size])
                data = data[size:]
                while (length := frame_length(bytes(kept))) is not None and len(kept) >= length:
                    frames.append(bytes(kept[:length]))
                    del kept[:length]

        def turn() -> None:
            while (due := a.ice.clients.poll_timeout()) is not None and due <= world.now:
                a.ice.handle_servers_timeout(world.now)
            while packet := a.ice.poll_transmit(world.now):
                self.assertEqual((packet.protocol, packet.source, packet.destination), (Protocol.TCP, local, AT))
                response, told = world.server.handle(world.now, local[:2], packet.contents)
                arrive(response or b"")
                out.extend([told] if told else [])
            for frame in frames:
                if media := a.ice.handle_packet(world.now, AT, local, frame, Protocol.TCP):
                    heard.append(media)
            frames.clear()
            while event := a.ice.poll_event():
                a.events.append((world.now, event))

        out: list[Any] = []
        heard: list[Any] = []
        a.ice.add_connection(world.now, server, local, AT)
        a.ice.reached(server)
        for _ in range(40):
            turn()
            world.now += 5 * MS
        (allocated,) = a.of(ServerAllocated)
        self.assertEqual((allocated.protocol, allocated.local, allocated.mapped), (Protocol.TCP, local, None))
        self.assertEqual(len(a.of(LocalCandidate)), 1)
        self.assertEqual(world.server.requests[ALLOCATE], 2)
        peer = SocketAddress("203.0.113.7", 7)
        for size in range(1, 9):
            packet = a.ice.outgoing(world.now, allocated.relayed, peer, b"\x80" * size)
            assert packet is not None
            self.assertEqual((packet.protocol, packet.source, len(packet.contents) % 4), (Protocol.TCP, local, 0))
            out.extend([world.server.handle(world.now, local[:2], packet.contents)[1]])
            for _ in range(9):
                turn()
                world.now += 5 * MS
            if told := world.server.from_peer(world.now, allocated.relayed[:2], peer[:2], b"\x80" * size):
                arrive(told[1] + bytes(-len(told[1]) % 4))
            turn()
        self.assertEqual([told[2] for told in out[1:] if told], [b"\x80" * size for size in range(2, 9)])
        self.assertEqual([(media.source, media.destination, len(media.contents)) for media in heard],
                         [(peer, allocated.relayed, size) for size in range(1, 9)])
        self.assertIsNone(a.ice.handle_packet(world.now, AT, local, b"\x80 no frame of a client", Protocol.TCP))
        a.ice.lose_connection(world.now, local)
        turn()
        self.assertEqual(([event.why for event in a.of(ServerEnded)], len(a.lines)), ([EndedWhy.LOST], 1))


if __name__ == "__main__":
    unittest.main()
