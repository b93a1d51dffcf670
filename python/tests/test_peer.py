"""Tests two peers over loopback for each combination of roles, and with aioice if that is installed."""

from __future__ import annotations

import asyncio
import os
import socket
import sys
import time
import unittest
from pathlib import Path
from typing import Any

from is_ice import Candidate, IceAgent, IceCreds, SocketAddress, line_fields
from is_ice.demux import is_stun
from pairs import PATIENCE, within
from turn_server import PASSWORD, USER, TurnServer

PEER = Path(__file__).resolve().parent.parent / "peer.py"
# The program of c/examples, if it was built.
C_PEER = Path(os.environ.get("IS_ICE_C_PEER") or Path(__file__).resolve().parents[2] / "c" / "out" / "peer")
LONGEST = 0.15 * PATIENCE  # seconds: three pacing intervals
ROLES = [("controlling", "controlled"), ("controlled", "controlling"), ("controlling", "controlling"), ("controlled", "controlled")]

try:
    import aioice
except ImportError:
    aioice = None


async def start(role: str, *program: str, seconds: float = 15, more: tuple[str, ...] = ()) -> asyncio.subprocess.Process:
    pipe = asyncio.subprocess.PIPE
    words = *(program or (sys.executable, str(PEER))), "-a", "127.0.0.1", "-m", "hello", "-t", str(int(seconds * PATIENCE)), *more, role
    return await asyncio.create_subprocess_exec(*words, stdin=pipe, stdout=pipe, stderr=pipe)


async def end(peer: asyncio.subprocess.Process) -> tuple[int, str]:
    assert peer.stderr is not None
    told = (await peer.stderr.read()).decode()
    return await peer.wait(), told


async def two_peers(roles: tuple[str, str], *second: str, before: tuple[bytes, ...] = ()) -> list[tuple[int, str]]:
    """Plays two peers. Each reads these lines before the signal of the other one."""
    peers = [await start(roles[0]), await start(roles[1], *second)]
    signals = [await peer.stdout.readline() for peer in peers if peer.stdout]
    for peer, signal in zip(peers, reversed(signals)):
        assert peer.stdin is not None
        peer.stdin.writelines((*before, signal))
    return list(await asyncio.gather(*(end(peer) for peer in peers)))


async def through_relays(*programs: tuple[str, ...]) -> list[tuple[int, str]]:
    """Plays two peers that know only the relayed candidate of the other one."""
    server = TurnServer()
    host, port = await server.start()
    more = ("-s", f"turn:{host}:{port}", "-u", USER, "-k", PASSWORD)
    peers = [await start(role, *program, more=more) for role, program in zip(ROLES[0], programs)]
    signals = []
    for peer in peers:
        assert peer.stdout is not None
        signal = (await peer.stdout.readline()).split()
        while b" typ relay " not in (line := await within(peer.stdout.readline(), 10)):
            assert line
        signals.append(b" ".join(signal[:3]) + b"\n" + line)
    for peer, lines in zip(peers, reversed(signals)):
        assert peer.stdin is not None
        peer.stdin.write(lines)
    told = list(await asyncio.gather(*(end(peer) for peer in peers)))
    assert server.strict.freed == 2
    server.close()
    return told


async def with_aioice(role: str, their_control: bool) -> tuple[int, bytes]:
    theirs = aioice.Connection(ice_controlling=their_control, components=1)
    await theirs.gather_candidates()
    peer = await start(role)
    assert peer.stdout is not None and peer.stdin is not None
    _, ufrag, password, line = (await peer.stdout.readline()).decode().rstrip().split(" ", 3)
    theirs.remote_username, theirs.remote_password = ufrag, password
    await theirs.add_remote_candidate(aioice.Candidate.from_sdp(line.removeprefix("candidate:")))
    await theirs.add_remote_candidate(None)
    lines = ",".join("candidate:" + c.to_sdp() for c in theirs.local_candidates)
    peer.stdin.write(f"signal {theirs.local_username} {theirs.local_password} {lines}\n".encode())
    await theirs.connect()
    heard = await theirs.recv()
    await theirs.send(b"hello")
    status, _ = await end(peer)
    await theirs.close()
    return status, heard


async def completes(peer: asyncio.subprocess.Process) -> None:
    """Waits until a peer reports that its session is complete."""
    assert peer.stderr is not None
    while b"state Completed" not in await peer.stderr.readline():
        pass


class Nominating(asyncio.DatagramProtocol):
    """A controlling agent that nominates at once when the first check of the other side arrives: its clock runs ahead."""

    def __init__(self) -> None:
        self.agent = IceAgent()
        self.agent.set_controlling(True)
        self.begun: float | None = None  # when that check arrived
        self._now = 60_000_000_000

    def connection_made(self, transport: Any) -> None:
        self._transport = transport
        self._local = SocketAddress(*transport.get_extra_info("sockname"))
        self.line = self.agent.add_local_candidate(Candidate.host(self._local))

    def datagram_received(self, data: bytes, addr: tuple[str, int]) -> None:
        if not is_stun(data):
            return
        self.begun = self.begun or time.monotonic()
        self.agent.handle_packet(self._now, SocketAddress(*addr), self._local, data)
        self._now += 50_000_000
        self.agent.handle_timeout(self._now)
        while packet := self.agent.poll_transmit():
            self._transport.sendto(packet.contents, packet.destination[:2])


async def time_among_media(*program: str) -> float:
    """How long a controlled peer takes from its first check until its session is complete, in seconds.

    It is nominated in the first millisecond. Media of a stranger arrives all the time.
    """
    peer = await start("controlled", *program)
    assert peer.stdout is not None and peer.stdin is not None
    _, ufrag, password, line = (await peer.stdout.readline()).decode().rstrip().split(" ", 3)
    transport, other = await asyncio.get_running_loop().create_datagram_endpoint(Nominating, local_addr=("127.0.0.1", 0))
    other.agent.set_remote_credentials(IceCreds(ufrag, password))
    other.agent.add_remote_candidate(line)
    creds = other.agent.local_credentials
    peer.stdin.write(f"signal {creds.ufrag} {creds.pass_} {other.line}\n".encode())
    done = asyncio.ensure_future(completes(peer))
    with socket.socket(socket.AF_INET, socket.SOCK_DGRAM) as stranger:
        while not done.done():
            stranger.sendto(b"\x80 media", line_fields(line).address[:2])
            await asyncio.sleep(0.002)
    took = time.monotonic() - (other.begun or 0)
    peer.stdin.write(b"/quit\n")
    await end(peer)
    transport.close()
    return took


class Peers(unittest.TestCase):
    def test_two_peers(self) -> None:
        for roles in ROLES:
            with self.subTest(roles=roles):
                for status, told in asyncio.run(two_peers(roles)):
                    self.assertEqual(status, 0, told)
                    self.assertIn("heard hello", told)
                    self.assertIn("state Completed", told)

    def test_through_a_turn_server(self) -> None:
        for second in [(), (str(C_PEER),)] if C_PEER.exists() else [()]:
            with self.subTest(second=second):
                for status, told in asyncio.run(through_relays((), second)):
                    self.assertEqual(status, 0, told)
                    self.assertIn("heard hello", told)

    def test_what_no_server_is(self) -> None:
        async def play() -> tuple[int, str]:
            return await end(await start("controlling", more=("-s", "http://example.org")))

        status, told = asyncio.run(play())
        self.assertEqual(status, 2)
        self.assertIn("bad URL of a STUN or TURN server", told)

    def test_lines_that_are_not_text_or_too_long(self) -> None:
        lines = (b"/caf\xe9\n", b"signal " + b"x" * 200_000 + b"\n", b"/" + b"y" * 70_000 + b"\n", b"a=\xff\n")
        for status, told in asyncio.run(two_peers(ROLES[0], before=lines)):
            self.assertEqual(status, 0, told)
            self.assertIn("heard hello", told)
            self.assertIn("peer: /caf\ufffd: unknown command", told)
            self.assertEqual(told.count("peer: a line is too long"), 2)
            self.assertIn("peer: a=\ufffd: not sent", told)

    def test_a_long_foundation_and_a_flood_of_media(self) -> None:
        async def play() -> tuple[int, str]:
            peer = await start("controlled")
            assert peer.stdin is not None and peer.stdout is not None
            port = int((await peer.stdout.readline()).split()[8])
            lines = [f"signal abcdefgh abcdefghijklmnopqrstuv candidate:{'a' * 12000} 1 udp 2130706431 127.0.0.1 9 typ host"]
            peer.stdin.write("\n".join(lines).encode() + b"\n")
            await asyncio.sleep(0.3)
            with socket.socket(socket.AF_INET, socket.SOCK_DGRAM) as other:
                for _ in range(100):
                    other.sendto(b"A" * 2048, ("127.0.0.1", port))
            await asyncio.sleep(0.3)
            peer.stdin.write(b"/pairs\n/quit\n")
            return await end(peer)

        status, told = asyncio.run(play())
        self.assertEqual(status, 0, told)
        self.assertIn("CandidatePair(", told)
        self.assertNotIn("AAAA", told)

    def test_out_of_time(self) -> None:
        async def play() -> tuple[int, str]:
            peer = await start("controlling", seconds=min(1, 15 / PATIENCE))  # after 27 s the pair is removed
            assert peer.stdin is not None
            peer.stdin.write(b"signal abcdefgh abcdefghijklmnopqrstuv candidate:1 1 udp 2130706431 127.0.0.1 9 typ host\n")
            return await end(peer)

        status, told = asyncio.run(play())
        self.assertEqual(status, 1)
        self.assertRegex(told, r"peer: out of time; state Checking; .* -> 127.0.0.1:9 in progress, [1-9]\d* checks sent, 0 answered, ")

    def test_media_delays_no_state(self) -> None:
        """Whatever arrives, a peer calls `handle_timeout` one pacing interval later, when its state follows, and not at its next check."""
        for program in ((), (str(C_PEER),)):
            if program and not C_PEER.exists():
                continue
            with self.subTest(program=program):
                took = [9.0]
                while min(took) > LONGEST and len(took) < 8:  # the machine may be busy
                    took.append(asyncio.run(time_among_media(*program)))
                self.assertLess(min(took), LONGEST)

    @unittest.skipUnless(C_PEER.exists(), "c/examples/peer.c is not built; IS_ICE_C_PEER names the program")
    def test_with_the_program_in_c(self) -> None:
        for roles in ROLES:
            with self.subTest(roles=roles):
                for status, told in asyncio.run(two_peers(roles, str(C_PEER))):
                    self.assertEqual(status, 0, told)
                    self.assertIn("heard hello", told)

    @unittest.skipIf(aioice is None, "aioice is not installed (Debian's python3-aioice)")
    def test_with_aioice(self) -> None:
        aioice.ice.get_host_addresses = lambda use_ipv4, use_ipv6: ["127.0.0.1"]
        for role, theirs in (("controlling", False), ("controlled", True), ("controlling", True), ("controlled", False)):
            with self.subTest(role=role, their_control=theirs):
                self.assertEqual(asyncio.run(within(with_aioice(role, theirs), 20)), (0, b"hello"))


if __name__ == "__main__":
    unittest.main()
