"""Connects to another peer over UDP, and lets both users chat.

    python3 python/peer.py [-a ADDRESS ..] [-s URL ..] [-u USER] [-k PASSWORD] [-m TEXT] [-t SECONDS] controlling|controlled

It prints its signal as one line, and each candidate that a server brings as a later one: the other peer reads this standard output
as its standard input. It reports what happens on standard error. From standard input it reads:

    signal UFRAG PASSWORD CANDIDATE,CANDIDATE,..   the other peer's signal
    candidate:..                                   a later candidate of the other peer
    /restart, /stats, /pairs, /quit

It sends any other line to the other peer as chat, once there is a path. A line that begins as one of the above but is malformed
is an error, and is not sent. The lines are those of c/examples/peer.c, so either end may be the C program. Chat is sent as plain
text.
"""

from __future__ import annotations

import argparse
import asyncio
import sys

from is_ice import (
    BadUrl,
    DiscoveredRecv,
    Heard,
    IceAgent,
    IceAgentEvent,
    IceConnectionStateChange,
    IceCreds,
    IceError,
    IceServer,
    LocalCandidate,
    NominatedSend,
    ServerEvent,
    Silent,
    SocketAddress,
    has_mdns_name,
    new_creds,
)
from is_ice.gather import LoopEvent, ServerUnreachable
from is_ice.loop import IceLoop


class Peer:
    """A session with its chat."""

    def __init__(self, controlling: bool, message: str | None, servers: list[IceServer]) -> None:
        self.agent = IceAgent()
        self.agent.set_controlling(controlling)
        self.loop = IceLoop(self.agent, self.note, self.hear, servers=servers, on_gathering=self.gathered)
        self.message = message
        self.path: NominatedSend | None = None
        self.heard = asyncio.Event()
        self.ended = asyncio.Event()

    def signal(self) -> str:
        """Returns the signal for the other peer."""
        creds = self.agent.local_credentials
        return f"signal {creds.ufrag} {creds.pass_} {','.join(self.agent.local_candidates())}"

    def note(self, event: IceAgentEvent) -> None:
        """Prints an event, and stores the selected path."""
        if isinstance(event, IceConnectionStateChange):
            tell(f"state {event.state.name.capitalize()}")
        elif isinstance(event, DiscoveredRecv):
            tell(f"discovered {event.source}")
        elif isinstance(event, NominatedSend):
            self.path = event
            tell(f"nominated {event.source} {event.destination}")
        elif isinstance(event, (Silent, Heard)):
            tell(f"{'silent' if isinstance(event, Silent) else 'again'} {event.source} {event.destination}")

    def gathered(self, event: LoopEvent) -> None:
        """Prints a candidate that a server brings, for the other peer, and what else happens at servers."""
        if isinstance(event, LocalCandidate):
            say(event.line)
        elif isinstance(event, (ServerEvent, ServerUnreachable)):
            tell(f"peer: {event}")

    def hear(self, source: SocketAddress, local: SocketAddress, data: bytes) -> None:
        """Prints chat from the far end of a path."""
        if not self.agent.takes_media_from(self.loop.now(), source):
            return  # a discovered source is not enough: anybody can replay a request from another address
        tell("heard " + data.decode(errors="replace"))
        self.heard.set()

    def read(self, line: str) -> None:
        """Takes a line of standard input: signaling, a command or chat."""
        word = (line.split() or [""])[0]
        if word == "signal":
            self.take_signal(line.split(maxsplit=3))
        elif line.startswith("candidate:") or word == "candidate":
            self.add(line)
        elif line.startswith("a="):
            tell(f"peer: {line}: not sent; candidates begin with candidate:, without a=")
        elif word == "/restart":
            self.agent.ice_restart(new_creds(), True)
            say(self.signal())
        elif word == "/stats":
            tell(f"{self.agent.stats} {self.agent.nominated_pair}")
        elif word == "/pairs":
            for pair in self.agent.pairs:
                tell(f"{pair}")
            for removed in self.agent.removed_pairs():
                tell(f"removed {removed}")
        elif word == "/quit":
            self.ended.set()
        elif word.startswith("/"):
            tell(f"peer: {word}: unknown command; there are /restart, /stats, /pairs and /quit")
        elif path := self.agent.media_path(self.loop.now()):
            self.loop.send(path.source, path.destination, line.encode())
        elif line:
            tell("peer: there is no path yet: not sent")
        self.loop.wake()

    def take_signal(self, words: list[str]) -> None:
        """Takes the other peer's credentials and candidates, and starts the session."""
        if len(words) < 3:
            tell("peer: malformed signal; it is: signal UFRAG PASSWORD CANDIDATE,CANDIDATE,..")
            return
        try:
            self.agent.set_remote_credentials(IceCreds(words[1], words[2]))
        except IceError as error:
            tell(f"peer: signal: {error}")
            return
        for candidate in filter(None, "".join(words[3:]).split(",")):
            self.add(candidate)
        self.loop.begin()

    def add(self, line: str) -> None:
        """Adds a candidate. One with an mDNS name, or a malformed one, is reported and left out."""
        if has_mdns_name(line):
            tell(f"peer: left out a candidate with an mDNS name: {line}")
            return
        try:
            self.loop.add_remote_candidate(line)
        except IceError as error:
            tell(f"peer: {error}")

    async def read_all(self) -> None:
        """Reads lines until standard input ends."""
        reader = asyncio.StreamReader()
        await asyncio.get_running_loop().connect_read_pipe(lambda: asyncio.StreamReaderProtocol(reader), sys.stdin)
        while (line := await next_line(reader)) is not None:
            self.read(line)

    async def say_until_heard(self, message: str) -> None:
        """Sends a text on the path five times a second. Ends a second after the first chat was received."""
        deadline = None
        while deadline is None or asyncio.get_running_loop().time() < deadline:
            if self.path:
                self.loop.send(self.path.source, self.path.destination, message.encode())
            if deadline is None and self.heard.is_set() and self.path:
                deadline = asyncio.get_running_loop().time() + 1
            await asyncio.sleep(0.2)
        self.ended.set()

    async def run(self, addresses: list[str], patience: float | None) -> int:
        """Runs the session, and returns the exit status."""
        for ip in addresses:
            await self.loop.bind(ip)
        say(self.signal())
        self.loop.gather()
        tasks = [asyncio.ensure_future(self.read_all())]
        if self.message:
            tasks.append(asyncio.ensure_future(self.say_until_heard(self.message)))
        try:
            await asyncio.wait_for(self.ended.wait(), patience)
            return 0
        except asyncio.TimeoutError:
            tell(f"peer: out of time; {self.loop.tried()}")
            return 1
        finally:
            for task in tasks:
                task.cancel()
            self.loop.close()
            await self.loop.wait_closed()


async def next_line(reader: asyncio.StreamReader) -> str | None:
    """Returns the next line, or None at the end. Bytes that are not UTF-8 are replaced, and a line that is too long is left out."""
    is_too_long = False
    while True:
        try:
            text = await reader.readuntil()
        except asyncio.IncompleteReadError as end:
            text = end.partial
        except asyncio.LimitOverrunError as over:
            await reader.readexactly(over.consumed)
            is_too_long = True
            continue
        if not is_too_long:
            return text.decode(errors="replace").rstrip("\r\n") if text else None
        tell("peer: a line is too long")
        is_too_long = False


def say(line: str) -> None:
    """Prints a line for the other peer."""
    print(line, flush=True)


def tell(line: str) -> None:
    """Prints a line for the user."""
    print(line, file=sys.stderr, flush=True)


def main() -> int:
    """The program: returns its exit status."""
    parser = argparse.ArgumentParser(description="Connects to another peer over UDP, and lets both users chat.")
    parser.add_argument("-a", "--address", action="append", metavar="ADDRESS",
                        help="binds a socket at this IP address of the machine; may be repeated; without -a: 127.0.0.1")
    parser.add_argument("-s", "--server", action="append", default=[], metavar="URL",
                        help="asks a server for candidates: stun:stun.example.org, turn:192.0.2.1?transport=tcp; may be repeated")
    parser.add_argument("-u", "--user", metavar="USER", help="the user name for TURN servers")
    parser.add_argument("-k", "--password", metavar="PASSWORD", help="the password for it")
    parser.add_argument("-m", "--message", metavar="TEXT", help="sends TEXT until chat was received, and ends a second later")
    parser.add_argument("-t", "--time", type=float, metavar="SECONDS", help="ends with status 1 after this time")
    parser.add_argument("role", choices=("controlling", "controlled"), help="controlling: the side that begins, as with an offer")
    options = parser.parse_args()

    async def run() -> int:
        """Creates the peer inside the event loop, and runs it."""
        servers = [IceServer(options.server, options.user, options.password)]
        try:
            peer = Peer(options.role == "controlling", options.message, servers)
        except BadUrl as error:
            parser.error(f"-s: {error}")
        return await peer.run(options.address or ["127.0.0.1"], options.time)

    return asyncio.run(run())


if __name__ == "__main__":
    sys.exit(main())
