"""A Connection of aioice, or the one of is_ice, which reads and prints the lines of c/examples/peer.c.

usage: connection_peer.py MODULE [-a ADDRESS].. [-s HOST:PORT] [-u HOST:PORT -U USER:PASSWORD] [-R] [-L] [-l] [-t NUMBER]
                          controlling|controlled

MODULE is aioice, or is_ice.connection, which has the same calls. -s names a STUN server, -u a TURN server. -R: it has only relayed
candidates. -l: the other peer is lite.
-L and -t are only for is_ice: it is lite, and its tie-breaker is NUMBER. There is no restart.
"""
import argparse
import asyncio
import functools
import importlib

from lines import joined, play, report, report_heard


def arguments():
    """Reads the options."""
    parser = argparse.ArgumentParser()
    parser.add_argument("module")
    parser.add_argument("-a", action="append", default=[])
    parser.add_argument("-s")
    parser.add_argument("-u")
    parser.add_argument("-U", default=":")
    parser.add_argument("-R", action="store_true")
    parser.add_argument("-L", action="store_true")
    parser.add_argument("-l", action="store_true")
    parser.add_argument("-t", type=int)
    parser.add_argument("role", choices=("controlling", "controlled"))
    return parser.parse_args()


def address(text):
    """Returns HOST:PORT as a tuple."""
    host, port = text.rsplit(":", 1)
    return host, int(port)


class OfAioice:
    """What is particular to aioice."""

    def __init__(self, module, options):
        if options.a:
            importlib.import_module("aioice.ice").get_host_addresses = lambda use_ipv4, use_ipv6: options.a
        self.make = module.Connection
        self.candidate = module.Candidate.from_sdp

    def path(self, connection):
        pair = connection._nominated[1]
        return [joined(*pair.local_addr), joined(*pair.remote_addr)]


class OfIsIce:
    """What is particular to is_ice."""

    def __init__(self, module, options):
        self.options = options
        self.make = functools.partial(module.Connection, addresses=options.a or None)
        if options.t is not None:
            module.IceAgent = functools.partial(module.IceAgent, tie_breaker=options.t)
        self.candidate = str

    def path(self, connection):
        pair = connection.agent.nominated_pair
        return [str(pair.source), str(pair.destination)] if pair else []


class Peer:
    """A session."""

    def __init__(self, options):
        module = importlib.import_module(options.module)
        self.stack = (OfAioice if options.module == "aioice" else OfIsIce)(module, options)
        servers = {"stun_server": address(options.s)} if options.s else {}
        if options.u:
            username, password = options.U.split(":", 1)
            servers.update(turn_server=address(options.u), turn_username=username, turn_password=password)
        if options.R:
            servers.update(transport_policy=module.TransportPolicy.RELAY)
        self.connection = self.stack.make(ice_controlling=options.role == "controlling", **servers)
        self.connection.remote_is_lite = options.l
        if options.L:
            self.connection.agent.set_ice_lite(True)
        self.session, self.last_path = None, []

    async def begin(self):
        """Gathers candidates, and prints the signal."""
        await self.connection.gather_candidates()
        lines = ",".join("candidate:" + str(c.to_sdp()).removeprefix("candidate:") for c in self.connection.local_candidates)
        print("signal", self.connection.local_username, self.connection.local_password, lines, flush=True)

    async def run(self):
        """Connects, and prints what it receives until the connection is lost."""
        try:
            await self.connection.connect()
        except ConnectionError as error:
            report("state failed", error)
            return
        report("state connected")
        watching = asyncio.ensure_future(self.watch())
        try:
            while True:
                report_heard(await self.connection.recv())
        except ConnectionError as error:
            report("state disconnected", error)
        finally:
            watching.cancel()

    async def watch(self):
        """Prints the path whenever it changes."""
        while True:
            path = self.stack.path(self.connection)
            if path and path != self.last_path:
                self.last_path = path
                report("path", *path)
            await asyncio.sleep(0.02)

    async def take(self, line):
        """Takes a line of standard input."""
        if line.startswith("signal "):
            _, self.connection.remote_username, self.connection.remote_password, *lines = line.split(" ", 3)
            for candidate in filter(None, "".join(lines).split(",")):
                await self.add(candidate)
            self.session = asyncio.ensure_future(self.run())  # without end-of-candidates: others may follow
        elif line.startswith("candidate:"):
            await self.add(line)
        elif line.startswith("/"):
            report("peer: unknown command", line)
        elif line:
            try:
                await self.connection.send(line.encode())
            except ConnectionError as error:
                report("peer: not sent:", error)

    async def end(self):
        await self.connection.close()

    async def add(self, line):
        try:
            await self.connection.add_remote_candidate(self.stack.candidate(line.removeprefix("candidate:")))
        except ValueError as error:
            report("peer: left out", line, error)


async def main():
    await play(Peer(arguments()))  # a Connection is made where a loop runs


asyncio.run(main())
