"""rtpengine, which reads and prints the lines of c/examples/peer.c (Debian: rtpengine-daemon).

usage: rtpengine_peer.py -a ADDRESS [-a ADDRESS].. [-L] [-l] [-t] controlling|controlled

Each session has a server of its own, controlled by the ng protocol. One leg of its call is the ICE session with the other peer, and
the second one is plain UDP to this program, by which chat comes and goes. rtpengine makes the offer if it begins as controlling.
-L: rtpengine is lite. -l: the other peer is lite. -t: candidates of the other peer follow later.
"""
import argparse
import asyncio
import json
import re
import socket

from lines import Signal, end_server, joined, play, report, report_heard, start_server

FIRST_PORT, LAST_PORT, PORTS = 20000, 60000, 40
CALL = "session"


def arguments():
    """Reads the options."""
    parser = argparse.ArgumentParser()
    parser.add_argument("-a", action="append", required=True)
    for option in ("-L", "-l", "-t"):
        parser.add_argument(option, action="store_true")
    parser.add_argument("role", choices=("controlling", "controlled"))
    return parser.parse_args()


def reserve_ports():
    """Reserves a range of ports, which servers of other sessions do not use. Returns its first port and the socket that holds it."""
    for port in range(FIRST_PORT, LAST_PORT, PORTS):
        holder = socket.socket(socket.AF_INET, socket.SOCK_DGRAM)
        try:
            holder.bind(("127.0.0.1", port))
            return port, holder
        except OSError:
            holder.close()
    raise SystemExit("rtpengine_peer: no ports are left")


class Control(asyncio.DatagramProtocol):
    """The ng protocol: a datagram for each command, and one for its result."""

    def __init__(self):
        self.results, self.count = {}, 0

    def connection_made(self, transport):
        self.transport = transport

    def datagram_received(self, data, _):
        cookie, _, text = data.decode().partition(" ")
        if waiting := self.results.pop(cookie, None):
            waiting.set_result(json.loads(text))

    async def call(self, command, **parameters):
        """Gives a command, and returns its result."""
        self.count += 1
        cookie, message = f"c{self.count}", {"command": command, "call-id": CALL, **parameters}
        self.results[cookie] = asyncio.get_running_loop().create_future()
        self.transport.sendto(f"{cookie} {json.dumps(message)}".encode())
        result = await asyncio.wait_for(self.results[cookie], 5)
        if result["result"] != "ok":
            report("rtpengine:", result)
        return result


class Plain(asyncio.DatagramProtocol):
    """The plain leg."""

    def connection_made(self, transport):
        self.transport = transport

    def datagram_received(self, data, _):
        report_heard(data)


class Log:
    """What the server's log says: when it is ready, and which pair ICE uses."""

    def __init__(self, stream):
        self.stream, self.ready = stream, asyncio.Event()
        self.ports, self.far, self.is_completed = {}, None, False  # the ports of the local addresses

    async def read(self):
        """Reports states and paths."""
        while line := (await self.stream.readline()).decode(errors="replace"):
            if "Startup complete" in line:
                self.ready.set()
            elif "ICE completed, using pair" in line:
                self.is_completed = True
                report("state connected")
            elif found := re.search(r"ICE negotiated: (?:new )?peer for component 1 is (\S+)", line):
                self.far = found[1]
            elif found := re.search(r"ICE negotiated: local interface (\S+)", line):
                if self.is_completed:
                    report("path", joined(found[1], self.ports[found[1]]), self.far)
            elif "ICE restart" in line:
                self.is_completed = False
            elif re.search(r"\] ICE role|conflict|WARN|ERR", line):
                report("rtpengine:", line.strip())


class Peer:
    """A call of rtpengine."""

    def __init__(self, options):
        self.options, self.remote, self.version = options, None, 1
        self.target = None  # where the server takes chat for the other peer

    async def begin(self):
        """Starts the server, and makes an offer if it begins as controlling."""
        port, self.holder = reserve_ports()
        addresses = [f"--interface={address}" for address in self.options.a]
        ports = (f"--listen-ng=127.0.0.1:{port + 1}", f"--port-min={port + 2}", f"--port-max={port + PORTS - 1}")
        self.server = await start_server("rtpengine", "--config-file=none", "--foreground", "--log-stderr", "--table=-1", "--num-threads=2",
                                         "--log-level=6", "--log-level-ice=7", *addresses, *ports)
        self.log, loop = Log(self.server.stderr), asyncio.get_running_loop()
        self.reading = asyncio.ensure_future(self.log.read())
        await self.log.ready.wait()
        _, self.control = await loop.create_datagram_endpoint(Control, remote_addr=("127.0.0.1", port + 1))
        _, self.plain = await loop.create_datagram_endpoint(Plain, local_addr=(self.options.a[0], 0))
        if self.options.role == "controlling":
            await self.offer()

    async def end(self):
        await end_server(self.server)

    # ---- session descriptions

    def description(self, host, port, lines=(), lite=False):
        """A description of one audio stream at this address, with these attributes of ICE."""
        self.version += 1
        kind = "IP6" if ":" in host else "IP4"
        head = ["v=0", f"o=- 5 {self.version} IN {kind} {host}", "s=-", f"c=IN {kind} {host}", "t=0 0"]
        stream = [f"m=audio {port} RTP/AVP 8", "a=rtpmap:8 PCMA/8000", "a=sendrecv", "a=rtcp-mux", "a=mid:0"]
        return "\r\n".join([*head, *(["a=ice-lite"] if lite else []), *stream, *lines, ""])

    def of_plain(self):
        """The description of the plain leg."""
        return self.description(*self.plain.transport.get_extra_info("sockname")[:2])

    def of_remote(self):
        """The description of the other peer."""
        words = self.remote.candidates[0].split() if self.remote.candidates else None
        host, port = (words[4], words[5]) if words else (self.options.a[0], 9)
        options = ["a=ice-options:trickle"] if self.options.t else []
        return self.description(host, port, [*options, *self.remote.attributes()], self.options.l)

    def flags(self, *more):
        return ["trust-address", *(["trickle ICE"] if self.options.t else []), *more]

    # ---- offers and answers

    async def offer(self, *more):
        """Offers to the other peer."""
        lite = {"ICE-lite": "forward"} if self.options.L else {}
        tags = {"from-tag": "plain"} | ({"to-tag": "ice"} if self.remote else {})
        result = await self.control.call("offer", **tags, sdp=self.of_plain(), ICE="force", flags=self.flags(*more), replace=["origin"],
                                         **{"rtcp-mux": ["require"]}, **lite)
        self.own(result["sdp"]).print()

    async def take_answer(self):
        """Takes the other peer's answer."""
        result = await self.control.call("answer", **{"from-tag": "plain", "to-tag": "ice"}, sdp=self.of_remote(), ICE="remove",
                                         flags=self.flags(), replace=["origin"])
        self.find_target(result["sdp"])

    async def take_offer(self):
        """Takes the other peer's offer. Returns the answer to it."""
        lite = {"ICE-lite": "backward"} if self.options.L else {}
        result = await self.control.call("offer", **{"from-tag": "ice", "rtcp-mux": ["demux"]}, sdp=self.of_remote(), ICE="remove",
                                         flags=self.flags(), replace=["origin"], **lite)
        self.find_target(result["sdp"])
        result = await self.control.call("answer", **{"from-tag": "ice", "to-tag": "plain"}, sdp=self.of_plain(), ICE="force",
                                         flags=self.flags(), replace=["origin"])
        return self.own(result["sdp"])

    def own(self, sdp):
        """Reads the server's description for the other peer."""
        if self.options.L != ("a=ice-lite" in sdp.split()):
            raise SystemExit("rtpengine_peer: its description is lite, or should be")
        signal = Signal.of_description(sdp)
        self.log.ports = {words[4]: words[5] for words in map(str.split, signal.candidates)}
        return signal

    def find_target(self, sdp):
        self.target = (re.search(r"c=IN IP\d (\S+)", sdp)[1], int(re.search(r"m=audio (\d+)", sdp)[1]))

    async def take_remote(self, is_new):
        """Passes what is known of the other peer to the server."""
        if self.options.role == "controlling":
            await self.take_answer()
        else:
            answer = await self.take_offer()
            if is_new:
                answer.print()

    async def take(self, line):
        """Takes a line of standard input."""
        if line.startswith("signal "):
            self.remote = Signal.of_line(line)
            await self.take_remote(True)
        elif line.startswith("candidate:"):  # the server takes no single candidate: it gets all once more
            self.remote.candidates.append(line)
            await self.take_remote(False)
        elif line == "/restart" and self.options.role == "controlling":
            await self.offer("reset")
        elif line.startswith("/"):
            report("rtpengine_peer: unknown command", line)
        elif line and self.target:
            self.plain.transport.sendto(line.encode(), self.target)


asyncio.run(play(Peer(arguments())))
