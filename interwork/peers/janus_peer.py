"""Janus, which reads and prints the lines of c/examples/peer.c (Debian: janus).

usage: janus_peer.py -a ADDRESS [-a ADDRESS].. [-L] [-l] [-T] [-t] controlling|controlled

Each session has a server of its own, controlled by its Unix sockets. If Janus begins as controlling, its streaming plugin makes the offer;
else its echo test answers. There is no chat: once it has a path Janus begins with DTLS, which the other peer does not speak.
-L: Janus is lite. -l: the other peer is lite. -T: candidates of Janus follow later. -t: those of the other peer do.
"""
import argparse
import asyncio
import json
import re
import socket
import tempfile
from pathlib import Path

from lines import Signal, end_server, joined, play, report, start_server

SECRET = "secret"
FINGERPRINT = ":".join(["AB"] * 32)  # of no certificate: DTLS does not get that far
STARTS = 10  # before this peer gives up
INTERVAL = 0.01  # seconds between two questions for the selected pair
MODULES = next(Path("/usr/lib").glob("*/janus"), Path("/usr/lib/janus"))
PLUGINS = {"controlling": "streaming", "controlled": "echotest"}


def arguments():
    """Reads the options."""
    parser = argparse.ArgumentParser()
    parser.add_argument("-a", action="append", required=True)
    for option in ("-L", "-l", "-T", "-t"):
        parser.add_argument(option, action="store_true")
    parser.add_argument("role", choices=tuple(PLUGINS))
    return parser.parse_args()


def others(kind, *names):
    """The files of all modules of this kind except for these, as Janus takes them."""
    files = {file.name for file in (MODULES / kind).glob("*.so")} - {f"libjanus_{name}.so" for name in names}
    return json.dumps(",".join(sorted(files)))


def configuration(folder, options):
    """The server's configuration files, by name."""
    def truth(value):
        return str(value).lower()

    return {
        "janus.jcfg": f"""
            general: {{ configs_folder = "{folder}", plugins_folder = "{MODULES}/plugins", transports_folder = "{MODULES}/transports",
                        events_folder = "{folder}/none", loggers_folder = "{folder}/none", admin_secret = "{SECRET}", debug_level = 4,
                        interface = "127.0.0.1" }}
            media: {{ ipv6 = true, ipv6_linklocal = false }}
            nat: {{ full_trickle = {truth(options.T)}, ice_lite = {truth(options.L)}, ice_tcp = false,
                    ice_enforce_list = "{",".join(options.a)}" }}
            plugins: {{ disable = {others("plugins", *PLUGINS.values())} }}
            transports: {{ disable = {others("transports", "pfunix")} }}""",
        "janus.transport.pfunix.jcfg": f"""
            general: {{ enabled = true, json = "compact", path = "{folder}/api", type = "SOCK_SEQPACKET" }}
            admin: {{ admin_enabled = true, admin_path = "{folder}/admin", admin_type = "SOCK_SEQPACKET" }}""",
        "janus.plugin.echotest.jcfg": "general: { }",
        "janus.plugin.streaming.jcfg": """
            stream: { type = "rtp", id = 1, audio = true, video = false, audioport = 0, audiopt = 111, audiocodec = "opus" }""",
    }


class Connection:
    """A connection to the server: a JSON text for each message."""

    @classmethod
    async def open(cls, path, server):
        """Connects as soon as the server listens. OSError if it ends."""
        self = cls()
        self.socket = socket.socket(socket.AF_UNIX, socket.SOCK_SEQPACKET)
        self.socket.setblocking(False)
        while server.returncode is None:
            try:
                self.socket.connect(str(path))
                return self
            except OSError:
                await asyncio.sleep(0.02)
        raise ConnectionError("the server has ended")

    async def send(self, message):
        await asyncio.get_running_loop().sock_sendall(self.socket, json.dumps(message).encode())

    async def receive(self):
        message = await asyncio.get_running_loop().sock_recv(self.socket, 1 << 20)
        if not message:
            raise ConnectionError("the server has closed the connection")
        return json.loads(message)


def end_of(text):
    """The transport address of a text like `10.7.0.2:5000 [host,udp]`."""
    host, port = text.split(" ")[0].rsplit(":", 1)
    return joined(host, port)


class Peer:
    """A handle of Janus."""

    def __init__(self, options):
        self.options, self.remote, self.version = options, None, 1
        self.own, self.has_own = None, asyncio.Event()  # Janus' last description
        self.early = []  # Janus' candidates that came before its description
        self.names, self.waiting, self.count = {}, {}, 0  # the ids of session and handle; futures by transaction
        self.last = {}  # what was reported last, by word

    async def begin(self):
        """Starts the server, and lets it make an offer if it begins as controlling."""
        self.folder = tempfile.TemporaryDirectory(prefix="janus")
        folder = Path(self.folder.name)
        for name, text in configuration(folder, self.options).items():
            (folder / name).write_text(text)
        await self.start(folder)
        self.tasks = [asyncio.ensure_future(self.read())]
        self.names["session_id"] = (await self.call("create"))["data"]["id"]
        self.names["handle_id"] = (await self.call("attach", plugin=f"janus.plugin.{PLUGINS[self.options.role]}"))["data"]["id"]
        self.tasks.append(asyncio.ensure_future(self.watch()))
        if self.options.role == "controlling":
            await self.call("message", body={"request": "watch", "id": 1})
            await self.has_own.wait()

    async def start(self, folder):
        """Starts the server. Some starts fail: the thread of its Unix sockets ends if it runs before the server marks it as needed."""
        for _ in range(STARTS):
            self.server = await start_server("janus", "-F", folder, "-o")
            try:
                return await asyncio.wait_for(self.reach(folder), 5)
            except (OSError, asyncio.TimeoutError):
                await end_server(self.server)
        raise SystemExit(f"janus_peer: {STARTS} starts failed")

    async def reach(self, folder):
        """Connects to the server, and waits until it responds. OSError if it ends."""
        self.api, self.admin = [await Connection.open(folder / name, self.server) for name in ("api", "admin")]
        await self.api.send({"janus": "ping", "transaction": "start"})
        await self.api.receive()

    async def end(self):
        for task in self.tasks:
            task.cancel()
        await end_server(self.server)
        self.folder.cleanup()

    # ---- messages to and from the server

    async def call(self, what, seconds=5, **more):
        """Sends a request, and returns the server's first response."""
        self.count += 1
        number = str(self.count)
        self.waiting[number] = asyncio.get_running_loop().create_future()
        await self.api.send({"janus": what, "transaction": number, **self.names, **more})
        return await asyncio.wait_for(self.waiting[number], seconds)

    async def read(self):
        """Takes what the server sends."""
        while True:
            message = await self.api.receive()
            kind, waiting = message["janus"], self.waiting.pop(message.get("transaction"), None)
            if waiting and not waiting.done():
                waiting.set_result(message)
            if kind == "trickle" and "candidate" in message["candidate"]:
                self.take_own_candidate("candidate:" + message["candidate"]["candidate"].removeprefix("candidate:"))
            elif kind == "event" and "jsep" in message:
                self.take_description(message["jsep"]["sdp"])
            elif kind in ("error", "event", "hangup"):
                report("janus:", json.dumps(message))

    def take_description(self, sdp):
        """Takes Janus' description, and prints its signal."""
        if self.options.L != ("a=ice-lite" in sdp.split()):
            raise SystemExit("janus_peer: its description is lite, or should be")
        self.own = sdp
        Signal.of_description(sdp).print()
        self.has_own.set()
        while self.early:
            print(self.early.pop(0), flush=True)

    def take_own_candidate(self, line):
        """Prints a candidate of Janus, after its signal."""
        if self.has_own.is_set():
            print(line, flush=True)
        else:
            self.early.append(line)

    async def watch(self):
        """Reports the ICE state and the selected pair whenever they change."""
        question = {"janus": "handle_info", "transaction": "watch", "admin_secret": SECRET, **self.names}
        while True:
            await self.admin.send(question)
            info = (await self.admin.receive()).get("info", {})
            ice = info.get("webrtc", {}).get("ice", {})
            self.note("janus:", info.get("ice-role"))
            self.note("state", ice.get("state"))
            pair = ice.get("selected-pair") if ice.get("state") in ("connected", "ready") else None
            self.note("path", pair and " ".join(end_of(end) for end in pair.split(" <-> ")))
            await asyncio.sleep(INTERVAL)

    def note(self, word, value):
        """Reports a value that has changed. None: there is none, and the next one is a change."""
        if value != self.last.get(word):
            self.last[word] = value
            if value:
                report(word, value)

    # ---- the other peer

    def description(self):
        """The other peer's description: an offer, or the answer to Janus' offer."""
        self.version += 1
        stream, mid, more = "m=audio 9 UDP/TLS/RTP/SAVPF 111", "0", ["a=sendrecv", "a=setup:actpass"]
        if self.options.role == "controlling":
            stream, mid = (re.search(pattern, self.own)[0].strip() for pattern in ("m=audio .*", r"(?<=a=mid:)\S+"))
            more = ["a=recvonly", "a=setup:passive"]
        head = ["v=0", f"o=- 1 {self.version} IN IP4 127.0.0.1", "s=-", "t=0 0", f"a=group:BUNDLE {mid}"]
        options = (["a=ice-options:trickle"] if self.options.t else []) + ["a=rtcp-mux", f"a=fingerprint:sha-256 {FINGERPRINT}"]
        ends = [] if self.options.t else ["a=end-of-candidates"]
        return "\r\n".join([*head, *(["a=ice-lite"] if self.options.l else []), stream, "c=IN IP4 0.0.0.0", f"a=mid:{mid}",
                            "a=rtpmap:111 opus/48000/2", *more, *options, *self.remote.attributes(), *ends, ""])

    async def take_remote(self):
        """Passes the other peer's description to Janus."""
        is_answer = self.options.role == "controlling"
        jsep = {"type": "answer" if is_answer else "offer", "sdp": self.description(), "trickle": self.options.t}
        await self.call("message", body={"request": "start"} if is_answer else {"audio": True, "video": False}, jsep=jsep)

    async def take(self, line):
        """Takes a line of standard input."""
        if line.startswith("signal "):
            self.remote = Signal.of_line(line)
            await self.take_remote()
        elif line.startswith("candidate:"):
            await self.call("trickle", candidate={"candidate": line, "sdpMLineIndex": 0})
        elif line == "/restart" and self.options.role == "controlling":
            await self.call("message", body={"request": "watch", "id": 1, "restart": True})
        elif line.startswith("/"):
            report("janus_peer: unknown command", line)


asyncio.run(play(Peer(arguments())))
