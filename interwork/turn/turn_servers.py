"""The TURN servers that are played: coturn, pion's, ProcessOne's (of ejabberd and eturnal), and the one of the simulator.

Each listens on a loopback address, over UDP and TCP at one port, and knows one user. Nothing outlives `stop`.
"""
import os
import shutil
import socket
import subprocess
import sys
import tempfile
from pathlib import Path

import servers
import stacks

here = Path(__file__).resolve().parent
USER, PASSWORD, REALM = "user", "secret", "example.org"
GOPATH = Path("/usr/share/gocode")
PROCESS_ONE = """
{{ok, _}} = application:ensure_all_started(stun),
Key = fun(<<"{user}">>, _) -> <<"{password}">>; (_, _) -> <<"">> end,
[ok = stun_listener:add_listener({host}, {port}, Over, [use_turn, {{auth_type, user}}, {{auth_fun, Key}}, {{auth_realm, <<"{realm}">>}},
    {{turn_ipv4_address, {host}}}, {{turn_min_port, 49152}}, {{turn_max_port, 65535}}, {{turn_blacklist, []}},
    {{turn_blacklist_clients, []}}, {{turn_blacklist_peers, []}}]) || Over <- [udp, tcp]]."""


def free_port(host):
    """A port of this host that neither UDP nor TCP uses now."""
    family = socket.AF_INET6 if ":" in host else socket.AF_INET
    while True:
        with socket.socket(family, socket.SOCK_DGRAM) as datagrams, socket.socket(family, socket.SOCK_STREAM) as streams:
            datagrams.bind((host, 0))
            try:
                streams.bind(datagrams.getsockname()[:2])
            except OSError:
                continue
            return datagrams.getsockname()[1]


class Server:
    """A server that runs within a `with` statement. `options` are words of its command line."""

    has_streams = True

    def __init__(self, *options, host="127.0.0.1"):
        self.host, self.options, self.port, self.process = host, options, free_port(host), None
        self.folder = tempfile.TemporaryDirectory(prefix="interwork")

    @property
    def address(self):
        return self.host, self.port

    def start(self):
        """Starts it, and waits until it responds."""
        quiet = subprocess.DEVNULL
        environment = {**os.environ, "HOME": self.folder.name, "ERL_CRASH_DUMP": "/dev/null"}
        self.process = subprocess.Popen(self.command(), stdin=quiet, stdout=quiet, stderr=quiet, env=environment)
        if not servers.responds(30, self.address) or self.has_streams and not servers.accepts(30, self.address):
            raise RuntimeError(f"{self.command()[0]} does not respond")

    def stop(self):
        """Kills it: it knows nothing after another `start`."""
        self.process.kill()
        self.process.wait()

    def __enter__(self):
        self.start()
        return self

    def __exit__(self, *_):
        self.stop()
        self.folder.cleanup()


class Coturn(Server):
    """coturn."""

    package = "coturn"

    def command(self):
        words = f"-n -L {self.host} -E {self.host} -p {self.port} --no-tls --no-dtls --no-cli -a -r {REALM} -u {USER}:{PASSWORD} -m 1" \
                f" --allow-loopback-peers --pidfile {self.folder.name}/pid --db {self.folder.name}/db --log-file /dev/null --simple-log"
        return ["turnserver", *words.split(), *self.options]

    @staticmethod
    def why_not():
        return None if shutil.which("turnserver") else "coturn is not installed"


class Pion(Server):
    """The server of pion/turn, in Go."""

    package = "golang-github-pion-turn.v2-dev"

    def command(self):
        return [str(stacks.out / "pion_server"), f"{self.host}:{self.port}"]

    @staticmethod
    def why_not():
        return built_with_pion("pion_server")


class ProcessOne(Server):
    """The server of erlang-p1-stun, which is that of ejabberd and eturnal."""

    package = "erlang-p1-stun"

    def command(self):
        host = "{" + self.host.replace(".", ",") + "}"
        code = PROCESS_ONE.format(user=USER, password=PASSWORD, realm=REALM, host=host, port=self.port)
        return ["erl", "-noinput", "-eval", code]

    @staticmethod
    def why_not():
        if shutil.which("erl") is None or stacks.package("erlang-p1-stun") == "unknown version":
            return "erlang-p1-stun is not installed"
        return None


class Strict(Server):
    """The server of the simulator, which is strict by RFC 8656, over UDP. Its lifetimes can be short."""

    package = "lab/turn_server.py"
    has_streams = False

    def command(self):
        return [sys.executable, str(here / "strict.py"), self.host, str(self.port), *self.options]

    @staticmethod
    def why_not():
        return None


SERVERS = {"coturn": Coturn, "pion": Pion, "ProcessOne": ProcessOne, "strict": Strict}


def built_with_pion(name):
    """Builds a program of this folder. Returns why it cannot be built, or None."""
    if not (GOPATH / "src/github.com/pion/turn/v2").exists():
        return "golang-github-pion-turn.v2-dev is not installed"
    environment = {**os.environ, "GO111MODULE": "off", "GOPATH": str(GOPATH), "GOCACHE": str(stacks.out / "go")}
    stacks.out.mkdir(exist_ok=True)
    try:
        with stacks.built(name) as program:
            stacks.run("go", "build", "-p", "2", "-o", program, ".", cwd=here / name, env=environment)
    except stacks.Missing as error:
        return str(error)
    return None
