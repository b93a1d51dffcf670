"""The lines of c/examples/peer.c for peers that run in asyncio around a server, and the server's process."""
import asyncio
import contextlib
import ctypes
import signal
import sys
from dataclasses import dataclass, field

PR_SET_PDEATHSIG = 1


def report(*words):
    """Prints a line on standard error."""
    print(*words, file=sys.stderr, flush=True)


def report_heard(data):
    """Prints a received datagram."""
    report("heard", "".join(c if c.isprintable() else "?" for c in data.decode(errors="replace")))


def joined(host, port):
    """The transport address as text."""
    return f"[{host}]:{port}" if ":" in host else f"{host}:{port}"


@dataclass
class Signal:
    """The ICE credentials and candidates of one side."""

    ufrag: str
    password: str
    candidates: list = field(default_factory=list)

    @classmethod
    def of_line(cls, line):
        """Reads a line `signal UFRAG PASSWORD CANDIDATE,CANDIDATE,..`."""
        _, ufrag, password, *rest = line.split(" ", 3)
        return cls(ufrag, password, [candidate for candidate in "".join(rest).split(",") if candidate])

    @classmethod
    def of_description(cls, sdp):
        """Reads the attributes of a session description (RFC 8839). Candidates of other components than 1 are left out."""
        lines = [line[2:] for line in sdp.splitlines() if line.startswith("a=")]
        told = dict(line.split(":", 1) for line in lines if line.startswith(("ice-ufrag:", "ice-pwd:")))
        candidates = [line for line in lines if line.startswith("candidate:") and line.split()[1] == "1"]
        return cls(told["ice-ufrag"], told["ice-pwd"], candidates)

    def print(self):
        """Prints the line for the other side."""
        print("signal", self.ufrag, self.password, ",".join(self.candidates), flush=True)

    def attributes(self):
        """The lines of a session description."""
        return [f"a=ice-ufrag:{self.ufrag}", f"a=ice-pwd:{self.password}", *(f"a={candidate}" for candidate in self.candidates)]


async def commands():
    """The lines of standard input, until /quit or the end."""
    reader = asyncio.StreamReader(limit=1 << 20)
    await asyncio.get_running_loop().connect_read_pipe(lambda: asyncio.StreamReaderProtocol(reader), sys.stdin)
    while (line := (await reader.readline()).decode()) and line.strip() != "/quit":
        yield line.rstrip("\r\n")


async def play(peer):
    """Runs a peer: its beginning, its `take` for each line, and its end."""
    await peer.begin()
    async for line in commands():
        await peer.take(line)
    await peer.end()


def die_with_parent():
    ctypes.CDLL(None).prctl(PR_SET_PDEATHSIG, signal.SIGKILL, 0, 0, 0)


async def start_server(*words):
    """Starts a server, whose standard error can be read. It ends with this process, also if that is killed."""
    quiet = asyncio.subprocess.DEVNULL
    return await asyncio.create_subprocess_exec(
        *words, stdin=quiet, stdout=quiet, stderr=asyncio.subprocess.PIPE, limit=1 << 20, preexec_fn=die_with_parent)


async def end_server(server):
    """Ends a server, and waits until it has ended."""
    with contextlib.suppress(ProcessLookupError):
        server.kill()
    await server.wait()
