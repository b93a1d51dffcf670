"""Programs that are child processes, and the signaling between two of them.

Each reads and prints the lines of c/examples/peer.c: standard output is for the other one's standard input, and standard error
reports states, paths and what was heard.
"""
import asyncio
import contextlib
import os
import re
import time

CONNECTED = ("connected", "completed", "ready")
TRICKLE = 0.05  # seconds from the signal to its first candidate, and from each candidate to the next one
LATE = re.compile(r" ([\d.]+) s ago$")  # a report of what was so many seconds earlier
PIPE = asyncio.subprocess.PIPE


class Program:
    """A running peer, with what it printed."""

    def __init__(self, stack, words, namespace=None):
        self.stack, self.namespace = stack, namespace
        self.command = [*(["ip", "netns", "exec", namespace] if namespace else []), *stack.command, *words]
        self.events, self.heard, self.paths = [], {}, []  # (time, line); text: time; the selected paths
        self.state, self.path, self.connected_at, self.signal_at, self.ufrag = None, None, None, None, None
        self.other, self.tasks, self.changed = None, [], asyncio.Event()
        self.trickles = False  # whether its candidates are passed on one by one after its signal
        self.relays_only = False  # whether its other candidates are not passed on

    async def start(self):
        """Starts the process. Its signaling waits until `introduce`."""
        env = {**os.environ, **self.stack.environment}
        self.process = await asyncio.create_subprocess_exec(*self.command, stdin=PIPE, stdout=PIPE, stderr=PIPE, env=env, limit=1 << 20)
        self.tasks.append(asyncio.ensure_future(self.read_reports()))

    async def read_signaling(self):
        """Passes each line of standard output to the other program."""
        while line := (await self.process.stdout.readline()).decode(errors="replace").rstrip("\n"):
            line = self.passed_on(line)
            self.events.append((time.monotonic(), "> " + line))
            if line.startswith("signal"):
                self.signal_at, self.ufrag = time.monotonic(), line.split(" ", 2)[1]
            if self.trickles and line.startswith("signal"):
                self.tasks.append(asyncio.ensure_future(self.trickle(line)))
            else:
                self.other.tell(line)

    def passed_on(self, line):
        """What the other program gets of a line."""
        if not self.relays_only or not line.startswith(("signal ", "candidate:")):
            return line
        first = line.split(" ", 3)[:3] if line.startswith("signal ") else []
        candidates = line.removeprefix(" ".join(first)).split(",")
        return " ".join([*first, ",".join(candidate.strip() for candidate in candidates if " typ relay" in candidate)]).strip()

    async def trickle(self, line):
        """Passes a signal without its candidates to the other program, and the candidates later."""
        words = line.split(" ", 3)
        self.other.tell(" ".join(words[:3]))
        for candidate in filter(None, "".join(words[3:]).split(",")):
            await asyncio.sleep(TRICKLE)
            self.other.tell(candidate)

    async def read_reports(self):
        """Reads standard error."""
        while line := (await self.process.stderr.readline()).decode(errors="replace"):
            line, now = line.rstrip("\n"), time.monotonic()
            self.events.append((now, line))
            word, _, rest = line.partition(" ")
            if word == "state":
                self.state = rest.split()[0].lower()
            elif word == "path":
                self.path = tuple(rest.split()[:2])
                self.paths.append(self.path)
            elif word == "heard":
                self.heard.setdefault(rest, now)
            if self.connected_at is None and self.is_connected():
                late = LATE.search(line)
                self.connected_at = now - (float(late[1]) if late else 0)
            self.changed.set()

    def tell(self, line):
        """Writes a line to its standard input. Without effect if it has ended."""
        try:
            self.process.stdin.write((line + "\n").encode())
        except (BrokenPipeError, ConnectionResetError, RuntimeError):
            pass

    def is_connected(self):
        return self.state in CONNECTED and self.path is not None

    def is_running(self):
        return self.process.returncode is None

    def reports(self, since=0):
        """Its lines since an index of `events`, without signaling and what it heard."""
        return [line for _, line in self.events[since:] if not line.startswith((">", "heard"))]

    def usage(self):
        """Its resident memory in KiB, and its processor time in seconds."""
        with open(f"/proc/{self.process.pid}/statm") as file:
            resident = int(file.read().split()[1]) * os.sysconf("SC_PAGE_SIZE") // 1024
        with open(f"/proc/{self.process.pid}/stat") as file:
            words = file.read().rsplit(")", 1)[1].split()
        return resident, (int(words[11]) + int(words[12])) / os.sysconf("SC_CLK_TCK")

    async def end(self):
        """Ends the process: by /quit, and after 10 s by a signal."""
        if self.is_running():
            self.tell("/quit")
            try:
                await asyncio.wait_for(self.process.wait(), 10)
            except asyncio.TimeoutError:
                with contextlib.suppress(ProcessLookupError):  # it ended meanwhile
                    self.process.kill()
                await self.process.wait()
        for task in self.tasks:
            task.cancel()
        await asyncio.gather(*self.tasks, return_exceptions=True)
        self.process._transport.close()  # closes the pipes now, not when it is collected


async def introduce(a, b):
    """Starts both programs, and carries the lines of each to the other from now on."""
    await asyncio.gather(a.start(), b.start())
    a.other, b.other = b, a
    for program in (a, b):
        program.tasks.append(asyncio.ensure_future(program.read_signaling()))


async def until(test, programs, seconds):
    """Waits until the test holds, and returns whether it did in time. It is tried whenever one of the programs reports something."""
    end = time.monotonic() + seconds
    while not test():
        left = end - time.monotonic()
        if left <= 0 or not all(program.is_running() for program in programs):
            return False
        for program in programs:
            program.changed.clear()
        waits = [asyncio.ensure_future(program.changed.wait()) for program in programs]
        await asyncio.wait(waits, timeout=min(left, 0.2), return_when=asyncio.FIRST_COMPLETED)
        for wait in waits:
            wait.cancel()
    return True


def are_connected(a, b):
    return a.is_connected() and b.is_connected()


def is_same_path(a, b):
    """Whether the path of each is that of the other, seen from its end."""
    return a.path is not None and b.path is not None and a.path == b.path[::-1]


async def settle(a, b, quiet=0.5, seconds=12):
    """Waits until both have the same path and keep it for a while. Returns whether they do."""
    end = time.monotonic() + seconds
    while time.monotonic() < end:
        count = len(a.paths) + len(b.paths)
        await asyncio.sleep(quiet)
        if is_same_path(a, b) and count == len(a.paths) + len(b.paths):
            return True
    return False


async def talk(a, b, word, seconds=8, every=0.2):
    """Each sends a text until the other one receives it. Returns whether that of a arrived, and that of b.

    From a stack without chat anything has to arrive; what it receives cannot be seen.
    """
    if not (a.stack.has_chat and b.stack.has_chat):
        return [other.stack.has_chat or await until(lambda: p.heard, (p,), seconds) for p, other in ((b, a), (a, b))]
    texts = {a: f"{word}-from-a", b: f"{word}-from-b"}

    def heard():
        return texts[a] in b.heard, texts[b] in a.heard

    end = time.monotonic() + seconds
    while not all(heard()) and time.monotonic() < end:
        for program, is_heard in zip((a, b), heard()):
            if not is_heard:
                program.tell(texts[program])
        await until(lambda: all(heard()), (a, b), every)
        if not (a.is_running() and b.is_running()):
            break
    return heard()


def log(a, b):
    """Everything that two programs printed, in the order of time."""
    lines = sorted([(t, "a", line) for t, line in a.events] + [(t, "b", line) for t, line in b.events])
    return "\n".join(f"      {t - lines[0][0]:8.3f} {side} {line[:200]}" for t, side, line in lines)
