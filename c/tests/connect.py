"""Tests two runs of the program peer over loopback, and carries the signaling between them.

Usage: connect.py PEER [CASE ..]. Prints a line for each case, and 'N passed, M failed'. The status is 0 if all passed. IS_ICE_PATIENCE=4
waits four times as long for each line, as for programs in an emulator.
"""
import os
import queue
import re
import socket
import struct
import subprocess
import sys
import threading
import time

PATIENCE = 15 * int(os.environ.get("IS_ICE_PATIENCE", "1"))
LIFE = ("-t", str(2 * PATIENCE))
ROLES = ("controlling", "controlled")


class Failed(Exception):
    pass


class Peer:
    """A run of the program, whose lines are read as they arrive."""

    runs = []

    def __init__(self, *words):
        pipe = subprocess.PIPE
        self.run = subprocess.Popen([PEER, *words], stdin=pipe, stdout=pipe, stderr=subprocess.STDOUT, text=True, bufsize=1)
        self.lines, self.told = queue.Queue(), []
        threading.Thread(target=self.read, daemon=True).start()
        Peer.runs.append(self.run)

    def read(self):
        for line in self.run.stdout:
            self.lines.put(line.rstrip("\n"))
        self.lines.put(None)

    def says(self, begins, patience=PATIENCE):
        """Waits for a line with this beginning, removes it and returns its rest."""
        end = time.monotonic() + patience
        while True:
            for place, line in enumerate(self.told):
                if line.startswith(begins):
                    return self.told.pop(place)[len(begins):]
            try:
                line = self.lines.get(timeout=max(0.01, end - time.monotonic()))
            except queue.Empty:
                raise Failed(f"no line {begins!r} among {self.told}") from None
            if line is None:
                raise Failed(f"ended before {begins!r}, after {self.told}")
            self.told.append(line)

    def hears(self, line):
        try:
            self.run.stdin.write(line + "\n")
            self.run.stdin.flush()
        except BrokenPipeError:
            raise Failed(f"ended before it heard {line!r}, after {self.told}") from None

    def ends(self, status=0):
        """Waits for the end, and returns the lines that no `says` removed."""
        try:
            got = self.run.wait(PATIENCE)
        except subprocess.TimeoutExpired:
            raise Failed(f"no end after {self.told}") from None
        self.told += iter(self.lines.get, None)
        if got != status:
            raise Failed(f"status {got}: {self.told}")
        return "\n".join(self.told)


def pair(*words, roles=ROLES):
    return [Peer(*LIFE, *words, role) for role in roles]


def introduce(a, b):
    for one, other, signal in ((b, a, a.says("signal ")), (a, b, b.says("signal "))):
        one.hears("signal " + signal)


def connected(a, b):
    """Waits until both report a path. It must be the same one from both ends; returns it."""
    ends = [tuple(side.says("path ").split()) for side in (a, b)]
    if ends[0] != ends[1][::-1]:
        raise Failed(f"the paths differ: {ends}")
    return ends[0]


def talk(a, b):
    """Sends a line of chat each way. Loopback loses none, but the other end may select the path a little later."""
    for one, other in ((a, b), (b, a)):
        one.hears("good morning")
        if other.says("heard ") != "good morning":
            raise Failed(f"{other.told}")
    for side in (a, b):
        side.hears("/quit")
        side.ends()


# ---- cases

def roles():
    """A message each way, for each combination of roles: role conflicts are resolved."""
    for both in (ROLES, ROLES[::-1], ROLES[:1] * 2, ROLES[1:] * 2):
        peers = pair("-a", "127.0.0.1", "-m", "hello", roles=both)
        introduce(*peers)
        for peer in peers:
            peer.says("heard hello")
        for peer in peers:
            peer.ends()


def families():
    """IPv6; and several addresses, of which IPv6 has the highest priority."""
    for words in (("-a", "::1"), ("-a", "127.0.0.1", "-a", "::1", "-a", "127.0.0.2")):
        a, b = pair(*words)
        introduce(a, b)
        talk_over(a, b, "[::1]:")


def talk_over(a, b, begins):
    """Waits until the path has addresses with this beginning at both ends, and talks."""
    for side in (a, b):
        while not all(end.startswith(begins) for end in side.says("path ").split()):
            pass
    talk(a, b)


def interfaces():
    """All addresses of the machine's interfaces, also loopback addresses."""
    a, b = pair("-l")
    introduce(a, b)
    for side in (a, b):
        side.says("path ")
        side.says("state Co")
    talk(a, b)


def trickle():
    """Candidates that arrive one by one after the signal; a better one replaces the selected pair."""
    a, b = pair("-a", "127.0.0.1", "-a", "::1")
    signals = [side.says("signal ").split(" ", 2) for side in (a, b)]
    for side, (ufrag, password, _) in zip((b, a), signals):
        side.hears(f"signal {ufrag} {password}")
    lines = [signal[2].split(",") for signal in signals]
    for side, (v4, _) in zip((b, a), lines):
        side.hears(v4)
    first = connected(a, b)
    if not first[0].startswith("127.0.0.1:"):
        raise Failed(f"first {first}")
    for side, (_, v6) in zip((b, a), lines):
        side.hears(v6)
    talk_over(a, b, "[::1]:")


def removed():
    """A pair that a check brings is replaced when its candidate is signaled, and /pairs says so."""
    a, b = pair("-a", "127.0.0.1")
    ufrag, password, candidate = b.says("signal ").split(" ", 2)
    a.hears(f"signal {ufrag} {password}")
    ours = a.says("signal ")
    b.hears("signal " + ours)
    address = a.says("source ")
    a.hears(candidate)
    time.sleep(0.2)  # the pair is replaced when pairs are formed next
    a.hears("/pairs")
    said = a.says(f"{ours.split()[0]}: removed 127.0.0.1:")
    if not re.search(rf" -> {re.escape(address)} [a-z ]+, \d+ checks sent, \d+ answered: replaced$", said):
        raise Failed(said)
    connected(a, b)
    talk(a, b)


def restart():
    """One side restarts and the other follows: both report the path again, and talk."""
    a, b = pair("-a", "127.0.0.1")
    introduce(a, b)
    before = connected(a, b)
    a.hears("/restart")
    b.hears("signal " + a.says("signal "))
    a.hears("signal " + b.says("signal "))
    for side in (a, b):
        side.says("session begins")
    if connected(a, b) != before:
        raise Failed("another path")
    talk(a, b)


def lite():
    """A lite agent, which is controlled, with a full one in either role: if both are controlled, the full one switches."""
    for role in ROLES:
        a, b = Peer(*LIFE, "-a", "127.0.0.1", role), Peer(*LIFE, "-a", "127.0.0.1", "-L", "controlled")
        introduce(a, b)
        connected(a, b)
        talk(a, b)


def renomination():
    """Both have the option."""
    a, b = pair("-a", "127.0.0.1", "-r")
    introduce(a, b)
    connected(a, b)
    talk(a, b)


def serve(server):
    """A STUN server that loses the first request of each client: it sees the client at 192.0.2.9 and its port."""
    seen = set()
    while True:
        bytes_, source = server.recvfrom(2048)
        if bytes_ == b"stop":
            return
        if source not in seen:
            seen.add(source)
            continue
        port, ip = source[1] ^ 0x2112, bytes(a ^ b for a, b in zip((192, 0, 2, 9), bytes_[4:8]))
        unknown = struct.pack(">HH5sxxx", 0x8022, 5, b"tests")
        value = struct.pack(">HHBBH4s", 0x0020, 8, 0, 1, port, ip)
        server.sendto(struct.pack(">HH16s", 0x0101, len(unknown + value), bytes_[4:20]) + unknown + value, source)


def reflexive():
    """A server-reflexive candidate is printed as a line of its own, after the signal."""
    server = socket.socket(socket.AF_INET, socket.SOCK_DGRAM)
    server.bind(("127.0.0.1", 0))
    thread = threading.Thread(target=serve, args=(server,), daemon=True)
    thread.start()
    a = Peer(*LIFE, "-a", "127.0.0.1", "-s", f"127.0.0.1:{server.getsockname()[1]}", "controlling")
    b = Peer(*LIFE, "-a", "127.0.0.1", "controlled")
    introduce(a, b)
    line = "candidate:" + a.says("candidate:")
    if " 192.0.2.9 " not in line or " typ srflx" not in line:
        raise Failed(line)
    b.hears(line)
    server.sendto(b"stop", server.getsockname())
    thread.join()
    server.close()
    connected(a, b)
    talk(a, b)


def silent_server():
    """The peers connect although their STUN server does not respond."""
    silent = socket.socket(socket.AF_INET, socket.SOCK_DGRAM)
    silent.bind(("127.0.0.1", 0))
    a, b = pair("-a", "127.0.0.1", "-s", f"127.0.0.1:{silent.getsockname()[1]}")
    introduce(a, b)
    connected(a, b)
    talk(a, b)
    silent.close()


def mdns():
    """A candidate with an mDNS name is left out; its address is discovered from the other peer's checks."""
    a, b = pair("-a", "127.0.0.1")
    ufrag, password, candidate = b.says("signal ").split(" ", 2)
    hidden = candidate.replace(" 127.0.0.1 ", " 3f2b8c1e-5c1e-4b0a-9f5e-1f2e3d4c5b6a.local ")
    a.hears(f"signal {ufrag} {password} {hidden}")
    b.hears("signal " + a.says("signal "))
    if hidden not in a.says("peer: left out "):
        raise Failed(hidden)
    connected(a, b)
    talk(a, b)


def replay():
    """Replayed requests are discovered sources, and keep nobody from being heard; the one who replays is not heard."""
    tap = socket.socket(socket.AF_INET, socket.SOCK_DGRAM)
    tap.bind(("127.0.0.1", 0))
    tap.settimeout(PATIENCE)
    a, b = pair("-a", "127.0.0.1")
    introduce(a, b)
    path = connected(a, b)
    b.says("source ")
    a.hears(f"candidate:9 1 udp 7 127.0.0.1 {tap.getsockname()[1]} typ host")
    request = tap.recv(2048)
    host, port = path[1].rsplit(":", 1)
    others = [socket.socket(socket.AF_INET, socket.SOCK_DGRAM) for _ in range(40)]
    for place, other in enumerate(others):
        other.sendto(request, (host, int(port)))
        if place < 30:  # of 32 discovered candidates two may be the peer and the tap; what is beyond the limit is dropped, and not reported
            b.says("source ")
    others[0].sendto(b"good evening", (host, int(port)))
    a.hears("good morning")
    if b.says("heard ") != "good morning":
        raise Failed(f"{b.told}")
    for each in (tap, *others):
        each.close()
    talk(a, b)


HELP = ("-h", "-a ADDRESS", "-l", "-s URL", "-u USER", "-k PASSWORD", "-L", "-r", "-p MILLISECONDS", "-m TEXT", "-t SECONDS", "-w FILE",
        "controlling", "controlled")
BAD_OPTIONS = (
    ("nobody", "usage"), ("-a example controlled", "-a example: not an IP address"),
    ("-a localhost controlled", "-a localhost: not an IP address"), ("-a 0.0.0.0 controlled", "-a 0.0.0.0: the unspecified address"),
    ("-a :: controlled", "-a ::: the unspecified address"), ("-a 203.0.113.1 controlled", "-a 203.0.113.1: "),
    ("-t x controlled", "-t x: not a whole number"), ("-t 90000 controlled", "-t 90000: more than 86400"),
    ("-a 127.0.0.1 -s [::1 controlled", "-s [::1: bad URL"), ("-a 127.0.0.1 -s 127.0.0.1:99999 controlled", "-s 127.0.0.1:99999: bad URL"),
    ("-a 127.0.0.1 -s turns:127.0.0.1 controlled", "-s turns:127.0.0.1: this program has no TLS"),
    ("-w /dev/null/x controlled", "-w /dev/null/x: Not a directory"),
    ("-p 4 controlled", "-p 4: not 5 to 1000 milliseconds"), ("-p 20x controlled", "-p 20x: not 5 to 1000 milliseconds"),
    ("-L controlling", "a lite agent has to be controlled"),
)
BAD_LINES = (
    ("too early", "there is no path"), ("signal", "malformed signal"), ("signal alone", "malformed signal"),
    ("candidate:12344 bad value", "candidate:12344 bad value: "), ("candidate 1 1 udp", "candidate 1 1 udp: "),
    ("a=candidate:1 1 udp 7 127.0.0.1 9 typ host", "without a="), ("a=ice-pwd:secret", "a=ice-pwd:secret: not sent"),
    ("/quite", "/quite: unknown command"), ("x" * 20000, "a line is too long"),
)


def options():
    """-h explains each option, and an error names the option and what is wrong."""
    text = Peer("-h").ends()
    for word in HELP:
        if word not in text:
            raise Failed(f"{word!r} is not in {text!r}")
    for words, error in BAD_OPTIONS:
        said = Peer(*words.split()).ends(2)
        if error not in said:
            raise Failed(f"{words}: {said}")


def errors():
    """A line with an error is reported on standard error, is not sent as chat, and stops nothing else."""
    a, b = pair("-a", "127.0.0.1")
    for line, _ in BAD_LINES:
        a.hears(line)
    introduce(a, b)
    connected(a, b)
    for line, _ in BAD_LINES[1:]:
        a.hears(line)
    for side in (a, b):
        side.hears("/stats")
        side.says("stats sent ")
        side.hears("/pairs")
        if " nominated selected answered " not in side.says("pair 0 from 127.0.0.1:"):
            raise Failed(f"{side.told}")
    a.hears("good morning")
    if b.says("heard ") != "good morning":
        raise Failed(f"{b.told}")
    a.hears("/quit")
    b.hears("/quit")
    b.ends()
    error = a.ends()
    for line, text in BAD_LINES:
        if error.count(text) < 1 + (line != "too early"):
            raise Failed(f"{text!r} is not in {error!r} for each {line[:40]!r}")


def long_candidate():
    """A candidate whose text is longer than the buffer of /pairs is printed by its length, and nothing of the datagrams before it."""
    a = Peer(*LIFE, "-a", "127.0.0.1", "controlled")
    port = int(re.search(r" 127\.0\.0\.1 (\d+) typ host", a.says("signal "))[1])
    candidate = f"candidate:{'a' * 12000} 1 udp 2130706431 127.0.0.1 9 typ host"
    a.hears(f"signal abcdefgh abcdefghijklmnopqrstuv {candidate}")
    with socket.socket(socket.AF_INET, socket.SOCK_DGRAM) as other:
        for _ in range(100):
            other.sendto(b"A" * 2048, ("127.0.0.1", port))
    a.hears("/pairs")
    said = a.says("pair 0 from 127.0.0.1:")
    if not re.search(r" to a candidate of 12\d\d\d bytes ", said) or len(said) > 200:
        raise Failed(said)
    a.hears("/quit")
    rest = a.ends()
    if "AAAA" in said + rest:
        raise Failed(rest)


def late():
    """A peer without a response ends with status 1."""
    a = Peer("-a", "127.0.0.1", "-t", "1", "controlling")
    a.ends(1)


CASES = [roles, families, interfaces, trickle, removed, restart, lite, renomination, reflexive, silent_server, mdns, replay, options,
         errors, long_candidate, late]


def main():
    chosen = [case for case in CASES if case.__name__ in sys.argv[2:] or not sys.argv[2:]]
    failed = 0
    for case in chosen:
        begun = time.monotonic()
        try:
            case()
            print(f"ok   {case.__name__}, {time.monotonic() - begun:.1f} s", flush=True)
        except Failed as why:
            failed += 1
            print(f"FAIL {case.__name__}: {why}", flush=True)
        for run in Peer.runs:
            run.kill()
            run.wait()
        Peer.runs.clear()
    print(f"{len(chosen) - failed} passed, {failed} failed")
    return 1 if failed else 0


if __name__ == "__main__":
    PEER = sys.argv[1]
    sys.exit(main())
