"""Tests that a chat program loses no line: two runs of it, and the signaling between them.

usage: chat_lines.py [--restarts N] PROGRAM [WORD ..]      runs `PROGRAM WORD .. controlling -l` and the same with `controlled`

  restarts  N ICE restarts, 5 without the option, of one and of the other, with lines under way in both directions at each step: all arrive
  twice     one makes two restarts before the other one knows of the first, and both make one at once: all lines arrive, too
  start     a signal and a line wait before the program begins: it takes the signal, and says that there is no path yet
  silence   one is stopped: the other one says that it is silent, and that it was heard again

The status is 0 if no case failed. IS_ICE_PATIENCE=4 waits four times as long for each line, as for programs in an emulator.
"""
import itertools
import signal
import sys
import time

from chat import chats, end, meet
from connect import Failed, Peer, connected, introduce

RESTARTS = 5


class Lines:
    """Lines of both, each one's to the other one, and which ones have not been heard yet."""

    def __init__(self, a, b):
        self.sides, self.numbers, self.sent = (a, b), itertools.count(1), []

    def say(self):
        """Each says one."""
        for one, other in (self.sides, self.sides[::-1]):
            line = f"line {next(self.numbers):06}."
            one.hears(line)
            self.sent.append((other, line))

    def arrive(self):
        """Waits until all of them have been heard."""
        for other, line in self.sent:
            other.says(f"heard {line}")
        self.sent.clear()


def carry(one, other):
    """Takes what one signals to the other one."""
    other.hears("signal " + one.says("signal "))


def case_restarts(count):
    a, b = chats("-l")
    introduce(a, b)
    meet(a, b)
    lines = Lines(a, b)
    for number in range(count):
        one, other = (a, b) if number % 2 else (b, a)
        one.hears("/restart")
        lines.say()
        carry(one, other)
        lines.say()
        carry(other, one)
        lines.say()
        connected(a, b)
        lines.say()
        lines.arrive()
    end(a, b)


def case_twice(_):
    a, b = chats("-l")
    introduce(a, b)
    meet(a, b)
    lines = Lines(a, b)
    for _ in range(2):
        a.hears("/restart")
        lines.say()
    a.says("signal ")  # the first one gets lost
    carry(a, b)
    lines.say()
    carry(b, a)
    connected(a, b)
    lines.arrive()
    for side in (a, b):
        side.hears("/restart")
        lines.say()
    signals = [side.says("signal ") for side in (a, b)]
    a.hears("signal " + signals[1])
    b.hears("signal " + signals[0])
    lines.say()
    lines.arrive()
    connected(a, b)
    end(a, b)


def case_start(_):
    a, b = chats("-l")
    b.hears("too soon")
    if b.says("error ") != "there is no path":
        raise Failed(f"{b.told}")
    introduce(a, b)
    meet(a, b)
    end(a, b)
    a, = chats("-l", roles=("controlling",))
    said = a.says("signal ")
    b, = chats("-l", roles=("controlled",))
    b.hears("signal " + said)  # before it signals: it may not have begun
    carry(b, a)
    meet(a, b)
    end(a, b)


def case_silence(_):
    a, b = chats("-l")
    introduce(a, b)
    meet(a, b)
    b.run.send_signal(signal.SIGSTOP)
    begun = time.monotonic()
    a.says("silent ")
    b.run.send_signal(signal.SIGCONT)
    a.says("again ")
    if not 1 < time.monotonic() - begun:
        raise Failed("it was silent too soon")
    lines = Lines(a, b)
    lines.say()
    lines.arrive()
    end(a, b)


CASES = (case_restarts, case_twice, case_start, case_silence)


def main():
    count = RESTARTS
    if sys.argv[1:2] == ["--restarts"]:
        count = int(sys.argv[2])
        del sys.argv[1:3]
    if len(sys.argv) < 2:
        sys.exit(__doc__)
    failed = 0
    for case in CASES:
        name = case.__name__.removeprefix("case_")
        try:
            case(count)
            print(f"{name}: ok", flush=True)
        except Failed as why:
            failed += 1
            print(f"{name}: FAILED, {why}", flush=True)
        finally:
            for process in Peer.runs:
                process.kill()
    return 1 if failed else 0


if __name__ == "__main__":
    sys.exit(main())
