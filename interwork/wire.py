"""A lossy wire between two network namespaces: each has a TUN device, and this program passes packets from one to the other.

usage: wire.py NAMESPACE ADDRESS NAMESPACE ADDRESS [loss=0.3] [dup=0.1] [least=0.1] [delay=0.2]

loss and dup are probabilities in each direction. Each packet waits for `least` seconds and up to `delay` more, evenly distributed, so
packets overtake each other. It reads lines: 'loss 0.05', 'delay 0', 'dup 0', 'cut', 'mend', and 'counts', which prints what passed so far.
"""
import heapq
import os
import random
import select
import subprocess
import sys
import time

sys.dont_write_bytecode = True
from tun import open_tun


def open_device(namespace, own, other):
    """Creates a TUN device in a namespace, and returns its file descriptor. This process is in that namespace then."""
    fd = open_tun(namespace)
    for words in (f"addr add {own} peer {other} dev w0", "link set w0 up"):
        subprocess.run(["ip", *words.split()], check=True)
    return fd


class Wire:
    """Packets on their way."""

    def __init__(self, a, b, settings):
        self.other, self.settings = {a: b, b: a}, settings
        self.waiting, self.serial, self.is_cut = [], 0, False
        self.counts = {"sent": 0, "lost": 0, "duplicated": 0, "delivered": 0}

    def take(self, fd):
        """Takes a packet from a device."""
        packet = os.read(fd, 65536)
        self.counts["sent"] += 1
        if self.is_cut or random.random() < self.settings["loss"]:
            self.counts["lost"] += 1
            return
        copies = 2 if random.random() < self.settings["dup"] else 1
        self.counts["duplicated"] += copies - 1
        for _ in range(copies):
            self.serial += 1
            due = time.monotonic() + self.settings["least"] + random.random() * self.settings["delay"]
            heapq.heappush(self.waiting, (due, self.serial, self.other[fd], packet))

    def deliver(self):
        """Delivers the packets that are due. Returns the seconds until the next one, or None."""
        now = time.monotonic()
        while self.waiting and self.waiting[0][0] <= now:
            _, _, fd, packet = heapq.heappop(self.waiting)
            try:
                os.write(fd, packet)
                self.counts["delivered"] += 1
            except OSError:
                pass
        return max(0, self.waiting[0][0] - now) if self.waiting else None

    def command(self, line):
        """Takes a line of standard input."""
        word, _, value = line.strip().partition(" ")
        if word in self.settings:
            self.settings[word] = float(value)
        elif word in ("cut", "mend"):
            self.is_cut = word == "cut"
        elif word == "counts":
            print(", ".join(f"{count} {name}" for name, count in self.counts.items()), flush=True)


def main():
    a, own_a, b, own_b = sys.argv[1:5]
    settings = {"loss": 0.0, "dup": 0.0, "least": 0.0, "delay": 0.0}
    settings.update((key, float(value)) for key, value in (word.split("=") for word in sys.argv[5:]))
    fds = [open_device(a, own_a, own_b), open_device(b, own_b, own_a)]
    wire = Wire(*fds, settings)
    print("ready", flush=True)
    while True:
        ready, _, _ = select.select([*fds, sys.stdin], [], [], wire.deliver())
        for source in ready:
            if source is not sys.stdin:
                wire.take(source)
            elif line := sys.stdin.readline():
                wire.command(line)
            else:
                return


main()
