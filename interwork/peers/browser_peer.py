"""A browser that reads and prints the lines of c/examples/peer.c (Debian: chromium or firefox-esr, and python3-aiohttp).

usage: browser_peer.py chromium|firefox [-a ADDRESS].. [-s HOST:PORT] [-u HOST:PORT -U USER:PASSWORD] [-M] [-A] controlling|controlled

Each session has a headless browser of its own, which makes the offer if it is to be controlling. It finds its addresses itself, so -a is
not used. There is no chat: once it has a path it begins with DTLS, which the other peer does not speak. -s names a STUN server.
Each line has the seconds since the page noted the change, since it is asked only now and then.
-u: it has only relayed candidates, of this TURN server (iceTransportPolicy "relay").
-M: its host candidates have mDNS names in place of addresses.
-A: Chromium gathers at all addresses, and not at that of the default route only: the page captures sound. Its signal has what it gathered
in half a second, since from an address that leads nowhere no STUN server is reached. When it answers, it gets the other peer's candidates
after that signal, so that it checks nothing before.
"""
import argparse
import asyncio
import importlib
import sys
import time
from pathlib import Path

from lines import Signal, commands, report

sys.path.insert(0, str(Path(__file__).resolve().parent.parent / "browsers"))
NUMBER = 1  # of the page's only session
FINGERPRINT = ":".join(["AB"] * 32)  # of no certificate: DTLS does not get that far
INTERVAL = 0.01  # seconds between two questions for the state
GATHERING = 0.5  # seconds that a signal waits with -A


def arguments():
    """Reads the options."""
    parser = argparse.ArgumentParser()
    parser.add_argument("browser", choices=("chromium", "firefox"))
    parser.add_argument("-a", action="append")
    parser.add_argument("-s")
    parser.add_argument("-u")
    parser.add_argument("-U", default=":")
    parser.add_argument("-M", action="store_true")
    parser.add_argument("-A", action="store_true")
    parser.add_argument("role", choices=("controlling", "controlled"))
    return parser.parse_args()


class Peer:
    """A session of the page."""

    def __init__(self, browser, options):
        self.browser, self.options, self.last, self.changed_at = browser, options, {}, time.time()
        self.whole = GATHERING if options.A else True

    async def begin(self):
        """Creates the session, and prints the signal of the browser's offer."""
        await self.browser.call("create", NUMBER, False, self.options.s, False, self.relay())
        if self.options.role == "controlling":
            Signal.of_description(await self.browser.call("offer", NUMBER, self.whole)).print()

    def relay(self):
        """The TURN server as an entry of the page's iceServers, or None."""
        username, credential = self.options.U.split(":", 1)
        return self.options.u and {"urls": f"turn:{self.options.u}", "username": username, "credential": credential}

    def description(self, signal):
        """The other peer's description."""
        setup = "passive" if self.options.role == "controlling" else "actpass"
        lines = ["v=0", "o=- 1 1 IN IP4 127.0.0.1", "s=-", "t=0 0", "a=group:BUNDLE 0", "m=application 9 UDP/DTLS/SCTP webrtc-datachannel",
                 "c=IN IP4 0.0.0.0", "a=mid:0", f"a=fingerprint:sha-256 {FINGERPRINT}", f"a=setup:{setup}", "a=sctp-port:5000",
                 "a=ice-options:trickle"]
        return "\r\n".join([*lines, *signal.attributes(), ""])

    async def take(self, line):
        """Takes a line of standard input."""
        if line.startswith("signal ") and self.options.role == "controlling":
            await self.browser.call("accept", NUMBER, self.description(Signal.of_line(line)))
        elif line.startswith("signal "):
            await self.answer(Signal.of_line(line))
        elif line.startswith("candidate:"):
            await self.browser.call("addCandidate", NUMBER, line)
        elif line.startswith("/"):
            report("browser_peer: unknown command", line)

    async def answer(self, signal):
        """Prints the signal of the browser's answer."""
        late, signal.candidates = (signal.candidates, []) if self.options.A else ([], signal.candidates)
        Signal.of_description(await self.browser.call("answer", NUMBER, self.description(signal), self.whole)).print()
        await asyncio.gather(*(self.browser.call("addCandidate", NUMBER, candidate) for candidate in late))

    async def watch(self):
        """Reports the ICE state and the ports of the selected pair whenever they change."""
        while True:
            told = await self.browser.call("report", NUMBER)
            ports = await self.ports(told)
            self.changed_at = max((at for at, *_ in told["states"] + told["moves"]), default=self.changed_at)
            self.note("state", told["ice"])
            self.note("path", ports and f"local:{ports[0]} remote:{ports[1]}")
            await asyncio.sleep(INTERVAL)

    async def ports(self, told):
        """The ports of the selected pair, or None. Chromium notes a new pair at once. Statistics take time, and may be 50 ms old."""
        if told["moves"]:
            return told["moves"][-1][1:]
        pair = await self.browser.call("selected", NUMBER) if told["ice"] in ("connected", "completed") else None
        return pair and (pair["local"], pair["remote"])

    def note(self, word, value):
        """Reports a value that has changed."""
        if value and value != self.last.get(word):
            self.last[word] = value
            report(word, value, f"{time.time() - self.changed_at:.3f} s ago")


async def main():
    options = arguments()
    kind = getattr(importlib.import_module(options.browser), options.browser.capitalize())
    async with kind(options.M, capture=options.A) as browser:
        peer = Peer(browser, options)
        await peer.begin()
        watching = asyncio.ensure_future(peer.watch())
        async for line in commands():
            await peer.take(line)
        watching.cancel()


asyncio.run(main())
