"""A chat over UDP. Run it on two machines, paste the line `signal ..` of each into the other, and type.

If the peer is lost, and it says why, if the network changes, and at /restart it makes an ICE restart: paste the new lines then.
/quit ends it. With a TURN server it also connects two machines whose NATs let no other path through.

usage: chat.py controlling|controlled [-l] [-s URL].. [-t URL].. [-u USER] [-w PASSWORD]
  -l   at 127.0.0.1 only
  -s   a STUN server, as stun:stun.example.org
  -t   a TURN server, as turn:turn.example.org or turn:192.0.2.1:3478?transport=tcp, with this username and password
"""
import asyncio
import getopt
import sys
from dataclasses import replace

from is_ice import (Candidate, Consent, GatheringComplete, Heard, IceAgent, IceConnectionStateChange, IceCreds, IceError,
                    LocalCandidate, NominatedSend, Silent, new_creds)
from is_ice.interfaces import host_addresses
from is_ice.loop import IceLoop

SECOND = 1_000_000_000                            # times are nanoseconds
SILENCE = 2                                       # seconds without a packet of the peer after which it says so
PATIENCE = 5                                      # seconds for the servers; what they bring later is signaled later


class Chat:
    def __init__(self, role, options):
        words = dict(options)
        urls = [url for name, url in options if name in ("-s", "-t")]
        servers = [{"urls": urls, "username": words.get("-u"), "credential": words.get("-w")}]
        self.agent, self.is_local, self.hosts, self.has_signaled = IceAgent(), "-l" in words, {}, False
        self.agent.set_controlling(role == "controlling")
        self.agent.set_settings(replace(          # notice a loss after 5 s, and not 30: the path is checked each second
            self.agent.settings, consent=Consent(5 * SECOND, strict=True), max_rto=SECOND))
        self.agent.set_silence(SILENCE * SECOND)
        self.loop = IceLoop(self.agent, self.note, self.hear, on_failed_send=self.fail, servers=servers, on_gathering=self.gathered)

    def signal(self):
        """Prints credentials and candidates, for the peer."""
        creds, self.has_signaled = self.agent.local_credentials, True
        print("signal", creds.ufrag, creds.pass_, ",".join(self.agent.local_candidates()), flush=True)

    def restart(self):
        """Begins a session."""
        self.agent.ice_restart(new_creds(), keep_local_candidates=True)
        self.signal()

    def take(self, line):
        """Takes the peer's signal, /restart or chat."""
        if line.startswith("signal "):
            _, ufrag, pass_, lines = line.split(maxsplit=3)
            known = self.agent.remote_credentials
            if known and known.ufrag != ufrag:
                self.restart()                    # the peer did
            self.agent.set_remote_credentials(IceCreds(ufrag, pass_))
            for candidate in lines.split(","):
                self.loop.add_remote_candidate(candidate)
        elif line == "/restart":
            self.restart()
        elif path := self.agent.media_path(self.loop.now()):
            self.loop.send(path.source, path.destination, line.encode())
        else:
            print("error there is no path", flush=True)
        self.loop.wake()

    def hear(self, source, local, data):
        if self.agent.takes_media_from(self.loop.now(), source):
            print("heard", data.decode(errors="replace").translate(dict.fromkeys(range(32), "?")), flush=True)

    def note(self, event):
        if isinstance(event, NominatedSend):
            print("path", event.source, "->", event.destination, flush=True)
        elif isinstance(event, Silent):
            print(f"silent no packet for {SILENCE} s", flush=True)
        elif isinstance(event, Heard):
            print("again a packet came", flush=True)
        elif isinstance(event, IceConnectionStateChange):
            stats, state = self.agent.stats, event.state.name.capitalize()
            print(f"state {state}: {stats.bind_success_recv} of {stats.bind_request_sent} checks answered", flush=True)
            for pair in self.agent.removed_pairs() if event.state.is_disconnected() else []:
                print("removed", pair, flush=True)  # those since the last restart
            if event.state.is_disconnected() and stats.nomination_send_count > 0:
                self.loop.probe()                 # a relayed address may be gone
                self.restart()                    # before the first path the peer may not have this side's line yet

    def gathered(self, event):
        if not isinstance(event, (LocalCandidate, GatheringComplete)):
            print(event, flush=True)              # what happened at a server
        elif isinstance(event, LocalCandidate) and self.has_signaled:
            self.signal()                         # it came late

    def fail(self, source, destination, error):
        for failed in self.agent.failed_sends():
            if failed.times == 1 and failed.path.destination == destination:
                print("error not sent", failed, flush=True)

    async def look(self):
        """Looks at the machine's addresses, and begins a session if there are others."""
        ips = ["127.0.0.1"] if self.is_local else host_addresses()
        if not ips or set(ips) == set(self.hosts):
            return
        gone, self.has_signaled = set(self.hosts) - set(ips), False
        for ip in set(ips) - set(self.hosts):
            self.hosts[ip] = await self.loop.open(ip)
            self.agent.add_local_candidate(Candidate.host(self.hosts[ip]))
        for ip in gone:
            self.loop.remove_socket(self.hosts.pop(ip))
        await asyncio.wait({self.loop.gather()}, timeout=PATIENCE)
        self.restart()
        self.loop.begin()

    async def watch(self):
        while True:
            await asyncio.sleep(2)
            await self.look()

    async def run(self):
        await self.look()                         # before a line is read: a signal that waits is for this session
        reader = asyncio.StreamReader()
        await asyncio.get_running_loop().connect_read_pipe(lambda: asyncio.StreamReaderProtocol(reader), sys.stdin)
        watch = asyncio.create_task(self.watch())
        while (line := await reader.readline()) not in (b"", b"/quit\n"):
            try:
                self.take(line.decode().rstrip("\n"))
            except (IceError, ValueError) as why:
                print("error", why, flush=True)   # the agent is as it was
        watch.cancel()
        self.loop.close()
        await self.loop.wait_closed()             # TURN servers free what they allocated


if len(sys.argv) < 2:
    sys.exit(__doc__)
asyncio.run(Chat(sys.argv[1], getopt.getopt(sys.argv[2:], "ls:t:u:w:")[0]).run())
