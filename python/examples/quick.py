"""Two ICE agents in one process find a path. No sockets: packets are handed over."""
from is_ice import Candidate, IceAgent, NominatedSend, SocketAddress

MS = 1_000_000                                             # times are nanoseconds
alice, bob = IceAgent(), IceAgent()
alice.set_controlling(True)                                # the side that made the offer
alice.set_remote_credentials(bob.local_credentials)        # signaling: credentials first
bob.set_remote_credentials(alice.local_credentials)
for agent, other, address in ((alice, bob, "10.0.0.1"), (bob, alice, "10.0.0.2")):
    line = agent.add_local_candidate(Candidate.host(SocketAddress(address, 5000)))
    other.add_remote_candidate(line)                       # signaling: then each candidate

paths, now = {}, 0
while len(paths) < 2:
    for agent, other in ((alice, bob), (bob, alice)):
        agent.handle_timeout(now)
        while packet := agent.poll_transmit():
            other.handle_packet(now, packet.source, packet.destination, packet.contents)
        while event := agent.poll_event():
            if isinstance(event, NominatedSend):
                paths[agent] = f"{event.source} -> {event.destination}"
    now += 50 * MS
print(paths[alice], "|", paths[bob])
