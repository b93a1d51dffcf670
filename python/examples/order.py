"""How soon both agents select a path, with `poll_timeout` before and after `poll_transmit`, by the original's settings and the modern ones.

Two agents with a host candidate each; 20 ms of delay each way; 200 seeded sessions for each order."""
import heapq
import random
import statistics

from is_ice import Candidate, IceAgent, IceCreds, NominatedSend, Settings, SocketAddress

MS = 1_000_000
START = 60_000 * MS
DELAY = 20 * MS


def make_agents(rng, settings):
    agents = [IceAgent(IceCreds("A" * 8 + name, name * 22), rng.getrandbits(64)) for name in "ab"]
    agents[0].set_controlling(True)
    for me, peer in (agents, agents[::-1]):
        me.set_settings(settings)
        me.set_remote_credentials(peer.local_credentials)
    for number, (me, peer) in enumerate((agents, agents[::-1]), 1):
        peer.add_remote_candidate(me.add_local_candidate(Candidate.host(SocketAddress(f"10.0.0.{number}", 5000))))
    return agents


def play(timeout_first, settings, seed):
    """When the controlling and the controlled agent select their first path, in ms."""
    rng = random.Random(seed)
    agents = make_agents(rng, settings)
    timeouts = [START, START + rng.randrange(50) * MS]
    network, sent, selected = [], 0, [None, None]
    while None in selected:
        i = timeouts.index(min(timeouts))
        if network and network[0][0] <= timeouts[i]:
            now, _, i, packet = heapq.heappop(network)
            agents[i].handle_packet(now, packet.source, packet.destination, packet.contents)
        else:
            now = timeouts[i]
            agents[i].handle_timeout(now, rng.randbytes(12))
        before = agents[i].poll_timeout() if timeout_first else None
        while packet := agents[i].poll_transmit():
            sent += 1
            heapq.heappush(network, (now + DELAY, sent, 1 - i, packet))
        timeout = before if timeout_first else agents[i].poll_timeout()
        timeouts[i] = timeouts[i] if timeout is None else timeout
        while event := agents[i].poll_event():
            if isinstance(event, NominatedSend) and selected[i] is None:
                selected[i] = now
    return [(at - START) / MS for at in selected]


for name, settings in (("original", Settings.original()), ("modern", Settings.modern())):
    for order in ("before", "after"):
        controlling, controlled = zip(*(play(order == "before", settings, seed) for seed in range(200)))
        print(f"{name} settings, poll_timeout {order} poll_transmit: controlling {statistics.median(controlling):.0f} ms, "
              f"controlled {statistics.median(controlled):.0f} ms (medians)")
