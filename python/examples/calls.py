"""What calls cost from Python: nanoseconds of processor time, the least of many short rounds (300, or the number that is given)."""
import gc
import sys
import time

from is_ice import Candidate, IceAgent, IceCreds, SocketAddress, Unparsed

ROUNDS, CALLS = int(sys.argv[1]) if len(sys.argv) > 1 else 300, 300
BEGINNING, MS = 60_000_000_000, 1_000_000
OWN, PEER = SocketAddress("10.0.0.1", 1000), SocketAddress("10.0.0.2", 2000)
REQUEST = bytes.fromhex(                                   # a check of the peer, which knows the password below
    "000100502112a4426a756331357578556e6747630006000970394b413a53514174000000c05700040001000a802a00086eeec6e97d18395c"
    "00250000002400046e7f1eff000800145d0425a0207ab1e054102299aaf9839ca076c6d580280004360e219f")

agent = IceAgent(IceCreds("p9KA", "xJcE9AQAR7kczUDVOXRUCl"), tie_breaker=1)
agent.set_remote_credentials(IceCreds("SQAt", "x"))
agent.add_local_candidate(Candidate.host(OWN))


def exchange():
    """A request of the peer, and the response."""
    agent.handle_packet(BEGINNING, PEER, OWN, REQUEST)
    return agent.poll_transmit()


def media():
    """A datagram that is not a STUN message."""
    try:
        agent.handle_packet(BEGINNING, PEER, OWN, b"\x80" * 99)
    except Unparsed:
        pass


def least(call):
    """Returns the least time of a call over all rounds."""
    took = []
    for _ in range(ROUNDS):
        start = time.process_time_ns()
        for _ in range(CALLS):
            call()
        took.append(time.process_time_ns() - start)
    return min(took) / CALLS


gc.disable()                                               # as timeit does
loop = least(lambda: None)
assert exchange() is not None
agent.handle_timeout(BEGINNING)                            # sends a check, and starts the session
while agent.poll_transmit() or agent.poll_event():
    pass
for name, call in (("poll_timeout", agent.poll_timeout), ("poll_event, no event", agent.poll_event),
                   ("poll_transmit, no packet", agent.poll_transmit),
                   ("handle_timeout, no check due", lambda: agent.handle_timeout(BEGINNING + MS)),
                   ("handle_packet, not a STUN message", media),
                   ("handle_packet, a request, and poll_transmit, its response", exchange)):
    print(f"{name}: {least(call) - loop:.0f} ns")
