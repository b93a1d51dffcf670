"""Tests that agents with `Modern` connect over satellites and slow links: within two round trips of up to 10 s, and no later than with
`Original` where a link carries 16 to 64 kbit/s and queues what comes in between."""

import unittest
from typing import Any

from is_ice import NominatedSend
from lab import scenario
from lab.clock import BEGINNING, SECOND
from lab.session import Session, Trace

# The settings of a new agent of the library with `Modern`.
MODERN = {"max_rto_ms": 2900.0, "retransmits": 11}
FAST = {"delay_ms": 5.0}


def side(name: str, hosts: int, link: str, profile: str) -> dict[str, Any]:
    """A side with so many host candidates, of which the last one can be reached."""
    own = {"up": link, "down": link}
    lost = [{"name": f"eth{n}", "ip": f"10.{1 + 'ab'.index(name)}.{n}.1", "network": f"island {name}{n}", **own} for n in range(hosts - 1)]
    works = {"name": "wifi", "ip": {"a": "192.0.2.10", "b": "198.51.100.40"}[name], **own}
    return {"controlling": name == "a", "profile": profile, "interface": [*lost, works], **(MODERN if profile == "modern" else {})}


def connected(seed: int, profile: str, hosts: tuple[int, int], links: tuple[dict[str, Any], dict[str, Any]]) -> float:
    """Plays a session over these links of both sides. Returns when both have selected a path, in seconds from the beginning."""
    table = {"seconds": 40, "settle_s": 39, "link": {"up": links[0], "down": links[1]},
             "a": side("a", hosts[0], "up", profile), "b": side("b", hosts[1], "down", profile)}
    trace = Trace()
    Session(scenario.scenario_of("slow", table), seed, trace).run()
    return max(min(at for at, own, event in trace.events if own == name and isinstance(event, NominatedSend)) - BEGINNING
               for name in "ab") / SECOND


class SlowNetworks(unittest.TestCase):
    def test_satellites(self) -> None:
        """A quarter of the round trip is the delay of each link."""
        for seconds in (1, 2, 4, 6, 8, 10):
            for profile in ("original", "modern"):
                link = {"delay_ms": seconds * 250.0}
                self.assertLess(connected(1, profile, (1, 1), (link, link)), 2 * seconds + 0.5, (seconds, profile))

    def test_slow_links(self) -> None:
        for rate, hosts, sessions in ((64, (3, 5), 3), (64, (5, 10), 3), (32, (5, 10), 3), (16, (3, 5), 20)):
            slow = {"delay_ms": 20.0, "rate_kbit": float(rate), "queue_ms": 60000.0}
            for seed in range(sessions):
                original, modern = (connected(seed, profile, hosts, (FAST, slow)) for profile in ("original", "modern"))
                self.assertLess(modern, original, (rate, seed))


if __name__ == "__main__":
    unittest.main()
