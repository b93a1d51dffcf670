"""A call on an agent in the middle of another one in the same thread, as a signal handler or a hash makes it, does not change that one."""

from __future__ import annotations

import signal
import threading
import time
import unittest
from collections.abc import Callable
from typing import Any

from is_ice import Candidate, IceAgent, IceCreds, Protocol, SocketAddress, Unparsed
from is_ice._loop_calls import LoopCalls
from is_ice._abi import OK

HERE, THERE = SocketAddress("10.0.0.1", 1000), SocketAddress("10.0.0.2", 2000)


class Library:
    """Records what it is passed. It numbers what it returns, and calls `meanwhile` once before it returns."""

    def __init__(self) -> None:
        self.seen: list[tuple[int, ...]] = []
        self.count = 0
        self.meanwhile: Callable[[], object] = lambda: None

    def _next(self) -> int:
        self.count += 1
        return self.count

    def _ends(self) -> int:
        meanwhile, self.meanwhile = self.meanwhile, lambda: None
        meanwhile()
        return OK

    def is_ice_handle_packet(self, agent: Any, now: Any, protocol: Any, source: Any, destination: Any, contents: bytes, length: Any) -> int:
        self.seen.append((now.value, protocol.value, len(contents), length.value))
        return self._ends()

    def is_ice_handle_timeout(self, agent: Any, now: Any, random: bytes, length: Any) -> int:
        self.seen.append((now.value, len(random), length.value))
        return self._ends()

    def is_ice_poll_timeout(self, agent: Any, due: Any) -> int:
        due._obj.value = self._next()
        return self._ends()

    def is_ice_poll_transmit(self, agent: Any, buffer: Any, size: Any, packet: Any) -> int:
        number = self._next()
        packet._obj.source.family = packet._obj.destination.family = 4
        packet._obj.source.port, packet._obj.length = number, number
        buffer._obj[:number] = bytes([number]) * number
        return self._ends()

    def is_ice_path_for_media(self, agent: Any, now: Any, path: Any) -> int:
        path._obj.source.family = path._obj.destination.family = 4
        path._obj.source.port = self._next()
        return self._ends()

    def is_ice_poll_event(self, agent: Any, event: Any) -> int:
        event._obj.kind = self._next()
        return self._ends()


class Hashed(SocketAddress):
    """An address whose hash makes a call, once."""

    meanwhile: Callable[[], object] | None = None

    def __hash__(self) -> int:
        call, Hashed.meanwhile = Hashed.meanwhile, None
        if call:
            call()
        return super().__hash__()


class Reentry(unittest.TestCase):
    def setUp(self) -> None:
        self.library: Any = Library()
        self.calls = LoopCalls(self.library, object(), threading.RLock())

    def test_a_packet_before_another_one_is_passed(self) -> None:
        Hashed.meanwhile = lambda: self.calls.handle_packet(1, HERE, THERE, bytes(60000), Protocol.TCP)
        self.calls.handle_packet(2, Hashed("10.0.0.7", 7), THERE, bytes(30), Protocol.UDP)
        self.assertEqual(self.library.seen, [(1, 1, 60000, 60000), (2, 0, 30, 30)])

    def test_a_timeout_before_a_packet_is_passed(self) -> None:
        Hashed.meanwhile = lambda: self.calls.handle_timeout(1, bytes(12))
        self.calls.handle_packet(2, Hashed("10.0.0.8", 8), THERE, bytes(30), Protocol.UDP)
        self.assertEqual(self.library.seen, [(1, 12, 12), (2, 0, 30, 30)])

    def nested(self, call: Callable[[], Any]) -> list[Any]:
        """The results of a call and of one before its result is read, in the order in which the library returned them."""
        found: list[Any] = []
        self.library.meanwhile = lambda: found.append(call())
        found.insert(0, call())
        return found

    def test_a_path_before_the_result_is_read(self) -> None:
        self.assertEqual([path[0].port for path in self.nested(lambda: self.calls.media_addresses(7))], [1, 2])

    def test_polls_before_the_result_is_read(self) -> None:
        self.assertEqual(self.nested(self.calls.poll_timeout), [1, 2])
        self.assertEqual([event.kind for event in self.nested(self.calls.poll_event)], [3, 4])
        self.assertEqual([(p.source.port, p.contents) for p in self.nested(self.calls.poll_transmit)], [(5, b"\5" * 5), (6, b"\6" * 6)])


class SignalHandlers(unittest.TestCase):
    def test_a_signal_handler_passes_a_longer_packet(self) -> None:
        """Handlers call the agent at any line of a call of the main thread. Each length that is passed is that of its bytes."""
        agent = IceAgent(IceCreds("abcd", "p" * 22))
        agent.add_local_candidate(Candidate.host(HERE))
        agent.handle_timeout(60_000_000_000)
        passed: list[tuple[int, int]] = []
        make = agent._loop._new

        def watched() -> Any:
            own = make()
            handle_packet = own.handle_packet

            def handle(source: Any, destination: Any, contents: bytes, length: Any) -> Any:
                passed.append((len(contents), length.value))
                return handle_packet(source, destination, contents, length)

            own.handle_packet = handle  # type: ignore[assignment]
            return own

        agent._loop._new = watched  # type: ignore[assignment]
        agent._loop._spare.clear()

        deadline, count = time.monotonic() + 0.5, 0

        def interrupt(*_: object) -> None:
            try:
                agent.handle_packet(60_000_000_001, THERE, HERE, b"\x80" * 60000)
            except Unparsed:
                pass
            if time.monotonic() < deadline:  # the next one after this: on a slow processor handlers would interrupt each other without end
                signal.setitimer(signal.ITIMER_REAL, 0.0005)

        self.addCleanup(signal.signal, signal.SIGALRM, signal.signal(signal.SIGALRM, interrupt))
        self.addCleanup(signal.setitimer, signal.ITIMER_REAL, 0)
        signal.setitimer(signal.ITIMER_REAL, 0.0005)
        while time.monotonic() < deadline:
            count += 1
            with self.assertRaises(Unparsed):
                agent.handle_packet(60_000_000_002, SocketAddress(f"10.1.{count >> 8 & 255}.{count & 255}", 7), HERE, b"\x80" * 30)
        signal.setitimer(signal.ITIMER_REAL, 0)
        self.assertEqual({length for _, length in passed}, {30, 60000})
        self.assertEqual([it for it in passed if it[0] != it[1]], [])


if __name__ == "__main__":
    unittest.main()
