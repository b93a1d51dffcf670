"""Tests that the searches of the checkers find the earliest bound, on random logs: all choices are tried one by one."""

import unittest
from collections.abc import Callable, Iterator
from itertools import product
from random import Random
from typing import TypeVar

from is_ice import Transmit
from lab.clauses import (
    both, connect, executions_select_in_time, due_rounds, in_time, meet, nomination_accepted, none_starved_in_time, rounds, run_in_time,
    run_selects_in_time, selects_in_time, single, world_rounds)
from lab.clauses.execution import Execution, Lacks
from lab.clauses.accepted_nominations import Network
from lab.clauses.verdict import Verdict
from lab.pairs import Path
from lab.scenario import SIDES
from lab.tests.stories import MODERN, ORIGINAL, TO_B, A, Story

C = TypeVar("C")


def random_story(seed: int) -> Story:
    """Timeouts of both sides, packets that are lost, delayed or delivered, and perhaps a role conflict, added candidates, or nominations
    with numbers."""
    random = Random(seed)
    story = Story(roles=(True, seed % 3 == 0), hosts=(1 + seed % 2, 1), settings=MODERN if seed % 4 > 1 else ORIGINAL)
    for side in "ab" if seed % 4 > 1 else "":
        story.set(side, "set_renomination", True)
    waiting: list[tuple[float, str, Transmit]] = []
    time = 0.0
    for _ in range(9):
        time += random.choice((1, 50, 250, 600))
        side = random.choice("ab")
        for packet in [w for w in waiting if w[0] <= time]:
            waiting.remove(packet)
            answer = story.deliver(packet[2], packet[1], time)
            if answer is not None and random.random() < 0.95:
                story.deliver(answer, "b" if packet[1] == "a" else "a", time)
        if random.random() < 0.1:
            story.remote(side, f"candidate:1 1 udp 1 10.9.9.{random.randrange(1, 99)} 9 typ host", time)
        packet_sent = story.timeout(side, time)
        if packet_sent is not None and random.random() < 0.95:
            waiting.append((time + random.choice((0, 0, 5, 60)), "b" if side == "a" else "a", packet_sent))
    return story


def random_limited(seed: int) -> Execution:
    """Timeouts of A, which limits its pairs to 1 and what packets bring to 1, and perhaps an added candidate. Its checks are lost, or one
    is answered."""
    random = Random(seed)
    story = Story(hosts=(0, 1), known=False, settings=MODERN if seed % 6 == 0 else ORIGINAL)
    story.set("a", "set_max_discovered", 1)
    story.limit("a", 1)
    story.host("a", A, 1 << 24)
    story.know("a")
    story.know("b")
    time = 0.0
    for _ in range(random.randrange(6, 18)):
        check = story.timeout("a", time)
        if check is not None and random.random() < 0.1:
            story.deliver(story.deliver(check, "b", time), "a", time)
        if random.random() < 0.03:
            story.remote("a", "candidate:1 1 udp 1 10.9.9.9 9 typ host", time)
        time += random.choice((1, 20, 50, 50, 52, 250))
    return Execution(story.session())


def paths_of(n: Network, side: str) -> list[Path]:
    """The paths of a side's pairs."""
    return sorted({s.before[side].path(p) for s in n.x.steps for p in s.before[side].pairs})


def earliest(n: Network, choices: Iterator[C], lacking: Callable[[C], Lacks], end: Callable[[C], int]) -> int | None:
    """The time of the earliest end of a choice that lacks nothing."""
    ends = [end(c) for c in choices if not lacking(c)]
    return n.x.time(min(ends)) if ends else None


class Searches(unittest.TestCase):
    SEEDS = range(20, 44)
    FEWER = range(26, 36)  # for the clause with the most choices

    def compare(self, clause: str, verdict: Callable[[Network], Verdict], found: Callable[[Network], int | None],
                seeds: range = SEEDS) -> None:
        held = 0
        for seed in seeds:
            n = random_story(seed).network()
            own = verdict(n)
            held += own.held
            self.assertEqual(own.bound, found(n), f"{clause}, seed {seed}: {own.failed}")
            self.assertFalse(own.is_broken, f"{clause}, seed {seed}")
        self.assertGreater(held, 2, clause)

    def test_meet(self) -> None:
        def found(n: Network) -> int | None:
            every = (meet.Choice(side, path, 0, end) for side in SIDES for path in paths_of(n, side) for end in range(1, len(n.x) + 1))
            return earliest(n, every, lambda c: meet.lacking(n, c), lambda c: c.end - 1)

        self.compare("meet", meet.find, found)

    def test_granted(self) -> None:
        def found(n: Network) -> int | None:
            starts = [0, *sorted(at for side in SIDES for at in n.x.timeouts[side])]
            every = (nomination_accepted.Choice(side, path, start, moment) for side in SIDES for path in paths_of(n, side)
                     for start in starts for moment in n.x.timeouts[side] if start <= moment)
            return earliest(n, every, lambda c: nomination_accepted.lacking(n, c), lambda c: c.moment)

        self.compare("nomination_accepted", nomination_accepted.find, found)

    def test_connect(self) -> None:
        def found(n: Network) -> int | None:
            every = (connect.Choice(side, path, its, start, asking, asked, moment) for side, other in (("a", "b"), ("b", "a"))
                     for path, its in product(paths_of(n, side), paths_of(n, other)) for moment in n.x.timeouts[side]
                     for asking, asked in product(n.x.timeouts[other], n.x.timeouts[side]) if max(asking, asked) < moment
                     for start in sorted(n.x.timeouts["a"] + n.x.timeouts["b"]) if start <= min(asking, asked))
            return earliest(n, every, lambda c: connect.lacking(n, c), lambda c: c.moment)

        self.compare("connect", connect.find, found)

    def test_both(self) -> None:
        def ends(n: Network) -> Iterator[tuple[str, Path, Path, int, int, int, int]]:
            for side, other in (("a", "b"), ("b", "a")):
                for path, its in product(paths_of(n, side), paths_of(n, other)):
                    for moment, leads, goes in product(n.x.timeouts[side], n.x.timeouts[other], n.x.timeouts[side]):
                        for start in (at for at in sorted(n.x.timeouts["a"] + n.x.timeouts["b"]) if at <= min(leads, goes)):
                            if max(leads, goes) < moment:
                                yield side, path, its, start, leads, goes, moment

        def opened(n: Network) -> Iterator[both.Choice]:
            for side, path, its, *end in ends(n):
                for opening, pair, count in self.openings(n, "b" if side == "a" else "a"):
                    if opening < end[0]:
                        yield both.Choice(side, path, its, opening, pair, count, *end)

        def selected(n: Network) -> Iterator[both.Choice]:
            return (both.Choice(side, path, its, end[0], None, 0, *end) for side, path, its, *end in ends(n))

        def found(n: Network) -> int | None:
            first = earliest(n, opened(n), lambda c: both.lacking(n, c), lambda c: c.moment)
            return first if first is not None else earliest(n, selected(n), lambda c: both.lacking(n, c), lambda c: c.moment)

        self.compare("both", both.find, found, self.FEWER)

    @staticmethod
    def openings(n: Network, side: str) -> list[tuple[int, int, int]]:
        """The first `handle_timeout` call, the pair and the number of rounds of each row of rounds."""
        row = n.x.timeouts[side]
        return [(at, p.number, count) for place, at in enumerate(row) for p in n.x.state(at, side).pairs
                for count in range(1, len(row) - place + 1)]

    def test_rounds_of_two_agents(self) -> None:
        def found(n: Network) -> int | None:
            every = (world_rounds.Choice(side, pair, first, count, end) for side in SIDES for first, pair, count in self.openings(n, side)
                     for end in range(first + 1, len(n.x) + 1))
            return earliest(n, every, lambda c: world_rounds.lacking(n, c), lambda c: c.end - 1)

        self.compare("rounds", world_rounds.find, found)

    def test_checks_in_time(self) -> None:
        self.compare_checks_in_time(in_time.find, in_time.lacking)
        self.compare_checks_in_time(run_in_time.find, run_in_time.lacking)

    def compare_checks_in_time(self, find: Callable[[Execution], Verdict], lacking: Callable[[Execution, in_time.Choice], Lacks]) -> None:
        held = 0
        for seed in self.SEEDS:
            n = random_story(seed).network()
            every = (in_time.Choice(side, path, first, last + 1) for side in SIDES for path in paths_of(n, side)
                     for place, first in enumerate(n.x.timeouts[side]) for last in n.x.timeouts[side][place:])
            good = [c for c in every if not lacking(n.x, c)]
            self.assertEqual([c for c in good if in_time.verdict_of(n.x, c).is_broken], [], f"seed {seed}")
            own = find(n.x)
            self.assertEqual((own.held, own.is_broken), (bool(good), False), f"seed {seed}: {own.failed}")
            held += own.held
        self.assertGreater(held, 2)

    def test_rounds_of_one_agent(self) -> None:
        self.compare_rounds_of_one_agent("run: rounds", rounds.find, rounds.lacking)
        self.compare_rounds_of_one_agent("run: due_rounds", due_rounds.find, due_rounds.lacking)

    def compare_rounds_of_one_agent(self, clause: str, find: Callable[[Execution], Verdict],
                                    lacking: Callable[[Execution, single.Choice], Lacks]) -> None:
        def found(n: Network) -> int | None:
            every = (single.Choice(side, pair, first, end) for side in SIDES for first, pair, count in self.openings(n, side) if count == 1
                     for end in range(first + 1, len(n.x) + 1))
            return earliest(n, every, lambda c: lacking(n.x, c), lambda c: c.end - 1)

        self.compare(clause, lambda n: find(n.x), found)

    def selections(self, n: Network) -> Iterator[executions_select_in_time.Choice]:
        """Each row of rounds up to each `handle_timeout` call or success response from then on."""
        return (executions_select_in_time.Choice(side, pair, first, count, last + 1)
                for side in SIDES for first, pair, count in self.openings(n, side)
                for last in sorted(n.x.timeouts[side] + n.x.successes(side)) if last >= first)

    def test_selection_in_time(self) -> None:
        self.compare_selection_in_time(executions_select_in_time.find, executions_select_in_time.lacking)
        self.compare_selection_in_time(run_selects_in_time.find, run_selects_in_time.lacking, True)

    def compare_selection_in_time(self, find: Callable[[Execution], Verdict],
                                  lacking: Callable[[Execution, executions_select_in_time.Choice], Lacks],
                                  is_earliest: bool = False) -> None:
        held = 0
        for seed in self.SEEDS:
            n = random_story(seed).network()
            good = [c for c in self.selections(n) if not lacking(n.x, c)]
            limits = []
            for c in good:
                limit, selected = executions_select_in_time.limit(n.x, c), executions_select_in_time.selected_at(n.x, c)
                assert limit is not None and selected is not None
                self.assertLessEqual(selected, limit, f"seed {seed}")
                limits.append(limit)
            own = find(n.x)
            if is_earliest:
                self.assertEqual(own.bound, min(limits, default=None), f"seed {seed}")
            self.assertEqual((own.held, own.is_broken), (bool(good), False), f"seed {seed}: {own.failed}")
            held += own.held
        self.assertGreater(held, 2)

    def test_none_is_starved_in_time(self) -> None:
        held = 0
        for seed in range(20, 32):
            x = random_limited(seed)
            every = (none_starved_in_time.Choice("a", TO_B, first, last + 1, many) for place, first in enumerate(x.timeouts["a"])
                     for last in x.timeouts["a"][place:] for many in range(4, 13))
            good = [c for c in every if not none_starved_in_time.lacking(x, c)]
            self.assertEqual([c for c in good if none_starved_in_time.verdict_of(x, c).is_broken], [], f"seed {seed}")
            own = none_starved_in_time.find(x)
            self.assertEqual((own.held, own.is_broken), (bool(good), False), f"seed {seed}: {own.failed}")
            held += own.held
        self.assertTrue(2 < held < 12)

    def test_selection_in_time_of_two_agents(self) -> None:
        held = 0
        for seed in self.SEEDS:
            n = random_story(seed).network()
            good = [c for c in self.selections(n) if not selects_in_time.lacking(n, c)]
            for c in good:
                limit, selected = selects_in_time.limit(n, c), selects_in_time.selected_at(n.x, c)
                assert limit is not None and selected is not None
                self.assertLessEqual(selected, limit, f"seed {seed}")
            own = selects_in_time.find(n)
            self.assertEqual((own.held, own.is_broken), (bool(good), False), f"seed {seed}: {own.failed}")
            held += own.held
        self.assertGreater(held, 2)


if __name__ == "__main__":
    unittest.main()
