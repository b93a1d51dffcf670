"""What tests of the checkers of docs/HEADLINE.md share: they alter a record of a real session."""

import unittest
from collections.abc import Callable
from dataclasses import replace
from typing import Any

from lab.clauses.found import Found
from lab.view import Called

Change = Callable[[Called], Called]


def seen(**changes: Any) -> Change:
    """Returns what changes the view after a call."""
    return lambda c: replace(c, after=replace(c.after, **changes))


class Altered(unittest.TestCase):
    def assert_fault(self, found: Found, what: str = "") -> None:
        self.assertTrue(found.held, what)
        self.assertTrue(found.faults, what)

    def assert_holds(self, found: Found) -> None:
        self.assertTrue(found.held)
        self.assertEqual(found.faults, [])

    def assert_lacks(self, found: Found) -> None:
        self.assertEqual((found.held, found.faults), (0, []))
