"""What a checker of a row of docs/HEADLINE.md finds in a session."""

from __future__ import annotations

from dataclasses import dataclass, field

from ..witness import Record

Records = dict[str, Record]


@dataclass
class Found:
    """What is found in a session: how often the preconditions of a clause held, and where its conclusion was not true then."""

    held: int = 0
    faults: list[str] = field(default_factory=list)

    def add(self, is_true: bool, fault: str) -> None:
        """Adds a case in which the preconditions held."""
        self.held += 1
        if not is_true:
            self.faults.append(fault)


def other(side: str) -> str:
    """Returns the other side."""
    return "b" if side == "a" else "a"
