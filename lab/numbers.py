"""Nominations with numbers (draft-thatcher-ice-renomination): what a request says of nomination, and which pair has the greatest number."""

from __future__ import annotations

from collections.abc import Iterable
from dataclasses import replace

from .pairs import Pair
from .requests import Request

# The greatest number: it has 32 bits.
LAST_NUMBER = 0xFFFFFFFF


def as_taken(q: Request, numbers: bool) -> Request:
    """Returns what a request says of nomination: with numbers NOMINATION decides, if it is there, and 0 is none; else it is ignored."""
    if not numbers:
        return replace(q, nomination=None)
    return q if q.nomination is None else replace(q, use_candidate=q.nomination != 0)


def number_of(pair: Pair) -> int:
    """Returns the number of a nominated pair: USE-CANDIDATE without NOMINATION counts as 1."""
    return max(1, pair.greatest)


def first_numbered(eligible: Iterable[Pair], selected: int | None) -> int | None:
    """Returns which of these pairs has the greatest number: of equal ones the one selected last, else one with the greatest priority."""
    def rank(pair: Pair) -> tuple[int, bool, int]:
        return number_of(pair), pair.number == selected, pair.priority

    best = max(eligible, key=rank, default=None)
    return None if best is None else best.number
