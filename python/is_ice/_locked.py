"""Objects that several threads may use, one call at a time."""

from __future__ import annotations

import functools
import inspect
from collections.abc import Callable
from typing import Any, TypeVar

C = TypeVar("C", bound=type)
F = TypeVar("F", bound=Callable[..., Any])


def _holding(method: Callable[..., Any]) -> Callable[..., Any]:
    """The method, which holds the lock of its object while it runs."""
    @functools.wraps(method)
    def held(self: Any, *arguments: Any, **named: Any) -> Any:
        with self._lock:
            return method(self, *arguments, **named)

    @functools.wraps(method)
    def held_alone(self: Any) -> Any:
        with self._lock:
            return method(self)

    if len(inspect.signature(method).parameters) == 1:
        return held_alone  # to pass no arguments on takes less time
    return held


def holds_the_lock(method: F) -> F:
    """Marks a method that takes the lock itself."""
    method.holds_the_lock = True  # type: ignore[attr-defined]
    return method


def one_call_at_a_time(kind: C) -> C:
    """Makes each public method and property of a class hold the lock `_lock` of its object, a `threading.RLock`."""
    for name, member in list(vars(kind).items()):
        if name.startswith("_") or hasattr(member, "holds_the_lock"):
            continue
        if inspect.isfunction(member):
            setattr(kind, name, _holding(member))
        elif isinstance(member, property) and member.fget is not None:
            setattr(kind, name, property(_holding(member.fget), doc=member.__doc__))
    return kind
