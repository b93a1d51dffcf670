"""Objects that cannot be copied."""

from __future__ import annotations

from typing import NoReturn, SupportsIndex


class Unique:
    """An object that has an agent or sockets, which a copy would share. Copying and pickling raise TypeError."""

    def __reduce_ex__(self, protocol: SupportsIndex) -> NoReturn:
        raise TypeError(f"{type(self).__name__} cannot be copied or pickled")
