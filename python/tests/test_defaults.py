"""The table "Settings" of docs/API.md has the settings of the library: the one place where a document has their numbers."""

from __future__ import annotations

import pathlib
import re
import unittest

from is_ice import Consent, Profile, Settings

API = pathlib.Path(__file__).resolve().parents[2] / "docs" / "API.md"
UNITS = {"ms": 1_000_000, "s": 1_000_000_000}
WORDS = {"`Original`": Profile.ORIGINAL, "`Modern`": Profile.MODERN, "no limit": None, "off": False, "by the RTOs, not strict": Consent()}


def value_of(cell: str) -> object:
    """Returns what a cell of the table says."""
    if cell in WORDS:
        return WORDS[cell]
    number, _, unit = cell.partition(" ")
    return round(float(number) * UNITS[unit]) if unit else int(number)


def documented() -> dict[str, list[object]]:
    """Returns both values of each field."""
    section = API.read_text().split("\n## Settings\n")[1].split("\n## ")[0]
    rows = re.findall(r"(?m)^\| `(\w+)`[^|]* \|[^|]*\| ([^|]*) \| ([^|]*) \|$", section)
    return {name: [value_of(original), value_of(modern)] for name, original, modern in rows}


class Defaults(unittest.TestCase):
    def test_the_table_has_the_settings_of_the_library(self) -> None:
        library = [vars(Settings.original()), vars(Settings.modern())]
        self.assertEqual(documented(), {name: [settings[name] for settings in library] for name in library[0]})


if __name__ == "__main__":
    unittest.main()
