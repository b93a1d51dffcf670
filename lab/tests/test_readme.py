"""Tests that lab/README.md names functions that exist, and each part that a checker may call missing."""

import ast
import importlib
import re
import unittest
from pathlib import Path

from lab import checked

LAB = Path(__file__).parent.parent
README = (LAB / "README.md").read_text(encoding="utf-8")
# Names of parts that the table has under the name of their definition.
GROUPS = {"split", "first", "on", "rounds", "new", "empty", "tie", "distinct", "full", "peer", "mine", "its", "own", "other", "fit",
          "returned", "reached", "there"}


def names_in(path: Path) -> set[str]:
    """The names of the parts that a module may call missing: the keywords of `lacks`, and the keys of dictionaries of parts."""
    found: set[str] = set()
    for node in ast.walk(ast.parse(path.read_text(encoding="utf-8"))):
        if isinstance(node, ast.Call) and isinstance(node.func, ast.Name) and node.func.id == "lacks":
            found |= {k.arg for k in node.keywords if k.arg is not None}
            found |= {c.value for k in node.keywords if isinstance(k.value, ast.Dict) for c in k.value.keys if isinstance(c, ast.Constant)}
        elif isinstance(node, ast.Return) and isinstance(node.value, ast.Dict):
            found |= {c.value for c in node.value.keys if isinstance(c, ast.Constant) and isinstance(c.value, str)}
    return found


class Readme(unittest.TestCase):
    def rows(self) -> list[list[str]]:
        section = README.split("### Where each precondition is tested")[1]
        table = section.split("| precondition |")[1].split("\n\n")[0]
        return [[cell.strip() for cell in line.strip("|").split(" | ")] for line in table.splitlines()[2:]]

    def test_each_function_exists(self) -> None:
        for row in self.rows():
            for module, path in re.findall(r"`(\w+)\.([\w.]+)`", row[2]):
                found: object = importlib.import_module(f"lab.clauses.{module}")
                for name in path.split("."):
                    found = getattr(found, name)
                self.assertTrue(callable(found), path)

    def test_each_name_of_a_precondition_is_in_the_table(self) -> None:
        listed = {name for row in self.rows() for name in re.findall(r"`(\w+)`", row[0])}
        for path in sorted((LAB / "clauses").glob("*.py")):
            self.assertEqual(names_in(path) - listed - GROUPS, set(), path.name)

    def test_each_clause_has_a_row(self) -> None:
        for path in ("meet", "world_rounds", "in_time", "nomination_accepted", "connect", "both", "one_path", "by_number", "of_use",
                     "successes", "nominations", "run_connected", "run_connected_answered", "rounds", "due_rounds", "run_in_time",
                     "consent_holds", "consent_ends_in_time", "valid_have_consented", "connected_have_consent", "connected_are_answered",
                     "leaves_in_time", "completed_nominations_are_selected", "executions_select_in_time", "states_agree", "reached_in_turn",
                     "run_selects_in_time", "none_starved_in_time", "selects_in_time", "urgent_are_reached", "reached_in_kind",
                     "served_are_checked_soon", "executions_reach_served", "served_select_in_time", "served_in_time",
                     "both_become_connected"):
            self.assertIn(f"| `{path}.py` |", README)
            self.assertTrue(callable(importlib.import_module(f"lab.clauses.{path}").lacking))

    def test_each_theorem_on_checks_has_a_row(self) -> None:
        rows = README.split("## How many checks agents send")[1].split("## What the clauses")[0]
        named = re.findall(r"^\| `.*?` \| `(\w+)\.(\w+)`", rows, re.M)
        found = [getattr(importlib.import_module(f"lab.clauses.{module}"), name) for module, name in named]
        self.assertEqual(found, list(checked.CLAUSES.values()))


if __name__ == "__main__":
    unittest.main()
