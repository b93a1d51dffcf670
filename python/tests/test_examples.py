"""The programs of `examples/`, and what they print."""

from __future__ import annotations

import re
import shutil
import subprocess
import sys
import unittest
from pathlib import Path

from pairs import PATIENCE

EXAMPLES = Path(__file__).resolve().parent.parent / "examples"
PLAYS_CHATS = EXAMPLES.parent.parent / "c" / "tests"


def output(name: str, *arguments: str) -> str:
    command = [sys.executable, str(EXAMPLES / name), *arguments]
    return subprocess.run(command, capture_output=True, text=True, check=True, timeout=120 * PATIENCE).stdout


class Examples(unittest.TestCase):
    def test_two_agents_find_a_path(self) -> None:
        self.assertEqual(output("quick.py"), "10.0.0.1:5000 -> 10.0.0.2:5000 | 10.0.0.2:5000 -> 10.0.0.1:5000\n")

    def test_the_order_of_the_loop_matters(self) -> None:
        """README.md, "The loop", has the figures."""
        before, after, *modern = (int(found) for found in re.findall(r"controlled (\d+) ms", output("order.py")))
        self.assertLess(before, 100)
        self.assertGreater(after, 200)
        self.assertEqual(len(modern), 2)
        self.assertLess(max(modern), 100)

    def play_chats(self, test: str, *words: str) -> None:
        command = [sys.executable, str(PLAYS_CHATS / test), *words, sys.executable, str(EXAMPLES / "chat.py")]
        ran = subprocess.run(command, capture_output=True, text=True, timeout=300 * PATIENCE)
        self.assertEqual(ran.returncode, 0, ran.stdout + ran.stderr)

    def test_chats_restart_lose_their_peer_and_move(self) -> None:
        self.play_chats("chat.py")

    def test_chats_lose_no_line_to_restarts_and_report_silence(self) -> None:
        self.play_chats("chat_lines.py")

    @unittest.skipUnless((PLAYS_CHATS / "chat_relays.py").exists(), "there is no c/tests/chat_relays.py")
    def test_chats_connect_through_turn_servers(self) -> None:
        """Behind symmetric NATs, if this machine can play them."""
        self.play_chats("chat_relays.py")

    @unittest.skipUnless((PLAYS_CHATS / "chat_relays.py").exists(), "there is no c/tests/chat_relays.py")
    @unittest.skipUnless(shutil.which("openssl"), "openssl is not installed")
    def test_chats_connect_over_tls(self) -> None:
        """From networks that let no UDP out, also through a server that the first one names."""
        self.play_chats("chat_relays.py", "--case", "tls", "--case", "tls_redirected")

    def test_calls_are_measured(self) -> None:
        self.assertEqual(len(re.findall(r": \d+ ns$", output("calls.py", "1"), re.M)), 6)


if __name__ == "__main__":
    unittest.main()
