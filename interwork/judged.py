"""Rows that are as expected or not, and the last lines of a program that prints them."""
import contextlib
import ctypes
import os
import signal
import time

import namespaces

PR_SET_CHILD_SUBREAPER = 36


class Counts:
    """Counts rows: 'N as expected, M not, K skipped'."""

    def __init__(self):
        self.counts = {"as expected": 0, "not": 0, "skipped": 0}
        ctypes.CDLL(None).prctl(PR_SET_CHILD_SUBREAPER, 1, 0, 0, 0)  # orphans become children of this process, so it finds them
        signal.signal(signal.SIGTERM, signal.default_int_handler)  # ends as Ctrl-C does: `with` and `finally` remove everything
        namespaces.remove_old()

    def row(self, name, is_expected, text, *notes):
        """Prints a row."""
        self.counts["as expected" if is_expected else "not"] += 1
        print(name, text, "ok" if is_expected else "NOT AS EXPECTED", *notes, sep="  ", flush=True)

    def skip(self, name, why):
        """Prints a row that was skipped."""
        self.counts["skipped"] += 1
        print(name, f"skipped: {why}", sep="  ", flush=True)

    def finish(self):
        """Looks for what is left over, prints the counts and returns the status of the program."""
        rest = left_over()
        print("left over: " + ", ".join(rest) if rest else "no process and no namespace is left over")
        self.counts["not"] += bool(rest)
        print(", ".join(f"{count} {name}" for name, count in self.counts.items()))
        return 1 if self.counts["not"] else 0


def children():
    """The processes that this run started, and their orphans."""
    with open(f"/proc/self/task/{os.getpid()}/children") as file:
        return file.read().split()


def left_over():
    """Processes and namespaces that this run started and that are still there. Those that were killed get two seconds to end."""
    end = time.monotonic() + 2
    while children() and time.monotonic() < end:
        with contextlib.suppress(ChildProcessError):
            os.waitpid(-1, os.WNOHANG)
        time.sleep(0.01)
    return [f"process {pid}" for pid in children()] + [f"namespace {name}" for name in namespaces.left_over()]
