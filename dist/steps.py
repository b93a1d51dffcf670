"""The steps of a program that tests: each passes, fails, or is skipped if something that it needs is not there."""
import pathlib
import shutil
import sys
import tempfile
import time

from progress import shown


class Skipped(Exception):
    pass


class Failed(Exception):
    pass


def require(*programs):
    for program in programs:
        if shutil.which(program) is None:
            raise Skipped(f"{program} is not installed")


def taken(name, step):
    """Runs a step, which returns what is printed of it, and prints its result. Returns 'passed', 'skipped' or 'failed'."""
    begun = time.monotonic()
    if sys.stdout.isatty():
        print(f"{name} ..", end="\r", flush=True)
    try:
        with shown(name):
            said = step()
    except Skipped as why:
        print(f"{name}: skipped, {why}", flush=True)
        return "skipped"
    except Failed as why:
        print(f"{name}: FAILED, {why}", flush=True)
        return "failed"
    print(f"{name}: ok, {time.monotonic() - begun:.1f} s{', ' + said if said else ''}", flush=True)
    return "passed"


def taken_in_a_folder(name, step):
    """Runs a step with an empty folder of its own, and prints its result as `taken` does."""
    with tempfile.TemporaryDirectory() as folder:
        return taken(name, lambda: step(pathlib.Path(folder).resolve()))


def ended(results):
    """Prints how many steps had each result, and returns the status of the program."""
    print(f"{results.count('passed')} passed, {results.count('skipped')} skipped, {results.count('failed')} failed")
    return 1 if "failed" in results else 0
