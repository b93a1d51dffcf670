"""Judges the mutants of the gate: in each crate those of mutants/gate/CRATE.txt in one check, of the functions that they change, over
the libraries below that are built. What these functions call is taken by its contract. Crates are judged side by side.

If each mutant of a crate was killed, that is kept on this machine in ~/.cache/is_ice/mutants, by the checksum of all that was read: the
toolchain, the crate and those below it, its mutants, and these scripts."""
import concurrent.futures, hashlib, os, pathlib, subprocess

from catalog import here, mutants, top
from common import closure
from judge_bodies import Unjudged, judge

KEPT = pathlib.Path.home() / ".cache" / "is_ice" / "mutants"
READ = ("src", "specs", "proofs")
SCRIPTS = [here / "catalog.py", here / "judge_bodies.py", here / "judge_gate.py", top / "checks" / "common.py"]


def files(crate):
    """What a check of the crate reads, and its mutants."""
    for name in sorted(closure(crate)):
        for part in READ:
            yield from sorted(path for path in (top / "crates" / name / part).rglob("*") if path.is_file())
    yield here / "gate" / f"{crate}.txt"
    yield from SCRIPTS


def key(crate):
    """The checksum of all that a verdict on its mutants rests on."""
    found = hashlib.sha256(subprocess.run(["rt", "version"], capture_output=True).stdout + repr(closure(crate)).encode())
    for path in files(crate):
        found.update(f"{path.relative_to(top)}\0".encode() + hashlib.sha256(path.read_bytes()).digest())
    return found.hexdigest()


def judge_crate(crate):
    """How many mutants the crate has, and how many were not killed."""
    own = mutants("gate", crate)
    mark = KEPT / f"{crate}-{key(crate)[:32]}"
    if mark.exists():
        print(f"{crate}: {len(own)} of {len(own)} killed, which an earlier run on this machine found", flush=True)
        return len(own), 0
    try:
        failed = judge(crate, own, only_these=True)
    except Unjudged as why:
        print(f"{crate}: {why}", flush=True)
        failed = len(own)
    if not failed:
        KEPT.mkdir(parents=True, exist_ok=True)
        mark.touch()
    return len(own), failed


def judge_crates(names):
    """Prints the verdicts on the mutants of these crates; whether each was killed."""
    lanes = int(os.environ.get("RT_JOBS") or os.cpu_count())
    os.environ.setdefault("MUTANT_JOBS", "1")
    with concurrent.futures.ThreadPoolExecutor(lanes) as pool:
        counts = list(pool.map(judge_crate, [name for name in names if mutants("gate", name)]))
    total, failed = sum(count for count, _ in counts), sum(count for _, count in counts)
    print(f"{total - failed} of {total} mutants of the gate killed")
    return not failed
