"""Judges mutants of specifications on copies of their crate: a theorem has no body to change, so its definitions are changed.

The theorem is checked by itself on a copy with the mutant. The verdict is one of these:

  killed         a goal of its proof is unproved
  SURVIVED       it was proved without an error: the theorem does not need what was changed
  INCONCLUSIVE   the prover reports only other errors: a stored proof does not fit the definition, which says nothing of it

What earlier checks stored in out/ is copied too: so run `rt lib` in the crate before."""
import collections, pathlib, re, subprocess, tempfile, time

from common import copy_crate, copy_lower, messages

# The words of an unproved goal, in a proof and in the function's own line.
OPEN = re.compile(r"the goal does not follow|the equations do not join|(?:found )?no proof of `|found no proof|did not prove `|it is not proved that")
PROVED = re.compile(r": (?:proved|no holes)")


def check(mutant, folder):
    """The output of a check of the theorem on a copy with the mutant."""
    copy_crate(mutant.crate, folder, "rlib")
    path = folder / "crates" / mutant.crate / mutant.file
    text = path.read_text()
    for old, new in mutant.changes:
        text = text.replace(old, new)
    path.write_text(text)
    command = ["rt", "check", "--only", mutant.theorem, "--jobs", "1"]
    ran = subprocess.run(command, cwd=folder / "crates" / mutant.crate, capture_output=True, text=True)
    return ran.stdout + ran.stderr


def judged(theorem, said):
    """The verdict, and the prover's words for it."""
    lines = messages(said)
    errors = [line for line in lines if re.search(r"\berror\b", line)]
    left = [line for line in lines if OPEN.search(line)]
    if left:
        return "killed", left[0]
    told = [line for line in lines if line.startswith(f"fn {theorem}: ")]
    if not errors and told and all(PROVED.search(line) for line in told):
        return "SURVIVED", told[0]
    return "INCONCLUSIVE", (errors or told or lines[-2:] or ["nothing was reported"])[0]


def judge(mutants):
    """Prints the verdicts; whether each mutant was killed."""
    counts = collections.Counter()
    for crate in sorted({mutant.crate for mutant in mutants}):
        with tempfile.TemporaryDirectory(prefix="mutants-") as folder:
            copy_lower(crate, pathlib.Path(folder))
            for mutant in (mutant for mutant in mutants if mutant.crate == crate):
                start = time.monotonic()
                found, why = judged(mutant.theorem, check(mutant, pathlib.Path(folder)))
                counts[found] += 1
                print(f"{crate}: {mutant.name}: {found} ({time.monotonic() - start:.0f} s): {why[:200]}", flush=True)
    print(f"{counts['killed']} of {len(mutants)} killed, {counts['SURVIVED']} survived, {counts['INCONCLUSIVE']} inconclusive")
    return bool(mutants) and counts["killed"] == len(mutants)
