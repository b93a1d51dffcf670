"""Judges mutants of function bodies on a copy of their crate: as many in one check as there are functions.

A pass puts one mutant of each function into a copy and checks that once. The verdict on a mutant is one of these:

  killed         a goal of its own function is unproved: the prover reports it, or a stored proof searches and finds none
  SURVIVED       its own function was proved
  INCONCLUSIVE   a stored proof of the function has an error of another kind: it does not fit the body, which says nothing of
                 the contract
  not checked    the function was not checked, for example because one that it calls is not proved; it is tried again in the
                 next pass, without the mutants that were killed, and is NOT CHECKED at the end

What earlier checks stored in out/ is copied too, so that a pass checks only what a mutant affects. A check of named functions needs nothing
of the crate's own that was stored: what they call is taken by its contract, since its proof in the copy is a hole."""
import collections, os, pathlib, re, subprocess, tempfile, time

from catalog import bounds, functions, text_of, top
from common import copy_crate, copy_lower, messages

IMPL = re.compile(r"\s*impl\b(?:<[^{]*?>)?\s+(?:(?:\w+::)*(\w+)(?:<(\w+)>)?.*\sfor\s+)?(\w+)")
# The words of an unproved goal: as a note at the code, in a function's line, in an error of its stored proof.
NOTED = "it is not proved that "
UNPROVED = "did not prove `"
UNFOUND = ("no proof of `", "found no proof", "the goal does not follow")
# A function without unproved goals of its own. What it calls may be a hole.
PROVED = ("no holes", "depends on a hole in ")
TYPE = re.compile(r"(?:pub(?:\([^)]*\))?\s+)?(?:struct|enum|union)\s+(\w+)")
BLOCK = re.compile(r"(?:unsafe\s+)?(?:impl|(?:pub(?:\([^)]*\))?\s+)?trait)\b")
# An impl of a type with other arguments than its own parameters, as Builder<'a, NoMethod>: its functions have longer paths.
PARTLY = re.compile(r"impl<([^{]*?)>\s+\w+<([^{]*?)>\s*\{")
# What a function that is taken by its contract has as its proof. One hole serves all, since each is printed with its goal.
HOLE = """pub hole : {A : Type 2} → A
hole = ?
"""
TAKEN = """use Rattle.{crate}.proofs.{path}.Statement.{{statement}}
use Rattle.{crate}.proofs.HoleOfAll.{{hole}}

pub {name}_spec : {{M : Type 1}} → statement M
{name}_spec = hole
"""


class Unjudged(Exception):
    """Why there is no verdict."""


Change = collections.namedtuple("Change", "start end new line")
# lines: those of the function that it changes. owner: the type of its impl. trait: the trait of its impl with its parameter, or nothing.
Edit = collections.namedtuple("Edit", "name file function owner trait lines changes")


def located(mutant):
    """The places of its changes."""
    text = text_of(mutant.crate, mutant.file)
    for old, new in mutant.changes:
        start = text.index(old, *bounds(mutant))
        yield Change(start, start + len(old), new, text.count("\n", 0, start) + 1)


def edit_of(mutant):
    """The edit that it is, of the one function that it changes; or why it is none."""
    changes = list(located(mutant))
    text = text_of(mutant.crate, mutant.file)
    lines = text.split("\n")
    homes = {place for change in changes for place in functions(text) if change.line in place[2]}
    if len(homes) != 1 or any(change.line not in own for _, _, own in homes for change in changes):
        return None, "it does not change exactly one function"
    function, head, own = homes.pop()
    trait, of, owner = "", "", None
    if lines[head - 1].startswith(" "):
        trait, of, owner = next((IMPL.match(line).groups("") for line in reversed(lines[:head]) if IMPL.match(line)), ("", "", None))
    return Edit(mutant.name, mutant.file, function, owner, trait + of[:1].upper() + of[1:], own, changes), None


def module_of(file):
    """The path of its module below the crate."""
    return file.removeprefix("src/").removesuffix(".rt").replace("/", "::")


def path_of(edit):
    """The path by which a check names its function."""
    return f"{edit.owner}{edit.trait}::{edit.function}" if edit.owner else f"{module_of(edit.file)}::{edit.function}".removeprefix("lib::")


def proofs(crate):
    """The folder below proofs/ of each function, with its file and lines: those of modules, and of impls of the crate's own types."""
    files = [str(path.relative_to(top / "crates" / crate)) for path in sorted((top / "crates" / crate / "src").rglob("*.rt"))]
    modules = {file: [] if file in ("src/lib.rt", "src/main.rt") else module_of(file).split("::") for file in files}
    homes = {found[1]: modules[file] for file in files for line in text_of(crate, file).split("\n") if (found := TYPE.match(line))}
    for file in files:
        lines = text_of(crate, file).split("\n")
        for function, head, own in functions(text_of(crate, file)):
            if not lines[head - 1].startswith(" "):
                yield "/".join([*modules[file], function]), file, own
                continue
            block = next((line for line in reversed(lines[:head]) if BLOCK.match(line)), "")
            partly = PARTLY.match(block)
            if partly and {*partly[2].split(", ")} - {*re.findall(r"(?:^|, )('?\w+)", partly[1])}:
                continue
            trait, of, owner = (IMPL.match(block) or IMPL.match("impl none")).groups("")
            if owner in homes:
                yield "/".join([*homes[owner], owner + trait + of[:1].upper() + of[1:], function]), file, own


def make_holes(crate, edits, folder):
    """Makes the proof of each function of a copy a hole, except that of the edited ones, so that it is taken by its contract."""
    own_proofs = folder / "crates" / crate / "proofs"
    own_proofs.mkdir(exist_ok=True)
    (own_proofs / "HoleOfAll.antt").write_text(HOLE)
    with (own_proofs / "Lib.antt").open("a") as lemmas:
        lemmas.write("\nmod HoleOfAll\n")
    found = list(proofs(crate))
    times = collections.Counter(place for place, _, _ in found)
    edited = {(edit.file, edit.lines) for edit in edits}
    for place, file, own in found:
        if times[place] == 1 and (file, own) not in edited:
            home = own_proofs / place
            home.mkdir(parents=True, exist_ok=True)
            for old in home.glob("*.antt"):
                old.unlink()
            (home / "Proof.antt").write_text(TAKEN.format(crate=crate, path=place.replace("/", "."), name=home.name))


def check(crate, edits, folder, only_these, has_holes):
    """The output of a check of a copy with these edits. only_these: of their functions only. has_holes: what these call is taken by its
    contract."""
    copy_crate(crate, folder, "rlib")
    changes = collections.defaultdict(list)
    for edit in edits:
        changes[edit.file] += edit.changes
    for file, found in changes.items():
        path = folder / "crates" / crate / file
        text = path.read_text()
        for change in sorted(found, reverse=True):
            text = text[: change.start] + change.new + text[change.end :]
        path.write_text(text)
    if has_holes:
        make_holes(crate, edits, folder)
    jobs = ["--jobs", os.environ["MUTANT_JOBS"]] if "MUTANT_JOBS" in os.environ else []
    only = [word for edit in edits for word in ("--only", path_of(edit))] if only_these else []
    command = ["rt", "check", "--allow-holes", *only, *jobs]
    ran = subprocess.run(command, cwd=folder / "crates" / crate, capture_output=True, text=True)
    return ran.stdout + ran.stderr


def verdicts(said):
    """What the line of each function says, with its unproved goals; and the errors of its stored proofs."""
    told, open_goals = {}, []
    answers = collections.defaultdict(list)
    for line in messages(said):
        goal = re.match(rf"note: (?:\./)?(src/\S+?):(\d+):\d+: ({NOTED}.*)", line)
        error = re.match(r"(?:\./)?proofs/(\S+)/\w+\.antt:\d+:\d+: error: (.*)", line)
        function = re.match(r"fn (\S+): (.*)", line)
        if goal:
            open_goals.append((goal[1], int(goal[2]), goal[3]))
        elif error:
            answers[error[1].replace("/", "::")].append(error[2])
        elif function:
            told[function[1]] = (function[2], open_goals)
            open_goals = []
    return told, answers


def judged(edit, crate, told, answers):
    """The verdict on an edit, by what was reported of its own function, and the words; no verdict if nothing was."""
    for _, goals in told.values():
        here = [goal for goal in goals if goal[0] == edit.file and goal[1] in edit.lines]
        if here:
            return "killed", here[0][2]
    named = [path for path in told if path.split("::")[-1] == edit.function]
    if edit.owner:
        home = [path for path in named if any(part.startswith(edit.owner) for part in path.split("::")[:-1])]
    else:
        home = [path for path in named if path == f"{crate}::{module_of(edit.file)}::{edit.function}"]
    found = home or named
    if found and all(told[path][0].startswith(PROVED) for path in found):
        return "SURVIVED", f"{', '.join(found)}: proved"
    if len(found) != 1:
        return None, "nothing was reported of it"
    line = told[found[0]][0]
    own = answers.get(found[0][len(crate) + 2 :], [])
    open_answers = [error for error in own if any(words in error for words in UNFOUND)]
    if UNPROVED in line or open_answers:
        return "killed", open_answers[0] if open_answers else line
    if own:
        return "INCONCLUSIVE", "a stored proof does not fit: " + own[0]
    return None, line


def pass_over(number, crate, edits, folder, only_these, has_holes):
    """A pass: the verdict on each edit of which something was reported."""
    start = time.monotonic()
    said = check(crate, edits, folder, only_these, has_holes)
    told, answers = verdicts(said)
    if not told and not has_holes:
        print("\n".join(line for line in said.split("\n") if "error" in line)[:3000] or said[-3000:])
        raise Unjudged(f"{crate}, pass {number}: the copy did not reach the prover")
    found = {}
    for edit in edits:
        verdict, why = judged(edit, crate, told, answers)
        if verdict:
            found[edit.name] = verdict
        print(f"{crate}, pass {number}: {edit.name}: {verdict or 'not checked'}: {why[:160]}")
    print(f"{crate}, pass {number}: {len(edits)} edits, {time.monotonic() - start:.0f} s", flush=True)
    return found


def passes(crate, left, only_these):
    """The verdict on each edit, and how many passes it took."""
    verdict, number, tried = {}, 0, set()
    with tempfile.TemporaryDirectory(prefix="mutants-") as folder:
        copy_lower(crate, pathlib.Path(folder))
        while left:
            number += 1
            taken = {}
            for edit in left:
                taken.setdefault((edit.file, edit.lines), edit)
            # What is not judged over holes is tried again without them.
            has_holes = only_these and not any(edit.name in tried for edit in taken.values())
            tried |= {edit.name for edit in taken.values()}
            verdict.update(pass_over(number, crate, list(taken.values()), pathlib.Path(folder), only_these, has_holes))
            rest = [edit for edit in left if edit.name not in verdict]
            if len(rest) == len(left) and not has_holes:
                verdict.update((edit.name, "NOT CHECKED") for edit in rest)
                break
            left = rest
    return verdict, number


def judge(crate, mutants, only_these=False):
    """Prints the verdicts, and returns how many mutants were not killed. only_these: checks only the functions that are changed."""
    edits = []
    for mutant in mutants:
        edit, why = edit_of(mutant)
        if not edit:
            raise Unjudged(f"{mutant.name}: {why}")
        edits.append(edit)
    verdict, number = passes(crate, edits, only_these)
    failed = [f"{found}: {name}" for name, found in sorted(verdict.items()) if found != "killed"]
    print("\n".join([f"{crate}: {len(edits) - len(failed)} of {len(edits)} killed, {number} passes", *failed]), flush=True)
    return len(failed)
