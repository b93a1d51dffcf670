"""Reads the mutants: the files mutants/gate/CRATE.txt, mutants/bodies/CRATE.txt and mutants/specifications/CRATE.txt.
docs/TESTING.md describes the format."""
import collections, dataclasses, functools, pathlib, re, sys

here = pathlib.Path(__file__).resolve().parent
top = here.parent


@dataclasses.dataclass
class Mutant:
    """rules: the guarantees that it breaks, as docs/PROMISES.md has them, or the beginnings of these. changes: pairs of an old and a new
    text. within: the function in which the old texts are, or None for the whole file."""

    name: str
    crate: str
    kind: str
    place: tuple
    rules: list
    theorem: str | None
    file: str | None
    within: str | None
    changes: list = dataclasses.field(default_factory=list)

    def lacking(self):
        """The parts that it should have and does not."""
        parts = {"file:": self.file, "old: and new:": self.changes, "rule": self.rules}
        if self.kind == "specifications":
            parts["theorem:"] = self.theorem
        return [part for part, has in parts.items() if not has]


KINDS = ("gate", "bodies", "specifications")

FUNCTION = re.compile(r"\s*(?:pub(?:\([^)]*\))?\s+)?(?:(?:const|unsafe|extern(?:\s+\"[^\"]*\")?)\s+)*fn\s+(\w+)")


class Reader:
    """Reads the lines of a file of mutants. A paragraph ends at an empty line or a heading."""

    def __init__(self, path, crate, kind):
        self.path, self.crate, self.kind = path, crate, kind
        self.found, self.rules, self.theorem, self.file = [], [], None, None
        self.begin_paragraph()

    def begin_paragraph(self):
        # within, shared: the function and the old text of all mutants of the paragraph. old: the text whose new one is to come.
        self.mutant, self.within, self.shared, self.old = None, None, None, None

    def read(self):
        """The mutants."""
        for number, line in enumerate([*self.path.read_text().split("\n"), ""], 1):
            if not self.take(number, line):
                self.stop(number, "this line is not of the format, or it is in the wrong place")
        return self.found

    def take(self, number, line):
        """Reads a line; whether it is in its place."""
        if line.startswith("## "):
            is_whole = self.ends_paragraph()
            self.rules, self.theorem, self.file = [line[3:]], None, None
            return is_whole
        if not line.strip():
            return self.ends_paragraph()
        if line.startswith("# rule: ") and self.mutant:
            self.mutant.rules.append(line[8:])
        if line.startswith("#"):
            return True
        key, _, text = line.partition(":")
        if key == "mutant":
            return self.begin_mutant(number, text[1:])
        return (self.take_part if self.mutant else self.take_head)(key, text[1:])

    def ends_paragraph(self):
        """Ends a paragraph; whether it was whole: each old text has its new one, and each mutant its parts."""
        is_whole = self.old is None and (self.mutant or not self.shared)
        self.judge()
        self.begin_paragraph()
        return is_whole

    def judge(self):
        """Stops if the mutant lacks a part."""
        lacking = self.mutant.lacking() if self.mutant else []
        if lacking:
            self.stop(self.mutant.place[1], f"{self.mutant.name} has no {' and no '.join(lacking)}")

    def begin_mutant(self, number, name):
        is_whole = self.old is None
        self.judge()
        place = (self.path, number)
        self.mutant = Mutant(name, self.crate, self.kind, place, [*self.rules], self.theorem, self.file, self.within)
        self.found.append(self.mutant)
        self.old = self.shared
        return is_whole

    def take_head(self, key, text):
        """Reads a line before the mutants of a paragraph."""
        if key == "theorem" and self.kind == "specifications":
            self.theorem = text
        elif key == "file" and text != self.file:
            self.file = text
        elif key == "in" and self.kind != "specifications" and not self.within and not self.shared:
            self.within = text
        elif key == "old" and self.shared is None:
            self.shared = text
        else:
            return False
        return True

    def take_part(self, key, text):
        """Reads a line of a mutant."""
        mutant = self.mutant
        if key == "in" and self.kind != "specifications" and not mutant.within and not mutant.changes:
            mutant.within = text
        elif key == "old" and self.old is None:
            self.old = text
        elif key == "new" and self.old is not None:
            mutant.changes.append((self.old, text))
            self.old = None
        else:
            return False
        return True

    def stop(self, number, why):
        sys.exit(f"{self.path.relative_to(top)}:{number}: {why}")


def paths(kind, crate):
    """The files that have the mutants of this kind."""
    return [path for path in [here / kind / f"{crate}.txt"] if path.exists()]


def mutants(kind, crate):
    return [mutant for path in paths(kind, crate) for mutant in Reader(path, crate, kind).read()]


def crates():
    return sorted(path.name for path in (top / "crates").iterdir() if (path / "src").is_dir())


def everything():
    return [mutant for crate in crates() for kind in KINDS for mutant in mutants(kind, crate)]


@functools.cache
def text_of(crate, file):
    path = top / "crates" / crate / file
    return path.read_text() if path.exists() else ""


def first_line(lines, head):
    """The first line of the function whose `fn` is in this line: that of its attributes, to which notes on it point."""
    while lines[head - 2].lstrip().startswith("#["):
        head -= 1
    return head


def functions(text):
    """The name of each function, the line of its `fn`, and its lines, which end where the next one begins. Lines count from 1."""
    lines = text.split("\n")
    heads = [i for i, line in enumerate(lines, 1) if FUNCTION.match(line)]
    ends = [first_line(lines, head) for head in heads[1:]] + [len(lines) + 1]
    return [(FUNCTION.match(lines[head - 1])[1], head, range(first_line(lines, head), end)) for head, end in zip(heads, ends)]


def bounds(mutant):
    """Where in its file the old texts are looked for, from a place to one after the end; None if its function is not there once."""
    text = text_of(mutant.crate, mutant.file)
    if mutant.within is None:
        return 0, len(text)
    own = [lines for name, _, lines in functions(text) if name == mutant.within]
    starts = [0, *(i + 1 for i, character in enumerate(text) if character == "\n"), len(text)]
    return (starts[own[0].start - 1], starts[own[0].stop - 1]) if len(own) == 1 else None


def stale(mutant):
    """Why the mutant can't be applied to the crate as it is, one line for each change."""
    where = f"crates/{mutant.crate}/{mutant.file}"
    found = bounds(mutant)
    if found is None:
        yield f"there is not exactly one fn {mutant.within} in {where}"
        return
    for old, _ in mutant.changes:
        count = text_of(mutant.crate, mutant.file).count(old, *found)
        if count != 1:
            inside = f"fn {mutant.within} of " if mutant.within else ""
            yield f"its text is {count} times in {inside}{where}: {old.strip()[:100]}"


def same_names(found):
    """A line for each name that two mutants of a crate have."""
    places = collections.defaultdict(list)
    for mutant in found:
        places[mutant.crate, mutant.name].append(mutant.place)
    for (crate, name), where in sorted(places.items()):
        if len(where) > 1:
            yield f"{crate}: {len(where)} mutants are called {name}"
