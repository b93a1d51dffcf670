"""Reads the files of specs/: where each definition stands, which others it names, and which parts of a type these use."""
import collections
import re
import textwrap

from common import top

NAME = r"[A-Za-z_][A-Za-z0-9_'\-]*"
HEAD = re.compile(rf"^(\s*)(?:abbrev(?: pub)?|unfoldable(?: pub)?|pub record|record|pub data|data)\s+({NAME}|◌\S*◌)")
NEXT = re.compile(r"abbrev|unfoldable|pub record|record |pub data|data |module |use |pub use |--|pub [a-z]")
USE = re.compile(r"(?m)^(?:pub )?use (Rattle\.[A-Za-z0-9_.]+?)(?:\.\{([^}]*)\})?(?: as (\w+))?$")
CONSTRUCTOR = re.compile(rf"\s*({NAME}) :")
# The head of a type of values, which has no other parameters than types; and a field or a form of it.
TYPE = re.compile(rf"\s*(?:pub )?(record|data) {NAME}(?: [({{][\w ]+ : Type 0[)}}])* : Type 0 where$")
RECORD = re.compile(r"\s*(?:pub )?record ")
MEMBER = re.compile(rf"\s*(?:pub )?«?({NAME})»? :")
FORMULA = re.compile("[≡≢≤<⊎⊥¬]")
# A value in the type of a field, as in `IsOnlyPair agent path`: the field is a statement. `code.Checklist` is a type.
VALUE = re.compile(r"(?<![\w.'-])[a-z_][\w'-]*\b(?!\.[A-Z])")
PART = re.compile(rf"\.«?({NAME})|({NAME})»? = |\b([A-Z][\w'-]*)")

# key: its module and name. path, line: where it begins. body: its text without comments. shown: with those above it and in it. others: of a
# type of which a cone needs only some parts, the names of those that it leaves out.
Definition = collections.namedtuple("Definition", "key path line body shown others", defaults=[()])


def bare(line):
    return line.split("--")[0]


def count(definition):
    """How many lines it has that say something; the names that are left out take one."""
    return sum(1 for line in definition.body.split("\n") if line.strip()) + bool(definition.others)


def parts_in(definition):
    """The fields and forms of types that it may name: what follows a dot, or comes before `=`, and words with a capital letter."""
    body = definition.body
    return {part for match in PART.finditer(body) for part in match.groups() if part}


def lists_values(definition):
    """Whether it lists the fields or forms of a value, and states nothing itself."""
    head, _, members = definition.body.partition("\n")
    match = TYPE.match(head.rstrip())
    if not match or FORMULA.search(members):
        return False
    types = [MEMBER.sub("", line) for line in members.split("\n")]
    return match[1] == "data" or not ("→" in members or any(map(VALUE.search, types)))


def narrowed(definition, used):
    """A type with only those of its fields or forms whose names are used; those left out are named in one line."""
    lines = definition.shown.split("\n")
    head = next(at for at, line in enumerate(lines) if TYPE.match(line.rstrip()))
    kept, others, held = lines[: head + 1], [], []
    for line in lines[head + 1 :]:
        held.append(line)
        if member := MEMBER.match(bare(line)):
            if member[1] in used:
                kept += held
            else:
                others.append(member[1])
            held = []
    if not others:
        return definition
    body = "\n".join(map(bare, kept[head:]))
    said = f"not named here: {', '.join(others)}"
    kept += textwrap.wrap(said, 140, initial_indent="  -- ", subsequent_indent="  -- ", break_on_hyphens=False)
    return definition._replace(body=body, shown="\n".join(kept), others=tuple(others))


def end_of(lines, at, depth):
    """Where the definition ends that begins in line `at`, with that much white space before it."""
    end = at + 1
    while end < len(lines):
        text = lines[end].strip()
        own = len(lines[end]) - len(lines[end].lstrip())
        if text and (own < depth or own == depth and NEXT.match(text)):
            break
        end += 1
    while end > at + 1 and (not lines[end - 1].strip() or lines[end - 1].strip().startswith("--")):
        end -= 1
    return end


def begin_of(lines, at):
    """Where the comment begins that stands right above line `at`, without headings."""
    while at > 0 and lines[at - 1].strip().startswith("--") and not lines[at - 1].strip().startswith("-- ----"):
        at -= 1
    return at


def imports_of(text):
    """What each imported name of a file means, as module and name; and the module of each alias."""
    names, aliases = {}, {}
    for module, listed, alias in USE.findall(text):
        if not listed:
            aliases[alias or module.rpartition(".")[2]] = module
        for name in filter(None, (name.strip() for name in listed.split(","))):
            original, _, new = name.partition(" as ")
            names[new or original] = (module, original)
    return names, aliases


def full_name(key):
    """The name of a definition with its crate and file."""
    return f"{key[0].removeprefix('Rattle.').replace('.specs.', '.')}.{key[1]}"


def is_known(definition, known):
    """Whether it is among these names, which may have the crate and the file before them."""
    return definition.key[1] in known or full_name(definition.key) in known


class Specs:
    """All definitions of the repository."""

    def __init__(self):
        self.definitions, self.constructors, self.imports, self.places = {}, {}, {}, collections.defaultdict(list)
        self.types = {}
        for path in sorted((top / "crates").glob("*/specs/**/*.antt")):
            self.read(path)
        for key in self.definitions:
            self.places[key[1]].append(key)

    def read(self, path):
        _, crate, _, *parts = path.relative_to(top).with_suffix("").parts
        module = ".".join(["Rattle", crate, "specs", *parts])
        text = path.read_text()
        self.imports[module] = imports_of(text)
        lines = text.split("\n")
        at = 0
        while at < len(lines):
            head = HEAD.match(lines[at])
            end = end_of(lines, at, len(head[1])) if head else at + 1
            if head:
                self.add((module, head[2]), path, lines, at, end)
            at = end

    def add(self, key, path, lines, at, end):
        body, shown = "\n".join(map(bare, lines[at:end])), "\n".join(lines[begin_of(lines, at) : end])
        self.definitions[key] = Definition(key, path.relative_to(top), at + 1, body, shown)
        if re.match(r"\s*(pub )?data", lines[at]):
            found = filter(None, map(CONSTRUCTOR.match, lines[at + 1 : end]))
            self.constructors.update(((key[0], constructor[1]), key) for constructor in found)

    def meaning(self, module, name):
        """The definition that a name means in a file, or the module and name of what is outside of specs/, or None."""
        here = (module, name)
        there = here if here in self.definitions or here in self.constructors else self.imports[module][0].get(name)
        return self.constructors.get(there, there)

    def named_in(self, definition):
        """The definitions that it names, and what it names outside of specs/."""
        module = definition.key[0]
        aliases = self.imports[module][1]
        found, outside = {}, set()
        for token in re.findall(rf"(?:{NAME}\.)?{NAME}", definition.body):
            parts = token.split(".")
            if len(parts) == 2 and parts[0] in aliases:
                there = (aliases[parts[0]], parts[1])
                meant = [self.constructors.get(there, there)]
            else:
                meant = [self.meaning(module, part) for part in parts]
            for key in meant:
                if key in self.definitions and key != definition.key:
                    found[key] = self.definitions[key]
                elif key and key not in self.definitions:
                    outside.add(key)
        return list(found.values()), outside

    def is_type(self, definition, within=()):
        """Whether it lists the fields or forms of a value, and states nothing: no field of it is a record that states something."""
        if definition.key not in self.types:
            inner = [it for it in self.named_in(definition)[0] if it.key not in within and RECORD.match(it.body)]
            self.types[definition.key] = lists_values(definition) and all(self.is_type(it, (*within, definition.key)) for it in inner)
        return self.types[definition.key]

    def cone(self, roots, known=()):
        """All that must be read to understand these definitions, each after what it names, and what is named outside of specs/. Those whose
        names are known are listed, and not opened. Of a type of values only the fields and forms count that the others name."""
        used = set()
        while True:
            order, outside = self.walk(roots, known, used)
            more = set().union(*(parts_in(it) for it in order if not is_known(it, known) and not self.is_type(it)))
            if more <= used:
                return order, outside
            used |= more

    def walk(self, roots, known, used):
        order, outside, seen = [], set(), set()

        def visit(definition):
            if definition.key in seen:
                return
            seen.add(definition.key)
            if self.is_type(definition) and definition not in roots:
                definition = narrowed(definition, used)
            if not is_known(definition, known):
                found, others = self.named_in(definition)
                outside.update(others)
                # Those of its own file last, so that the definitions of a file stand together.
                for other in sorted(found, key=lambda it: (it.key[0] == definition.key[0], it.path, it.line)):
                    visit(other)
            order.append(definition)

        for root in roots:
            visit(root)
        return order, outside
