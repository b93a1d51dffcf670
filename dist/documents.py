"""The documents of a release. Each link in them leads to a file of the same release; what is not in it is only named.

A package gives a map from paths of the repository to paths of the package, or to None if no link can lead there. A document goes along
with these changes:

- a link to a file of the package leads there, and one to another file is only its text; pictures are not in a package
- a row of a table is left out if its first cell names files of the repository, and none of them is in the package
- what is between the comments <!-- only in a clone --> and <!-- end --> is left out
"""
import os.path
import pathlib
import re

top = pathlib.Path(__file__).resolve().parent.parent
LINK = re.compile(r"(!?)\[((?:[^\[\]]|\[[^\[\]]*\])*)\]\(\s*<?([^()\s<>]+)>?\s*\)")
CLONE_ONLY = re.compile(r"(?ms)^<!-- only in a clone -->\n.*?^<!-- end -->\n\n?")
BLOCK = re.compile(r"(?ms)^[ \t]*(```|~~~).*?^[ \t]*\1[ \t]*$")
SPAN = re.compile(r"`[^`\n]+`")
SCHEME = re.compile(r"[a-zA-Z][\w+.-]*:")


def carried(target):
    """The documents that every package has, and their places below its folder of documents."""
    first = {"README.md": f"{target}/docs/README.md", **{name: f"{target}/{name}" for name in ("CHANGELOG.md", "SECURITY.md")}}
    return {**{source: os.path.normpath(place) for source, place in first.items()}, **placed("docs", f"{target}/docs", "*.md")}


def outside_code(text, change):
    """The text with `change` made in each part that is neither a block nor a span of code."""
    kept = [match.span() for match in BLOCK.finditer(text)]
    kept += [match.span() for match in SPAN.finditer(text) if not any(a <= match.start() < b for a, b in kept)]

    def kept_or_changed(match):
        is_code = any(a <= match.start() and match.end() <= b for a, b in kept)
        return match[0] if is_code else change(match)

    return LINK.sub(kept_or_changed, text)


def source_of(document, name):
    """The path in the repository of what a document names."""
    return os.path.normpath(os.path.join(os.path.dirname(document), name))


def linked(text, source, places):
    """The text with each link to where its file is in the package."""
    home = places.get(source)

    def change(match):
        picture, words, target = match.groups()
        name, hash_, anchor = target.partition("#")
        if SCHEME.match(target) or not name:
            return match[0]
        place = home and not picture and places.get(source_of(source, name))
        if not place:
            return f"(picture: {words})" if picture else words
        return f"[{words}]({os.path.relpath(place, os.path.dirname(home) or '.')}{hash_}{anchor})"

    return outside_code(text, change)


def is_absent(row, source, places):
    """Whether the first cell of a row of a table names files of the repository of which none is in the package."""
    names = re.findall(r"`([^`]+)`", row.split("|")[1])
    found = [source_of(source, name) for name in names if re.fullmatch(r"[\w./-]+", name)]
    found = [name for name in found if (top / name).exists()]
    return bool(found) and not any(name in places or any(it.startswith(f"{name}/") for it in places) for name in found)


def document(source, places):
    """A document of the repository as it is in the package."""
    text = CLONE_ONLY.sub("", (top / source).read_text())
    lines = [line for line in text.splitlines(keepends=True) if not (line.startswith("| ") and is_absent(line, source, places))]
    return linked("".join(lines), source, places)


def documents(places):
    """The documents of a package: those of the map that end with .md."""
    return {place: document(source, places).encode() for source, place in places.items() if place and source.endswith(".md")}


def others(places):
    """The files of a package that are no documents, as they are in the repository."""
    return {place: (top / source).read_bytes() for source, place in places.items() if place and not source.endswith(".md")}


def placed(folder, target, *patterns):
    """The map of the files of a folder that match the patterns to the same paths below another folder."""
    paths = sorted(path for pattern in patterns for path in (top / folder).glob(pattern) if path.is_file())
    return {str(path.relative_to(top)): os.path.normpath(os.path.join(target, path.relative_to(top / folder))) for path in paths}


def not_there(files):
    """The documents and examples that the headers, the manual page and the Rust sources of a package name, and that are not in it."""
    wrong = []
    for name, contents in files.items():
        if name.endswith((".h", ".hpp", ".rs", ".3")):
            named = set(re.findall(rb"\b((?:docs|examples)/\w+\.\w+)", contents))
            wrong += [f"{name}: {it.decode()}" for it in named if not any(path.endswith(it.decode()) for path in files)]
    return wrong


def leading_out(files):
    """The relative links in the documents among the files of a package that lead to no file of it."""
    wrong = []
    for name, contents in files.items():
        if not name.endswith(".md"):
            continue
        targets = []
        outside_code(contents.decode(), lambda match: targets.append(match[3]) or match[0])
        for target in targets:
            place = os.path.normpath(os.path.join(os.path.dirname(name), target.partition("#")[0]))
            if not SCHEME.match(target) and not target.startswith("#") and place not in files:
                wrong.append(f"{name}: {target}")
    return wrong
