"""Finds what reads the words of a text in a front end: the library does that. `c/abi/make --check` compares what the front ends declare.

usage: c/tests/fronts.py      prints what it finds; status 1 if it finds something"""
import pathlib
import re
import sys

TOP = pathlib.Path(__file__).resolve().parent.parent.parent
FILES = ("rust/src/**/*.rs", "python/is_ice/*.py", "c/is_ice.hpp", "c/is_ice_*.h", "js/src/*.js")

# What reads the words of a text; and where it is none of a peer: the zone of an address that the system returns, the grammar of a token.
READERS = re.compile(r"split\w*\(|partition\(|strtok|sscanf|istringstream|getline\(|\bre\.\w+\(|"
                     r"\.match(?:All)?\(|\.replace\(/|\bRegExp\(|\.exec\(")
NO_READERS = ("split_username(", "split_at(", 'socket.ip.split("%")', 'text.replace(/%.*$/, "")',
              're.compile("[A-Za-z0-9+/]*")')


def readers(path):
    """The lines of a file that read the words of a text."""
    for number, line in enumerate(path.read_text().splitlines(), 1):
        for known in NO_READERS:
            line = line.replace(known, "")
        if READERS.search(line):
            yield f"{path.relative_to(TOP)}:{number} reads the words of a text: {line.strip()}"


def main():
    paths = [path for pattern in FILES for path in sorted(TOP.glob(pattern))]
    found = [line for path in paths for line in readers(path)]
    if len(paths) < 40:
        found.append(f"only {len(paths)} files were found")
    print("\n".join(found) or f"{len(paths)} files")
    sys.exit(1 if found else 0)


if __name__ == "__main__":
    main()
