#!/usr/bin/env python3
"""The licenses of what the library contains in addition to this project's code: crates of the kit that are ports of Rust crates.

usage: dist/notices.py      writes third-party.txt from the license files of the kit on the path

Each package has third-party.txt. A build fails if the kit on the path has other crates below `is_c`, or other license files. Without a
kit on the path it takes the file as it is.
"""
import pathlib
import re
import shutil
import sys
from typing import NamedTuple

here = pathlib.Path(__file__).resolve().parent
KEPT = here / "third-party.txt"
EITHER = "MIT OR Apache-2.0"
HEAD = """The library is compiled from this project's crates and from crates of the Rattle kit. Those of the kit that are
listed here are ports of Rust crates, or have their names and their license files. Of two licenses, the shorter one is here.

The kit's own crates, {own},
come without a license file. Whoever publishes a release settles with the kit's makers under which terms their compiled code
may be passed on.
"""


class Port(NamedTuple):
    """A crate of the kit, the Rust crate that it is after, the license of that, and the kit's files that have the text."""
    name: str
    original: str
    version: str
    license: str
    texts: tuple[str, ...]


PORTS = (
    Port("fast_float", "fast-float2", "0.2.4", EITHER, ("LICENSE",)),
    Port("itoa", "itoa", "1.0.18", EITHER, ("LICENSE",)),
    Port("md5", "md-5", "0.10.6", EITHER, ("LICENSE-MIT",)),
    Port("rand_core", "rand_core", "0.10.1", EITHER, ("LICENSE-MIT",)),
    Port("ryu", "ryu", "1.0.23", "(Apache-2.0 OR BSL-1.0) AND MIT", ("LICENSE", "LICENSE-ZMIJ")),
    Port("serde", "serde", "1.0.229", EITHER, ("LICENSE-MIT",)),
    Port("serde_json", "serde_json", "1.0.154", EITHER, ("LICENSE-MIT",)),
    Port("sha1", "sha1", "0.11.0", EITHER, ("LICENSE-MIT",)),
    Port("simdutf8", "simdutf8", "0.1.5", EITHER, ("LICENSE",)),
)
# Crates of the kit that have no license file there.
OWN = ("core", "io", "json", "libc", "os", "std", "std_alloc", "std_collections", "std_heap", "std_io")


def kit():
    """The folder of the kit on the path, or None."""
    found = shutil.which("rt")
    return found and pathlib.Path(found).resolve().parent.parent


def reached(folder):
    """The crates of the kit that `is_c` depends on, directly or not."""
    rows = re.findall(r"(?m)^(\w+)(?: [\w=]+)*:(.*)$", (here.parent / "crates.txt").read_text())
    below = {name: deps.split() for name, deps in rows}
    found, left = set(), ["is_c"]
    while left:
        name = left.pop()
        if name in found:
            continue
        found.add(name)
        format_ = folder / "rlibs" / f"{name}.rlib" / "format"
        left += below[name] if name in below else re.findall(r"(?m)^dep (\w+)$", format_.read_text())
    return found - below.keys() | {"std"}


def made(folder):
    """The notices, from the license files of a kit."""
    parts = [HEAD.format(own=", ".join(OWN))]
    for port in PORTS:
        texts = [(folder / "rattle" / port.name / name).read_text().strip() for name in port.texts]
        heading = f"{'=' * 80}\n{port.name}, after the Rust crate {port.original} {port.version} ({port.license})"
        parts.append("\n\n".join([heading, *texts]) + "\n")
    return "\n".join(parts)


def text():
    """The notices. ValueError if those of the kit on the path are others."""
    kept, folder = KEPT.read_text(), kit()
    if folder:
        listed = {port.name for port in PORTS} | set(OWN)
        if others := reached(folder) ^ listed:
            raise ValueError(f"PORTS and OWN of dist/notices.py, and the kit's crates below is_c, differ: {sorted(others)}")
        if kept != made(folder):
            raise ValueError(f"{KEPT.name} is not what the kit's license files say: run dist/notices.py")
    return kept


def main():
    if {"-h", "--help"} & set(sys.argv[1:]):
        print(__doc__.strip())
    elif len(sys.argv) > 1:
        sys.exit(__doc__.strip())
    elif kit():
        KEPT.write_text(made(kit()))
    else:
        sys.exit("dist/notices.py: the kit is not on the path")


if __name__ == "__main__":
    main()
