"""The version of a release: the file VERSION has it, and the files that tools read carry copies."""
import pathlib
import re

top = pathlib.Path(__file__).resolve().parent.parent
SOURCE = top / "VERSION"
# Each copy: a file, and the text around the number.
COPIES = (
    ("c/is_ice.h", r'(?m)(^#define IS_ICE_VERSION_TEXT ")([^"\n]*)(")'),
    ("python/is_ice/__init__.py", r'(?m)(^__version__ = ")([^"\n]*)(")'),
    ("rust/Cargo.toml", r'(?m)(\A\[package\]\nname = "is"\nversion = ")([^"\n]*)(")'),
    ("rust/serde/Cargo.toml", r'(?m)(^\[package\]\nname = "is"\nversion = ")([^"\n]*)(")'),
    ("rust/str0m/Cargo.toml", r'(?m)(^\[package\]\nname = "is"\nversion = ")([^"\n]*)(")'),
    ("README.md", r"(?m)(^Version )(\d+\.\d+\.\d+)(\. )"),
    ("js/package.json", r'(?m)(^  "version": ")([^"\n]*)(")'),
    ("rust/Cargo.lock", r'(?m)(^name = "is"\nversion = ")([^"\n]*)(")'),
)


def version():
    return SOURCE.read_text().strip()


def differing():
    """The files whose copy is missing or another version, each with what it has."""
    found = {name: re.search(pattern, (top / name).read_text()) for name, pattern in COPIES}
    return {name: match and match[2] for name, match in found.items() if not match or match[2] != version()}


def write(number):
    """Sets the version, and writes its copies."""
    SOURCE.write_text(f"{number}\n")
    for name, pattern in COPIES:
        path = top / name
        path.write_text(re.sub(pattern, rf"\g<1>{number}\g<3>", path.read_text(), count=1))
