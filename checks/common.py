"""What the scripts of this folder share: their help, the crates that a crate uses, copies of them with what checks stored, and messages."""
import os
import pathlib
import re
import shutil
import sys

top = pathlib.Path(__file__).resolve().parent.parent


def help_if_asked(text):
    """Prints the description of a script and ends it, if the user asked for help."""
    if {"-h", "--help"} & set(sys.argv[1:]):
        print(text)
        sys.exit()


def closure(crate):
    """The lines of crates.txt for the crate and those below it."""
    needs = {}
    for line in (top / "crates.txt").read_text().splitlines():
        if ":" in line and not line.startswith("#"):
            needs[line.split(":")[0].split()[0]] = line
    found, wanted = {}, [crate]
    while wanted:
        name = wanted.pop()
        if name in needs and name not in found:
            found[name] = needs[name]
            wanted += needs[name].split(":")[1].split()
    return found


def copy_crate(name, folder, *left_out):
    """Copies a crate again, with what checks stored in out/, except the folders that are left out."""
    shutil.rmtree(folder / "crates" / name, ignore_errors=True)
    skip = shutil.ignore_patterns("*.o", *left_out)
    shutil.copytree(top / "crates" / name, folder / "crates" / name, ignore=skip)


def link_or_copy(old, new):
    """For a file that nobody writes into."""
    try:
        os.link(old, new)
    except OSError:
        shutil.copy2(old, new)


def copy_lower(crate, folder):
    """Copies the crates below this one, with their libraries."""
    needs = closure(crate)
    (folder / "crates.txt").write_text("\n".join(needs.values()) + "\n")
    if (top / "HANDLES").exists():
        shutil.copy(top / "HANDLES", folder)
    for name in needs:
        if name != crate:
            copy_crate(name, folder, "incremental", "rlib")
            built = top / "crates" / name / "out" / "rlib"
            if built.exists():
                shutil.copytree(built, folder / "crates" / name / "out" / "rlib", copy_function=link_or_copy, dirs_exist_ok=True)


def messages(said):
    """The messages of an output, one a line: an indented line belongs to the one before it."""
    return re.sub(r"\n[ \t]+", " ", said).split("\n")
