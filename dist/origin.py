"""The commit that a release is built from: of a clone, or of the source archive of a release, whose file ORIGIN names it."""
import os
import pathlib
import subprocess

here = pathlib.Path(__file__).resolve().parent
top = here.parent
# `git archive` writes the commit and its date in place of the format.
WRITTEN = (here / "ORIGIN").read_text().split()
IS_ARCHIVE = not WRITTEN[0].startswith("$Format")


def git(*words):
    return subprocess.run(["git", "-C", str(top), *words], capture_output=True, check=True).stdout


def commit():
    """The commit, and whether there are changes that are not committed."""
    if IS_ARCHIVE:
        return WRITTEN[0]
    return git("rev-parse", "HEAD").decode().strip() + (" with changes that are not committed" if git("status", "--porcelain") else "")


def date():
    """The date of the commit, or SOURCE_DATE_EPOCH, in seconds."""
    return int(os.environ.get("SOURCE_DATE_EPOCH") or (WRITTEN[1] if IS_ARCHIVE else git("log", "-1", "--format=%ct")))


def archive(name):
    """The tar of the commit, below a folder of this name. None in the source archive of a release."""
    return None if IS_ARCHIVE else git("archive", "--format=tar", f"--prefix={name}/", "HEAD")
