"""The sessions that every build of the library must play alike.

tests/transcript.c plays them over native libraries, js/tests/transcript.js over modules. What they print of a session is hashed, so two
builds are compared byte for byte, and a first difference has a number.
"""
import hashlib
import os
import pathlib
import re
import subprocess

from building import Failed, run

here = pathlib.Path(__file__).resolve().parent
top = here.parent
SOURCE = here / "tests" / "transcript.c"
SCRIPT = top / "js" / "tests" / "transcript.js"
COUNT = 3000  # of a release; a thirtieth of them in CI


def compiled(compiler, libraries, program, *flags):
    """Compiles the program that plays the sessions."""
    headers = top / "c"
    run(compiler, "-std=c11", "-O2", "-Wall", "-Wextra", f"-I{headers}", SOURCE, *libraries, *flags, "-o", program)
    return program


def hashed(lines):
    """The hash of each session: of its lines after 'session N', without the carriage returns of Windows."""
    hashes, session = [], None
    for line in lines:
        if line.startswith(b"session "):
            hashes.append(session := hashlib.sha256())
        elif session:
            session.update(line.replace(b"\r\n", b"\n"))
    return [it.hexdigest()[:32] for it in hashes]


def played(*command, count, **env):
    """The hash of each of so many sessions that a program plays. A script of JavaScript prints the hashes itself."""
    words = [*map(str, command), str(count)]
    with subprocess.Popen(words, stdin=subprocess.DEVNULL, stdout=subprocess.PIPE, stderr=subprocess.PIPE,
                          env={**os.environ, **env}) as program:
        if command[0] == "node":
            found = [re.fullmatch(rb"(\d+) ([0-9a-f]{32})\s*", line) for line in program.stdout]
            hashes = [it[2].decode() for it in found if it]
        else:
            hashes = hashed(program.stdout)
        why = program.stderr.read().decode(errors="replace").strip()
    if program.returncode != 0 or len(hashes) != count:
        raise Failed(f"{words[0]}: status {program.returncode}, {len(hashes)} sessions of {count}\n{why[-2000:]}")
    return hashes


def same(hashes, reference):
    """Fails unless both builds played the same sessions."""
    wrong = [n for n, pair in enumerate(zip(hashes, reference, strict=True)) if pair[0] != pair[1]]
    if wrong:
        raise Failed(f"{len(wrong)} of {len(reference)} sessions differ from those of x86-64, the first is session {wrong[0]}")
    return f"{len(reference)} sessions are those of x86-64"
