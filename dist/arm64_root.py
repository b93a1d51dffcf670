"""Python for ARM64: the wheel and the tests of python/ in a Debian for that processor, under qemu.

The packages are unpacked and not installed, since their scripts would need a kernel that runs programs of ARM64. So qemu starts the
interpreter, and starts it again for the tests that run a second one.
"""
import os
import re
import shutil
import zipfile

from building import run
from roots import SUITE, debootstrap, made
from steps import Failed, Skipped, require
from trying import bare, found_paths, top
from trying_targets import optional

PACKAGE = "python3"
EMULATED = """#!/bin/sh
export PYTHONHOME='{root}/usr' PYTHONPATH="{folder}${{PYTHONPATH:+:$PYTHONPATH}}" IS_ICE_PYTHON="$0"
exec qemu-aarch64-static -L '{root}' '{root}/usr/bin/python3' "$@"
"""
# What Python imports first: other Pythons are started by the script above.
CUSTOMIZED = "import os, sys\nsys.executable = os.environ['IS_ICE_PYTHON']\n"
# What is imported once when the root is made, so that it is kept compiled: an emulated Python would compile it at each start.
IMPORTED = "asyncio, ctypes, email.message, http.client, json, logging, secrets, ssl, subprocess, tempfile, unittest.mock, urllib.request"
# How many times as long as usual the tests wait: an emulated processor takes so much longer.
PATIENCE = "40"
# The tests that the step runs, by what begins their names: calls of the library, texts, sessions over sockets.
SOME = ("test_abi.", "test_agent.", "test_texts.", "test_connection.Sessions.")


def script(root, folder):
    """A script that runs the root's Python, in a folder of its own."""
    path = folder / "python"
    path.write_text(EMULATED.format(root=root, folder=folder))
    path.chmod(0o755)
    (folder / "sitecustomize.py").write_text(CUSTOMIZED)
    return path


def unpacked_root(place):
    """The kept root with Python."""
    require("debootstrap", "unshare", "dpkg-deb", "qemu-aarch64-static")
    if os.geteuid() != 0:
        raise Skipped("it needs root")

    def build(root):
        debootstrap(root, "--arch=arm64", "--foreign", f"--include={PACKAGE}")
        for package in sorted((root / "var" / "cache" / "apt" / "archives").glob("*.deb")):
            run("dpkg-deb", "-x", package, root)
            package.unlink()
        run(script(root, place), "-c", f"import {IMPORTED}", env=bare())

    return made("arm64", f"{PACKAGE}, compiled: {IMPORTED}", build)


def unpacked_wheel(place, out):
    """A script that runs the root's Python, and the folder with the module."""
    wheel, module = optional(out, "*_aarch64.whl", "arm64"), place / "module"
    python = script(unpacked_root(place), place)
    with zipfile.ZipFile(wheel) as archive:
        archive.extractall(module)
    return python, module


def step_arm64_python(place, out):
    """The wheel for ARM64: its quick start."""
    python, module = unpacked_wheel(place, out)
    shutil.copy(top / "python" / "examples" / "quick.py", place)
    found_paths(run(python, place / "quick.py", env=bare(PYTHONPATH=str(module)), cwd=place))
    return f"{SUITE}, quick.py"


def step_arm64_python_tests(place, out):
    """Tests of python/, with the library of the wheel for ARM64: some, or all if IS_ICE_ARM64_TESTS is `all`."""
    python, module = unpacked_wheel(place, out)
    is_all = os.environ.get("IS_ICE_ARM64_TESTS") == "all"
    chosen = [] if is_all else [word for name in SOME for word in ("-k", f"{name}*")]
    env = bare(PYTHON=str(python), IS_ICE_LIB=str(module / "is_ice" / "libis_ice.so"), IS_ICE_PATIENCE=PATIENCE)
    ran = run("sh", "-c", 'exec "$@" 2>&1', "sh", top / "python" / "run", *chosen, env=env)
    lines = [line for line in ran.splitlines() if re.match(r"Ran \d|OK", line)]
    if len(lines) != 2:
        raise Failed(ran[-2000:])
    return f"{SUITE}, {'all' if is_all else 'some'} tests of python/run: {' '.join(lines)}"


STEPS = {"arm64_python": step_arm64_python, "arm64_python_tests": step_arm64_python_tests}
