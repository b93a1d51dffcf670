"""Tests what was built: that each target plays the same sessions as x86-64, and the functions for memory of WebAssembly."""
import os
import pathlib
import shutil
import subprocess
import sys
import tempfile

import keeping
import official
import sessions
from building import Failed, run
from steps import Skipped, ended, require, taken_in_a_folder

here = pathlib.Path(__file__).resolve().parent
CC = os.environ.get("CC", "cc")
ARM_CC = here / "arm64" / "cc"
WINDOWS_CC = "x86_64-w64-mingw32-gcc"


def built(name):
    """The folder of a target, which has to be built from the library that is there."""
    if not keeping.is_built(name, keeping.inputs()):
        raise Failed(f"it is not built, or from another library: targets/run {name}")
    return keeping.out / name


def reference(folder, count):
    """The sessions of x86-64."""
    libraries = [official.library(), official.kit() / "c" / "liblibc_c.a"]
    return sessions.played(sessions.compiled(CC, libraries, folder / "native"), count=count)


def play_arm64(folder, count):
    require("aarch64-linux-gnu-gcc", "qemu-aarch64-static")
    at = built("arm64")
    return sessions.played(sessions.compiled(ARM_CC, [at / "libis_c.a", at / "liblibc_c.a"], folder / "arm64"), count=count)


def play_windows(folder, count):
    require(WINDOWS_CC, "wine")
    at = built("windows")
    program = sessions.compiled(WINDOWS_CC, [at / "libis_ice.dll.a"], folder / "windows.exe", "-static-libgcc")
    shutil.copy(at / "is_ice.dll", folder)
    return sessions.played("wine", program, count=count, WINEDEBUG="-all", WINEPREFIX=str(folder / "wine"))


def play_wasm(name):
    def play(_, count):
        require("node")
        at = built(name)
        if not sessions.SCRIPT.exists():
            raise Skipped(f"{sessions.SCRIPT.relative_to(here.parent)} is not there")
        flags = ["--experimental-wasm-memory64"] if name == "wasm64" else []
        return sessions.played("node", *flags, sessions.SCRIPT, count=count, IS_ICE_WASM=str(at / "is_ice.wasm"))
    return play


PLAYED = {"arm64": play_arm64, "windows": play_windows, "wasm64": play_wasm("wasm64"), "wasm32": play_wasm("wasm32")}


def test_memory(folder):
    """The allocator and the functions of 128 bits of WebAssembly, compiled for this machine."""
    require(CC)
    flags = ["-std=gnu11", "-O2", "-g", "-Wall", "-Wextra", "-Werror", "-fsanitize=undefined", "-fno-sanitize-recover=all"]
    run(CC, *flags, here / "tests" / "memory.c", "-o", folder / "memory")
    return run(folder / "memory").strip()


def all_of(names, count):
    """Tests these targets with so many sessions, and returns the status of the program."""
    results = [taken_in_a_folder("memory", test_memory)]
    with tempfile.TemporaryDirectory() as folder:
        expected = reference(pathlib.Path(folder), count)
    for name in names:
        results.append(taken_in_a_folder(name, lambda place: sessions.same(PLAYED[name](place, count), expected)))
    return ended(results)


def c_run(steps):
    """Runs the steps of c/run for ARM64."""
    if missing := [it for it in ("aarch64-linux-gnu-gcc", "qemu-aarch64-static") if shutil.which(it) is None]:
        raise Failed(f"not installed: {' '.join(missing)}")
    cxx = "aarch64-linux-gnu-g++"
    tools = {"CC": ARM_CC, "CXX": ARM_CC.with_name("c++") if shutil.which(cxx) else cxx,
             "AR": "aarch64-linux-gnu-ar", "STRIP": "aarch64-linux-gnu-strip",
             "IS_ICE_LIB": built("arm64") / "libis_c.a", "IS_ICE_EMULATED": "1", "IS_ICE_TOOLS": "aarch64-linux-gnu-",
             "ASAN_OPTIONS": "detect_leaks=0"}  # the emulator lets no process trace another, as LeakSanitizer does
    env = {**os.environ, **{name: str(value) for name, value in tools.items()}}
    return subprocess.run([sys.executable, here.parent / "c" / "run", *steps], env=env).returncode
