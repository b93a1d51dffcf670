"""Installs the release files for other machines than Linux on x86-64, and runs programs over them in emulators."""
import contextlib
import pathlib
import shutil
import subprocess
import sys
import zipfile

from building import CC, run
from processors import ARM64
from steps import Failed, Skipped, require
from trying import PATHS, bare, debs, found_paths, the, top, unpacked

sys.path.append(str(top / "targets"))
import sessions  # noqa: E402

ARM_CC, ARM_CXX = (top / "targets" / "arm64" / name for name in ("cc", "c++"))
WINDOWS_CC, WINDOWS_CXX = "x86_64-w64-mingw32-gcc", "x86_64-w64-mingw32-g++"
STRICT = ["-Wall", "-Wextra", "-Werror"]
# Programs that print the same on each system.
WINDOWS_PROGRAMS = ("examples/request", "tests/layout", "tests/texts", "tests/stun", "tests/odd_texts", "tests/threads")
# The cases of c/tests/connect.py without `options`, since wine binds at any address; those of chat.py without `network`, since wine's
# server is in no namespace. Programs start slowly under wine.
WINDOWS_CASES = ("roles", "families", "interfaces", "trickle", "removed", "restart", "lite", "renomination", "reflexive", "silent_server",
                 "mdns", "replay", "errors", "long_candidate", "late")
WINDOWS_CHATS = ("--case", "chat", "--case", "loss")
PATIENCE = {"IS_ICE_PATIENCE": "6"}


def optional(out, pattern, target):
    """A release file that is there only if targets/run built its library."""
    if not any(out.glob(pattern)):
        raise Skipped(f"the release has none: `targets/run {target}` comes before `dist/run`")
    return the(out, pattern)


# ---- ARM64

def arm64_tarball(place, out):
    require("aarch64-linux-gnu-gcc", "aarch64-linux-gnu-g++", "qemu-aarch64-static")
    return unpacked(optional(out, "is_ice-*-linux-aarch64.tar.gz", "arm64"), place / "unpacked")


def run_arm64(place, headers, libraries, example):
    """Compiles two.c with the shared and with the static library, and two.cpp, and runs them."""
    options = [f"-I{headers}", *STRICT]
    run(ARM_CC, "-std=c99", *options, "-o", place / "two_shared", example, f"-L{libraries}", "-lis_ice", env=bare())
    run(ARM_CC, "-std=c99", *options, "-o", place / "two_static", example, libraries / "libis_ice.a", env=bare())
    run(ARM_CXX, "-std=c++17", *options, "-o", place / "two_cxx", example.with_suffix(".cpp"), libraries / "libis_ice.a", env=bare())
    found_paths(run(place / "two_shared", env=bare(QEMU_SET_ENV=f"LD_LIBRARY_PATH={libraries}")))
    found_paths(run(place / "two_static", env=bare()))
    found_paths(run(place / "two_cxx", env=bare()))


def step_arm64(place, out):
    """The tarball for ARM64."""
    root = arm64_tarball(place, out)
    run_arm64(place, root / "include", root / "lib", root / "share" / "doc" / "is_ice" / "examples" / "two.c")
    return "two.c with the shared and the static library, two.cpp"


def step_arm64_deb(place, out):
    """The Debian packages for ARM64."""
    arm64_tarball(place, out)
    require("dpkg-deb")
    for package in debs(out, ARM64):
        run("dpkg-deb", "-x", package, place / "root")
        if run("dpkg-deb", "-f", package, "Architecture").strip() != "arm64":
            raise Failed(f"{package.name} is for another processor")
    usr = place / "root" / "usr"
    run_arm64(place, usr / "include", place / "root" / ARM64.multiarch, usr / "share" / "doc" / "libis-ice-dev" / "examples" / "two.c")
    if shutil.which("lintian"):
        run("lintian", "--allow-root", "--fail-on", "error,warning", "--no-cfg", *debs(out, ARM64), env=bare(LC_ALL="C.UTF-8"))
    return "two.c, two.cpp"


def step_arm64_rust(place, out):
    """The crate for ARM64."""
    require("cargo", "aarch64-linux-gnu-gcc", "qemu-aarch64-static")
    target = "aarch64-unknown-linux-gnu"
    crate = unpacked(the(out, "is-*-rust-linux.tar.gz"), place / "unpacked")
    if not (crate / "lib" / "linux-aarch64").is_dir():
        raise Skipped("the release has none: `targets/run arm64` comes before `dist/run`")
    if not pathlib.Path(run("rustc", "--print", "target-libdir", "--target", target).strip()).is_dir():
        raise Skipped(f"Rust has no target {target} here")
    env = bare(CARGO_TARGET_AARCH64_UNKNOWN_LINUX_GNU_LINKER="aarch64-linux-gnu-gcc",
               CARGO_TARGET_AARCH64_UNKNOWN_LINUX_GNU_RUNNER="qemu-aarch64-static -L /usr/aarch64-linux-gnu")
    found_paths(run("cargo", "run", "--quiet", "--offline", "--jobs", "1", "--target", target, "--example", "two", cwd=crate, env=env))
    return "cargo run --example two"


# ---- Windows

def windows_zip(place, out):
    """The unpacked zip with the programs that its README.md builds, and the environment of programs under wine."""
    archive = optional(out, "is_ice-*-windows-x86_64.zip", "windows")
    require(WINDOWS_CC, WINDOWS_CXX, "wine")
    with zipfile.ZipFile(archive) as zipped:
        zipped.extractall(place)
    env = bare(WINEDEBUG="-all", WINEPREFIX=str(place / "wine"))
    root = next(place.glob("is_ice-*"))
    block = [line.strip() for line in (root / "README.md").read_text().splitlines() if line.startswith("    ")]
    run("sh", "-ec", "\n".join(block), cwd=root, env=env)
    run("wine", "wineboot", "--init", env=env)  # it takes longer than a program waits
    return root, env


def step_windows(place, out):
    """The zip for Windows: the blocks of its README.md, and programs of c/, which print what they print here."""
    require(CC)
    root, env = windows_zip(place, out)
    found_paths(run("wine", root / "two.exe", cwd=root, env=env).replace("\r", ""))
    run(WINDOWS_CXX, "-std=c++17", "-Iinclude", "-o", root / "two_cxx.exe", "share/doc/is_ice/examples/two.cpp", "lib/libis_ice.dll.a",
        "-static", cwd=root, env=env)
    found_paths(run("wine", root / "two_cxx.exe", cwd=root, env=env).replace("\r", ""))
    native = unpacked(the(out, "is_ice-*-linux-x86_64.tar.gz"), place / "native") / "lib" / "libis_ice.a"
    for name in WINDOWS_PROGRAMS:
        source, program = top / "c" / f"{name}.c", root / pathlib.Path(name).name
        headers = f"-I{root / 'include'}"
        run(WINDOWS_CC, "-std=gnu11", "-O2", headers, "-o", program.with_suffix(".exe"), source, root / "lib" / "libis_ice.dll.a",
            "-static", "-lpthread", env=env)
        run(CC, "-std=gnu11", "-O2", headers, "-o", program, source, native, "-lpthread", env=bare())
        said = run("wine", program.with_suffix(".exe"), cwd=root, env=env).replace("\r", "")
        if said != run(program, env=bare()):
            raise Failed(f"{name} prints other text: {said[:1000]}")
    return f"two.c, two.cpp and {len(WINDOWS_PROGRAMS)} programs of c/ under wine"


@contextlib.contextmanager
def wine_kept(program, env):
    """Keeps wine running: the first program starts its services, which hold that program's output open until the last one ends."""
    pipe = subprocess.PIPE
    with subprocess.Popen(["wine", program, "controlled", "-l"], env=env, stdin=pipe, stdout=pipe, stderr=subprocess.DEVNULL) as first:
        first.stdout.readline()  # now it runs
        yield
        first.stdin.close()


def step_windows_sockets(place, out):
    """The programs of the zip that open sockets: the tests of c/ for peers and chats, under wine."""
    root, env = windows_zip(place, out)
    for name in ("peer", "chat", "chat_cxx"):
        (root / name).write_text(f"#!/bin/sh\nexec wine '{root / name}.exe' \"$@\"\n")
        (root / name).chmod(0o755)
    tests = top / "c" / "tests"
    with wine_kept(root / "chat.exe", env):
        said = run(sys.executable, tests / "connect.py", root / "peer", *WINDOWS_CASES, env={**env, **PATIENCE}).splitlines()[-1]
        for chat in ("chat", "chat_cxx"):
            run(sys.executable, tests / "chat.py", *WINDOWS_CHATS, root / chat, env={**env, **PATIENCE})
    return f"peers: {said}; chats in C and C++ that restart and lose their peer"


# ---- JavaScript

def step_npm(place, out):
    """The package for npm: installed without a network, and its example."""
    archive = optional(out, "is-ice-*.tgz", "wasm32")
    require("npm", "node")
    package = place / "package"
    package.mkdir()
    (package / "package.json").write_text('{"name": "two", "version": "1.0.0", "type": "module"}\n')
    env = bare(HOME=str(place), npm_config_update_notifier="false", npm_config_audit="false", npm_config_fund="false")
    run("npm", "install", "--silent", "--offline", "--ignore-scripts", archive, cwd=package, env=env)
    shutil.copy(package / "node_modules" / "is-ice" / "examples" / "two.js", package)
    said = run("node", "two.js", cwd=package, env=env)
    if not all(path in said for path in PATHS):
        raise Failed(f"expected {PATHS}, got: {said}")
    return "npm install --offline, two.js"


# ---- the same sessions

def linux_library(place, out, name):
    return unpacked(the(out, f"is_ice-*-linux-{name}.tar.gz"), place / name) / "lib" / "libis_ice.a"


def play_arm64(place, out):
    arm64_tarball(place, out)
    return sessions.played(sessions.compiled(ARM_CC, [linux_library(place, out, "aarch64")], place / "arm64"), count=sessions.COUNT)


def play_windows(place, out):
    archive = optional(out, "is_ice-*-windows-x86_64.zip", "windows")
    require(WINDOWS_CC, "wine")
    with zipfile.ZipFile(archive) as zipped:
        zipped.extractall(place)
    root = next(place.glob("is_ice-*-windows-*"))
    program = sessions.compiled(WINDOWS_CC, [root / "lib" / "libis_ice.dll.a"], root / "bin" / "transcript.exe", "-static-libgcc")
    return sessions.played("wine", program, count=sessions.COUNT, WINEDEBUG="-all", WINEPREFIX=str(place / "wine"))


def play_npm(place, out):
    archive = optional(out, "is-ice-*.tgz", "wasm32")
    require("node")
    module = unpacked(archive, place / "npm") / "src" / "is_ice.wasm"
    return sessions.played("node", sessions.SCRIPT, count=sessions.COUNT, IS_ICE_WASM=str(module))


def step_sessions(place, out):
    """Plays sessions over the library of each release file: they are the same, byte for byte."""
    require(CC)
    expected = sessions.played(sessions.compiled(CC, [linux_library(place, out, "x86_64")], place / "native"), count=sessions.COUNT)
    done, without = [], []
    for name, play in (("ARM64", play_arm64), ("Windows", play_windows), ("npm", play_npm)):
        folder = place / f"of_{name}"
        folder.mkdir()
        try:
            sessions.same(play(folder, out), expected)
            done.append(name)
        except Skipped as why:
            without.append(f"without {name}: {why}")
    if not done:
        raise Skipped("; ".join(without))
    return "; ".join([f"{sessions.COUNT} sessions of {', '.join(done)} are those of x86-64, byte for byte", *without])


STEPS = {"arm64": step_arm64, "arm64_deb": step_arm64_deb, "arm64_rust": step_arm64_rust, "windows": step_windows,
         "windows_sockets": step_windows_sockets, "npm": step_npm, "sessions": step_sessions}
