"""The ICE stacks: which are installed, their versions, and how their programs are built and started.

Ours are the C program c/examples/peer.c and the class Connection of Python. Files that are built go to interwork/out.
"""
import contextlib
import os
import shutil
import subprocess
import sys
from dataclasses import dataclass, field
from pathlib import Path

import servers

here = Path(__file__).resolve().parent
top = here.parent
out = here / "out"
PEER_SOURCES = sorted((top / "c" / "examples").glob("peer*.c"))


class Missing(Exception):
    """What has to be installed or built first."""


@dataclass
class Stack:
    """A stack, and the command that starts its program. `missing` says what it lacks, or is None.

    A stack without chat begins with DTLS on its path, so the other side receives something. Of one that sends early the user can send
    on a valid pair, before a path is selected.
    """

    name: str
    command: list = field(default_factory=list)
    version: str = ""
    environment: dict = field(default_factory=dict)
    missing: str | None = None
    has_chat: bool = True
    sends_early: bool = False


def run(*words, what=None, **options):
    """Runs a command, and returns its standard output. Missing if it fails."""
    try:
        ran = subprocess.run([str(word) for word in words], capture_output=True, text=True, **options)
    except FileNotFoundError:
        raise Missing(f"{words[0]} is not installed")
    if ran.returncode != 0:
        raise Missing(what or f"{words[0]}: {(ran.stderr.strip().splitlines() or ['failed'])[-1]}")
    return ran.stdout.strip()


@contextlib.contextmanager
def built(name):
    """Where to build a program. It then takes its place in `out` at once: another run may be starting it."""
    file = out / f"{name}.{os.getpid()}"
    try:
        yield file
        os.replace(file, out / name)
    finally:
        file.unlink(missing_ok=True)


def package(name):
    """The version of a Debian package, or "unknown version"."""
    try:
        return run("dpkg-query", "-W", "-f", "${Version}", name)
    except Missing:
        return "unknown version"


def python_with(modules, name):
    """An interpreter that can import the modules."""
    for python in dict.fromkeys([os.environ.get("PYTHON", sys.executable), sys.executable, "/usr/bin/python3"]):
        if subprocess.run([python, "-c", modules], capture_output=True).returncode == 0:
            return python
    raise Missing(f"no Python has {name}")


# ---- ours

def kit_archive():
    """The kit's archive over malloc, realloc and free."""
    if path := os.environ.get("IS_ICE_KIT_ARCHIVE"):
        return path
    return Path(run("rt", "doc", what="IS_ICE_KIT_ARCHIVE is not set")).parent / "c" / "liblibc_c.a"


def archive():
    """The library, which `rt lib` builds in crates/is_c."""
    path = Path(os.environ.get("IS_ICE_LIB", top / "crates" / "is_c" / "out" / "libis_c.a"))
    if not path.exists():
        raise Missing(f"{path.name} is not built: run rt lib in crates/is_c")
    return path


def our_version():
    return (top / "VERSION").read_text().strip()


def ours_in_c():
    with built("peer") as program:
        run(os.environ.get("CC", "cc"), "-O2", f"-I{top / 'c'}", "-o", program, *PEER_SOURCES, archive(), kit_archive())
    return Stack("peer", [str(out / "peer")], our_version(), sends_early=True)  # is_ice_valid_path


def link_for_python():
    """Links the shared library that is_ice loads, unless IS_ICE_LIB names one. Returns why it fails, or None."""
    if os.environ.get("IS_ICE_LIB", ".a").endswith(".a"):
        try:
            run(top / "python" / "build", archive())
        except Missing as error:
            return str(error)
    return None


def ours_in_python():
    run(top / "python" / "build", archive())
    library = top / "python" / "out" / "libis_ice.so"
    try:  # aioice resolves mDNS names
        python = python_with("import aioice", "aioice")
    except Missing:
        python = sys.executable
    environment = {"PYTHONPATH": str(top / "python"), "IS_ICE_LIB": str(library), "PYTHONDONTWRITEBYTECODE": "1"}
    command = [python, str(here / "peers" / "connection_peer.py"), "is_ice.connection"]
    return Stack("Connection", command, our_version(), environment, sends_early=True)


# ---- others

def pion():
    sources = Path("/usr/share/gocode/src/github.com/pion/ice/v2")
    if not sources.exists():
        raise Missing("golang-github-pion-ice.v2-dev is not installed")
    environment = {**os.environ, "GO111MODULE": "off", "GOPATH": "/usr/share/gocode", "GOCACHE": str(out / "go")}
    with built("pion") as program:
        run("go", "build", "-p", "2", "-o", program, ".", cwd=here / "peers" / "pion", env=environment)
    return Stack("pion", [str(out / "pion")], package("golang-github-pion-ice.v2-dev"))


def aioice():
    python = python_with("import aioice", "aioice: install python3-aioice")
    version = run(python, "-c", "import aioice; print(aioice.__version__)")
    return Stack("aioice", [python, str(here / "peers" / "connection_peer.py"), "aioice"], version)


def libnice():
    modules = "import gi; gi.require_version('Nice', '0.1'); from gi.repository import Nice"
    python = python_with(modules, "libnice: install python3-gi and gir1.2-nice-0.1")
    return Stack("libnice", [python, str(here / "peers" / "libnice_peer.py")], package("libnice10"))


def server(name, program, package_name, has_chat):
    """A server that its peer in `peers` starts."""
    if shutil.which(program) is None:
        raise Missing(f"{package_name} is not installed")
    return Stack(name, [sys.executable, str(here / "peers" / f"{name}_peer.py")], package(package_name), has_chat=has_chat)


def rtpengine():
    return server("rtpengine", "rtpengine", "rtpengine-daemon", True)


def janus():
    return server("janus", "janus", "janus", False)


def browser(name, program):
    """A browser that its peer in `peers` starts, in a process namespace: no process of the browser outlives the peer."""
    if shutil.which(program) is None:
        raise Missing(f"{program} is not installed")
    python = python_with("import aiohttp", "aiohttp: install python3-aiohttp")
    apart = ["unshare", "--pid", "--fork", "--mount-proc", "--kill-child"]
    return Stack(name, [*apart, python, str(here / "peers" / "browser_peer.py"), name], package(program), has_chat=False)


def chromium():
    return browser("chromium", "chromium")


def firefox():
    return browser("firefox", "firefox-esr")


MAKERS = {"peer": ours_in_c, "Connection": ours_in_python, "pion": pion, "aioice": aioice, "libnice": libnice, "rtpengine": rtpengine,
          "janus": janus, "chromium": chromium, "firefox": firefox}


def find(names):
    """The stacks with these names, built."""
    out.mkdir(exist_ok=True)
    found = {}
    for name in names:
        try:
            found[name] = MAKERS[name]()
        except Missing as error:
            found[name] = Stack(name, missing=str(error))
    return found


def sender():
    """The program that sends forged datagrams (send.c)."""
    out.mkdir(exist_ok=True)
    with built("send") as program:
        run(os.environ.get("CC", "cc"), "-O2", "-o", program, here / "send.c")
    return out / "send"


def tools():
    """Versions of the other tools that the networks need, by name; None if one is not installed."""
    found = {name: package(names[0]) if servers.is_installed(name) else None for name, names in servers.PACKAGES.items()}
    return {**found, "nftables": package("nftables") if shutil.which("nft") else None}
