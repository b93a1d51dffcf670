"""Bare Debian roots, in which the commands of the documents install and run the release files.

A root is a folder with a minimal Debian and the packages of one language. It is made once by debootstrap, and kept outside of the
repository. What a step does in it goes to memory, and nothing there has a network.
"""
import os
import pathlib
import re
import shutil
import tarfile

from building import run
from steps import Failed, Skipped, require
from trying import PATHS, the

top = pathlib.Path(__file__).resolve().parent.parent
SUITE, MIRROR = "trixie", "http://deb.debian.org/debian"
KEPT = pathlib.Path(os.environ.get("XDG_CACHE_HOME") or pathlib.Path.home() / ".cache") / "is_ice" / SUITE
PACKAGES = {"c": "gcc libc6-dev pkgconf", "cxx": "g++ libc6-dev pkgconf", "python": "python3-venv",
            "rust": "cargo librust-serde-json-dev librust-serde-derive-dev"}
DEBIAN_CRATES = "--config 'source.crates-io.replace-with=\"debian\"' --config 'source.debian.directory=\"/usr/share/cargo/registry\"'"
QUIET = {"LC_ALL": "C", "DEBIAN_FRONTEND": "noninteractive", "PATH": "/usr/sbin:/usr/bin:/sbin:/bin", "HOME": "/root"}
# Runs a script in a root: the root, the folder of the release files and a folder for memory are its first arguments.
INSIDE = """set -e
mount -t tmpfs none "$3"
mkdir "$3/upper" "$3/work" "$3/root"
mount -t overlay overlay -o "lowerdir=$1,upperdir=$3/upper,workdir=$3/work" "$3/root"
mount -t proc proc "$3/root/proc"
mount --bind /dev "$3/root/dev"
mkdir "$3/root/try"
cp "$2"/* "$3/root/try"
ip link set lo up
exec chroot "$3/root" sh -exc "cd /try; $4" < /dev/null
"""


def made(name, packages, build):
    """A kept root with these packages. If it can't be made, as without a network, the step is skipped."""
    root, mark = KEPT / name, KEPT / f"{name}.packages"
    if not mark.exists() or mark.read_text() != packages:
        mark.unlink(missing_ok=True)
        shutil.rmtree(root, ignore_errors=True)
        KEPT.mkdir(parents=True, exist_ok=True)
        try:
            build(root)
        except Failed as why:
            raise Skipped(f"no Debian root can be made: {str(why).splitlines()[-1]}") from None
        mark.write_text(packages)
    return root


def debootstrap(root, *options, env=None):
    """Runs debootstrap in namespaces of its own: if it is killed, what it mounted and started goes with it."""
    alone = ("unshare", "--mount", "--pid", "--fork", "--kill-child", "--mount-proc")
    run(*alone, "debootstrap", "--variant=minbase", *options, SUITE, root, MIRROR, env=env)


def minimal(root):
    debootstrap(root, env=QUIET)


def root_of(language):
    """The root with the packages of a language."""
    require("debootstrap", "unshare", "chroot", "ip")
    if os.geteuid() != 0:
        raise Skipped("it needs root")

    def build(root):
        run("cp", "-a", base, root)
        for words in (("update",), ("install", "-y", "--no-install-recommends", *PACKAGES[language].split()), ("clean",)):
            run("chroot", root, "apt-get", "-q", *words, env=QUIET)

    base = made("base", "", minimal)
    return made(language, PACKAGES[language], build)


def played(place, out, language, script):
    """Runs a script of the shell in a root, in a folder with the release files. Returns what it prints."""
    memory, root = place / "memory", root_of(language)
    memory.mkdir()
    return run("unshare", "--mount", "--net", "sh", "-c", INSIDE, "sh", root, out, memory, script, env=QUIET)


def found_paths(said, times):
    """Fails unless two agents found the path to each other so many times."""
    lines = sorted(line for line in re.split(r"\n| \| ", said) if " -> " in line)
    if lines != sorted(PATHS * times):
        raise Failed(f"expected {PATHS} {times} times, got: {said}")
    return f"{SUITE}, {times} programs"


# ---- the commands of the documents

def blocks_of_release(out, name):
    """The indented blocks of a README.md in the release for C."""
    with tarfile.open(the(out, "is_ice-*-linux-x86_64.tar.gz")) as tar:
        folder = tar.getnames()[0].split("/")[0]
        text = tar.extractfile(f"{folder}/{name}").read().decode()
    return [re.sub("(?m)^    ", "", block) for block in re.findall(r"(?m)(?:^    .*\n)+", text)]


def install_command(first):
    """The command in the row of README.md's table of releases that begins with this word."""
    row = next(line for line in (top / "README.md").read_text().splitlines() if line.startswith(f"| {first}") and "| `" in line)
    return re.findall(r"`([^`]+)`", row.rpartition(" | ")[2])[-1]


def quick_start():
    return re.search(r"(?ms)^```python\n(.*?)^```$", (top / "README.md").read_text())[1]


# ---- steps

UNPACK = "tar xzf is_ice-*-linux-x86_64.tar.gz\ncd is_ice-*/"


def step_bare_c(place, out):
    """The blocks of the release's README.md for C: with the shared and with the static library."""
    shell = [block for block in blocks_of_release(out, "README.md") if "./two" in block and "c++" not in block]
    return found_paths(played(place, out, "c", "\n".join([UNPACK, *shell])), len(shell))


def step_bare_cxx(place, out):
    """Its block for C++; two peers and the chat, as the README.md next to the examples has them."""
    shell = [block for block in blocks_of_release(out, "README.md") if "c++" in block]
    others = [block for block in blocks_of_release(out, "share/doc/is_ice/README.md") if "~/ice/" in block]
    others = "\n".join(others).replace("chat controlling", "chat controlling -l")  # there is no other address than 127.0.0.1
    script = "\n".join([UNPACK, *shell, "export PKG_CONFIG_PATH=$PWD/lib/pkgconfig", "cd share/doc/is_ice", others])
    return found_paths(played(place, out, "cxx", script), len(shell)) + ", peers and chats"


def step_bare_deb(place, out):
    """README.md's command for Debian, then dist/README.md's."""
    install = install_command("Debian").removeprefix("sudo ")
    compile_ = re.search(r"`(cc two\.c [^`]*)`", (top / "dist" / "README.md").read_text())[1]
    script = f"{install}\ncp /usr/share/doc/libis-ice-dev/examples/two.c .\n{compile_}\n./a.out"
    return found_paths(played(place, out, "c", script), 1)


def step_bare_rust(place, out):
    """README.md's command in a new package with two.rs; the quick start of the crate; the package with serde and Debian's crates."""
    script = f"""tar xzf is-*-rust-linux.tar.gz
cargo new --quiet --vcs none two
cd two
{install_command("Rust")}
cp ../is-0.*/examples/two.rs src/main.rs
cargo run --quiet
cd ../is-0.*/
cargo run --quiet --example two
cd serde
cargo test --quiet --test json {DEBIAN_CRATES}"""
    return found_paths(played(place, out, "rust", script), 2)


def step_bare_python(place, out):
    """README.md's command, then its quick start."""
    script = f"{install_command('Python')}\ncat > quick.py << 'END'\n{quick_start()}END\nenv/bin/python quick.py"
    return found_paths(played(place, out, "python", script), 1)


STEPS = {"bare_c": step_bare_c, "bare_cxx": step_bare_cxx, "bare_deb": step_bare_deb, "bare_rust": step_bare_rust,
         "bare_python": step_bare_python}
