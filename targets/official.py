"""The compiler's own builds of the library, over what `rt lib` proved for x86-64, and the LLVM module of such a build.

The target is no part of what is proved, so nothing is checked again: the check loads each module of the crate. `rt` itself takes no other
target for this crate, so `rattle build` gets here the words that `rt lib` gives it.
"""
import contextlib
import io
import pathlib
import re
import shutil
import subprocess
import sys

from building import Failed, run

here = pathlib.Path(__file__).resolve().parent
top = here.parent
X86_64, ARM64 = "x86_64-unknown-linux-gnu", "aarch64-unknown-linux-gnu"
BASELINE = ["--cpu", "x86-64"]  # as `rt lib` has it for the library
# A clang that also keeps the module that it is given.
KEEPING = """#!/bin/sh
for word in "$@"; do
    case "$word" in *.bc) cp -f "$word" '{module}' ;; esac
done
exec '{clang}' "$@"
"""


def kit():
    """The kit's folder."""
    if shutil.which("rt") is None:
        raise Failed("the kit is not on the path")
    return pathlib.Path(run("rt", "doc").strip()).parent


def clang():
    """The kit's clang, which is its linker and its archiver too."""
    return kit() / "toolchain" / "bin" / "clang"


def crate():
    """The folder of the crate that exports the C calls."""
    return top / "crates" / "is_c"


def library():
    """The library for x86-64 that `rt lib` proved and built."""
    archive = crate() / "out" / "libis_c.a"
    if not (archive.exists() and (crate() / "out" / "incremental").is_dir()):
        raise Failed(f"{archive} or what was proved is not there: run `rt lib` in crates/is_c")
    return archive


def words_of_rt():
    """What `rt lib` passes to `rattle build`, which only the kit's module of rt knows."""
    sys.path.append(str(kit() / "bin"))
    import rtlib
    folder = str(crate())
    of_rt = rtlib.Crate(folder, rtlib.root_above(folder), {}, name=None)
    with contextlib.redirect_stdout(io.StringIO()):
        of_rt.out = sys.stdout
        return of_rt.words([])


def built(target, toolchain, archive, *more):
    """Builds the static library for a target, and returns the line of its verdict."""
    words = ["rattle", "build", *words_of_rt(), "--incremental", "out/incremental", "--target", target, "--toolchain", toolchain]
    words += [*more, "--backend", "llvm", "-o", archive]
    ran = subprocess.run([str(word) for word in words], cwd=crate(), stdout=subprocess.PIPE, stderr=subprocess.STDOUT, text=True)
    verdict = re.search(r"(?m)^.*\blogic=\w* ?proved\b.*$|^.*\bproved\b.*\btarget=.*$", ran.stdout)
    if ran.returncode != 0 or not verdict:
        raise Failed(f"rattle build for {target}: status {ran.returncode}\n{ran.stdout.rstrip()}")
    return verdict[0].strip()


def keeping_toolchain(folder, module):
    """A copy of the kit's toolchain whose clang keeps the module that it compiles: what the proved program was lowered to, before any
    optimization."""
    tools = kit() / "toolchain"
    (folder / "bin").mkdir(parents=True, exist_ok=True)
    for name, place in (("lib", tools / "lib"), *((f"bin/{tool}", tools / "bin" / tool) for tool in ("ld.lld", "llvm-ar", "rattle-x64"))):
        (folder / name).unlink(missing_ok=True)
        (folder / name).symlink_to(place)
    (folder / "bin" / "clang").write_text(KEEPING.format(module=module, clang=clang()))
    (folder / "bin" / "clang").chmod(0o755)
    return folder


def with_module(folder):
    """Builds the library for x86-64 once more, and keeps its module in the folder. It has to be the library of `rt lib`, to the byte.
    Returns the line of the verdict."""
    module, again = folder / "module.bc", folder / "libis_c.a"
    verdict = built(X86_64, keeping_toolchain(folder / "toolchain", module), again, *BASELINE)
    if not module.exists():
        raise Failed("the compiler gave clang no module")
    if again.read_bytes() != library().read_bytes():
        raise Failed(f"{library()} is another library than a build of these sources: run `rt lib --cpu x86-64` in crates/is_c")
    return verdict
