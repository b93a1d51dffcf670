"""What a distribution asks of the release files: hardening, old processors, musl, older Pythons, sources, lists of contents."""
import hashlib
import json
import os
import shutil
import tarfile

from building import CC, proved, run
from steps import Failed, Skipped, require
from trying import bare, debs, found_paths, moved, the, top, unpacked

# A processor of x86-64 before SSE4.2, by the name that QEMU has for it.
OLD_PROCESSOR = "core2duo"
# What hardening-check looks for and the library has not: dist/README.md says why.
LACKING = ("--nopie", "--nostackprotector", "--nofortify", "--nocfprotection")
PYTHONS = ("python3.9", "python3.10", "python3.11", "python3.12", "python3.13")


def step_hardening(place, out):
    """The shared library as Debian's hardening-check sees it: read-only relocations and immediate binding."""
    require("hardening-check", "dpkg-deb")
    run("dpkg-deb", "-x", debs(out)[0], place / "root")
    library = next((place / "root").rglob("libis_ice.so.*"))
    run("hardening-check", *LACKING, library)
    segments = run("readelf", "-W", "-l", library)
    if "GNU_STACK" not in segments or any(" RWE " in line for line in segments.splitlines()):
        raise Failed(f"{library.name} has memory that is written and executed")
    return "read-only relocations, immediate binding, no memory that is written and executed"


def step_old_processor(place, out):
    """two.c with the static library, on a processor without SSE4.2."""
    require(CC, "qemu-x86_64-static")
    root = moved(place, out)
    sources = [root / "share/doc/is_ice/examples/two.c", f"-I{root / 'include'}", root / "lib/libis_ice.a"]
    run(CC, "-static", "-o", place / "two", *sources, env=bare())
    found_paths(run("qemu-x86_64-static", "-cpu", OLD_PROCESSOR, place / "two", env=bare()))
    return f"two.c on {OLD_PROCESSOR}"


def step_musl(place, out):
    """two.c with musl: linked statically, and with the static library in a program that loads musl."""
    require("musl-gcc")
    root = moved(place, out)
    for name, options in (("static", ["-static"]), ("dynamic", [])):
        run("musl-gcc", *options, "-o", place / name, root / "share/doc/is_ice/examples/two.c", f"-I{root / 'include'}",
            root / "lib/libis_ice.a", env=bare())
        found_paths(run(place / name, env=bare()))
    return "two.c, linked statically and not"


def step_pythons(place, out):
    """quick.py with the wheel, by each Python that is installed."""
    tried = []
    for name in PYTHONS:
        if shutil.which(name) is None or not works(name):
            continue
        run(name, "-m", "venv", place / name, env=bare())
        python = place / name / "bin" / "python"
        run(python, "-m", "pip", "install", "--no-index", "--disable-pip-version-check", the(out, "*_x86_64.whl"), env=bare())
        found_paths(run(python, top / "python" / "examples" / "quick.py", env=bare(), cwd=place))
        tried.append(name)
    if not tried:
        raise Skipped(f"none of {', '.join(PYTHONS)} is installed")
    return ", ".join(tried)


def works(name):
    """Whether a command is a Python with venv, and not the name of one that is not there."""
    try:
        run(name, "-c", "import ensurepip, venv", env=bare())
    except Failed:
        return False
    return True


def step_source(place, out):
    """The source archive gives the same files, if the commit is that of the other files."""
    built = the(out, "BUILT").read_text()
    if "changes that are not committed" in built:
        raise Skipped("the release has changes that are not committed")
    archive = the(out, "is_ice-*-source.tar.gz")
    root = unpacked(archive, place / "unpacked")
    lines = dict(reversed(line.split("  ")) for line in the(out, "SHA256SUMS").read_text().splitlines())
    targets = os.environ.get("IS_ICE_TARGETS") or str(top / "targets" / "out")
    run(root / "dist" / "run", env={**os.environ, "IS_ICE_LIB": str(proved()), "IS_ICE_TARGETS": targets}, cwd=root)
    again = {path.name: hashlib.sha256(path.read_bytes()).hexdigest() for path in (root / "dist" / "out").iterdir()}
    packages = [name for name in lines if name.endswith((".deb", ".whl", ".zip", ".tar.gz")) and name != archive.name]
    others = [name for name in packages if again.get(name) != lines[name]]
    if others:
        raise Failed(f"the source archive gives other bytes: {' '.join(others)}")
    return f"{len(packages)} files, every byte is the same"


def step_contents(_, out):
    """The SPDX document has each release file with its hash; each package has the notices."""
    spdx = json.loads(the(out, "*.spdx.json").read_text())
    identities = [part["SPDXID"] for part in (*spdx["packages"], *spdx["files"])]
    named = {end for relation in spdx["relationships"] for end in (relation["spdxElementId"], relation["relatedSpdxElement"])}
    if len(set(identities)) != len(identities) or not named <= {"SPDXRef-DOCUMENT", *identities}:
        raise Failed("the SPDX document names a part twice, or one that it lacks")
    for file in spdx["files"]:
        sums = {it["algorithm"]: it["checksumValue"] for it in file["checksums"]}
        if hashlib.sha256(the(out, file["fileName"].removeprefix("./")).read_bytes()).hexdigest() != sums["SHA256"]:
            raise Failed(f"{file['fileName']} has another hash")
    for archive in out.glob("is*-linux*.tar.gz"):
        with tarfile.open(archive) as tar:
            if not any(name.endswith("/third-party.txt") for name in tar.getnames()):
                raise Failed(f"{archive.name} has no third-party.txt")
    return f"{len(spdx['files'])} files, {len(spdx['packages'])} packages"


STEPS = {"hardening": step_hardening, "old_processor": step_old_processor, "musl": step_musl, "pythons": step_pythons,
         "source": step_source, "contents": step_contents}
