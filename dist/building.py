"""Builds the release files of one version from the proved library. dist/README.md lists them."""
import base64
import hashlib
import os
import pathlib
import re
import shutil
import subprocess
import time
import tomllib

import documents
import manual
import metadata
import notices
import symbols
from packing import Link, gzipped
from steps import Failed
from versions import differing, version

here = pathlib.Path(__file__).resolve().parent
top = here.parent
CC = os.environ.get("CC", "cc")
LICENSES = ("LICENSE-APACHE", "LICENSE-MIT")


def run(*words, env=None, cwd=None):
    """Runs a command and returns its standard output."""
    words = [str(word) for word in words]
    try:
        ran = subprocess.run(words, capture_output=True, text=True, env=env, cwd=cwd)
    except FileNotFoundError:
        raise Failed(f"{words[0]} is not installed") from None
    if ran.returncode != 0:
        raise Failed(f"{' '.join(words)}: status {ran.returncode}\n{ran.stdout}{ran.stderr}".rstrip())
    return ran.stdout


def filled(name, **values):
    """A template of this folder with a value for each @NAME@."""
    text = (here / name).read_text()
    for key, value in values.items():
        text = text.replace(f"@{key}@", str(value))
    return text.encode()


def contents(folder, *patterns):
    """The files of a folder that match the patterns, by their paths in it."""
    paths = sorted(path for pattern in patterns for path in folder.glob(pattern) if path.is_file())
    return {str(path.relative_to(folder)): path.read_bytes() for path in paths}


def below(folder, files):
    return {f"{folder}/{name}": file for name, file in files.items()}


def licenses():
    """The licenses of the project, and the notices of what the library contains besides."""
    try:
        return {**contents(top, *LICENSES), "third-party.txt": notices.text().encode()}
    except ValueError as why:
        raise Failed(str(why)) from None


# ---- what the release is named after

def one_version():
    """The version, of which each package has a copy."""
    if others := differing():
        raise Failed(f"VERSION is {version()}, but {others}: `dist/run version {version()}` writes the copies")
    return version()


def interface():
    """The number of the C interface, which is that of the shared library's name."""
    return re.search(r"(?m)^#define IS_ICE_VERSION\s+\D*(\d+)", (top / "c" / "is_ice.h").read_text())[1]


def git(*words):
    return run("git", "-C", top, *words).strip()


def kit():
    return run("rt", "version").strip() if shutil.which("rt") else None


# ---- the libraries

def proved():
    """The library that IS_ICE_LIB names, else the one that `rt lib` built. It has to be from the kit on the path, if there is one."""
    library = pathlib.Path(os.environ.get("IS_ICE_LIB") or top / "crates" / "is_c" / "out" / "libis_c.a").resolve()
    if not library.exists():
        raise Failed(f"{library} does not exist: run `rt lib` in crates/is_c, or set IS_ICE_LIB")
    built_by = re.search(r"logic=([0-9a-f]+)", run("readelf", "-p", ".comment", library))
    present = re.search(r"logic ([0-9a-f]+)", kit() or "")
    if present and not (built_by and built_by[1].startswith(present[1])):
        raise Failed(f"{library} is not from the kit that `rt version` names")
    return library


def shared(archive, soname, target, compiler=CC, tools=""):
    """Links the shared library, and writes its symbols next to it (.debug). It has no start files, so its bytes depend on the archive and
    the linker only. `tools` is the prefix of the tools of its processor."""
    script, linked = target.with_suffix(".map"), target.with_suffix(".linked")
    script.write_text(symbols.version_script(interface()))
    options = ["--whole-archive", archive, "--no-whole-archive", "--no-undefined", "--as-needed", "--gc-sections", "--build-id=sha1"]
    options += ["-soname", soname, f"--version-script={script}", "-z", "relro", "-z", "now", "-z", "noexecstack"]
    run(compiler, "-shared", "-nostartfiles", "-o", linked, *(word for option in options for word in ("-Xlinker", option)))
    run(f"{tools}objcopy", "--only-keep-debug", linked, f"{target}.debug")
    run(f"{tools}strip", "-s", "-o", target, linked)
    return target


def declared():
    """The calls that the header declares."""
    header = re.sub(r"(?s)/\*.*?\*/", "", (top / "c" / "is_ice.h").read_text())
    return set(re.findall(r"\b(?:u?int32_t|void)\s+(is_ice_\w+)\(", header))


def exports_only_calls(library):
    """Fails unless the shared library exports the calls of the header and nothing else."""
    lines = run("nm", "-D", "--defined-only", library).splitlines()
    exported = {line.split()[-1].split("@")[0] for line in lines if " A " not in line}
    if exported != declared():
        raise Failed(f"{library}: calls and exports differ: {sorted(exported ^ declared())}")
    if others := symbols.differing(declared()):
        raise Failed(f"dist/symbols.txt says of other calls in which release they came: {others}")


def needs_only_libc(library):
    """Fails if the shared library needs another library than the system's C library."""
    needed = re.findall(r"\(NEEDED\).*\[(.+)\]", run("readelf", "-d", "-W", library, env={**os.environ, "LC_ALL": "C"}))
    if needed != ["libc.so.6"]:
        raise Failed(f"{library} needs {' '.join(needed)}")


def suits_level(library, processor):
    """Fails if the shared library has an instruction that a processor of the level need not have."""
    code = run(processor.tool("objdump"), "-d", "--no-show-raw-insn", library)
    others = {line.split("\t")[1].split()[0] for line in code.splitlines() if line.count("\t") and line.split("\t")[1].strip()}
    others = sorted(name for name in others if processor.beyond.fullmatch(name))
    if others:
        raise Failed(f"{library} is not for {processor.level}, for which `rt lib --cpu x86-64` builds it: {' '.join(others)}")


def lowest_glibc(library):
    """The lowest version of glibc that has each symbol that the shared library needs. Wheels begin at 2.5."""
    needed = re.findall(r"\bGLIBC_(\d+)\.(\d+)", run("readelf", "-V", "-W", library))
    needed = max([(2, 5), *((int(major), int(minor)) for major, minor in needed)])
    return f"{needed[0]}.{needed[1]}"


# ---- the packages: each is a dictionary of files

def for_c(libraries, soname, number, when, deb=None):
    """Headers, libraries, pkg-config and CMake files, a man page, documents, examples and licenses. In a Debian package, for the processor
    `deb`, they are below usr/."""
    root, place = ("usr/", deb.multiarch) if deb else ("", "lib")
    docs = f"{root}share/doc/" + ("libis-ice-dev" if deb else "is_ice")
    major, minor = number.split(".")[:2]
    template = (top / "c" / "is_ice.pc.in").read_text().replace("@VERSION@", number)
    if deb:
        template = template.replace("${prefix}/lib", "${prefix}/" + deb.multiarch.removeprefix("usr/"))
    package = template.replace("@PREFIX@", "/usr" if deb else "${pcfiledir}/../..").encode()
    headers = ("../" if deb else "") + "../include"
    page = manual.is_ice(number, time.strftime("%Y-%m-%d", time.gmtime(when)))
    places = {**documents.carried(docs), **documents.placed("c", docs, "README.md", "examples/*"),
              **documents.placed("c", f"{root}include", "is_ice.h", "is_ice.hpp", "is_ice_kit.h", "is_ice_gather.h")}
    if deb:
        del places["CHANGELOG.md"]  # Debian's name of it is changelog.gz
    return {
        **documents.documents(places),
        **documents.others(places),
        **libraries,
        f"{place}/libis_ice.so": Link(soname),
        f"{place}/pkgconfig/is_ice.pc": package,
        f"{place}/cmake/is_ice/is_ice-config.cmake": filled("is_ice-config.cmake.in", INCLUDE=headers, SONAME=soname),
        f"{place}/cmake/is_ice/is_ice-config-version.cmake":
            filled("is_ice-config-version.cmake.in", VERSION=number, MAJOR=major, MINOR=minor),
        **({f"{root}share/man/man3/is_ice.3.gz": gzipped(page)} if deb else {"share/man/man3/is_ice.3": page}),
        **({} if deb else {"README.md": filled("unpacked.md", INTERFACE=interface()), **below(docs, licenses())}),
    }


def wheel(library, number, tag):
    """The module with the shared library, documents, and the metadata of a wheel. RECORD, the last file, has the hash of each."""
    project = tomllib.loads((top / "python" / "pyproject.toml").read_text())["project"]
    info, docs = f"is_ice-{number}.dist-info", f"is_ice-{number}.data/data/share/doc/is_ice"
    places = {**documents.carried(docs), **documents.placed("python", docs, "README.md", "peer.py", "examples/**/*.*"),
              **dict.fromkeys(documents.placed("python/is_ice", ".", "*.py"))}
    readme = documents.document(project_readme := f"python/{project['readme']}", {**places, project_readme: None})
    files = below("is_ice", contents(top / "python" / "is_ice", "*.py", "py.typed"))
    files["is_ice/libis_ice.so"] = library
    files |= documents.documents(places) | documents.others(places)
    files |= below(f"{info}/licenses", licenses())
    files[f"{info}/METADATA"] = metadata.of_wheel(project, number, readme)
    files[f"{info}/WHEEL"] = f"Wheel-Version: 1.0\nGenerator: dist\nRoot-Is-Purelib: false\nTag: {tag}\n".encode()
    record = ""
    for name, file in files.items():
        digest = base64.urlsafe_b64encode(hashlib.sha256(file).digest()).rstrip(b"=").decode()
        record += f"{name},sha256={digest},{len(file)}\n"
    return {**files, f"{info}/RECORD": f"{record}{info}/RECORD,,\n".encode()}


def for_rust(archives):
    """The crate with the static libraries in lib/, by their processors, the packages with serde and for str0m, the programs that are
    patched, and documents.

    The crate and these packages are no workspaces of their own, so that they may be members of the user's."""
    sources = ("README.md", "build.rs", "src/**/*.rs", "examples/**/*.rs", "tests/**/*.rs", "serde/Cargo.toml", "serde/tests/*.rs",
               "drop_in/Cargo.toml", "drop_in/src/*.rs", "drop_in/tests/*.rs", "str0m/**/Cargo.toml", "str0m/**/*.rs")
    places = {**documents.carried("."), **documents.placed("rust", ".", *sources)}
    manifests = {name: (top / "rust" / name).read_text() for name in ("Cargo.toml", "serde/Cargo.toml", "str0m/Cargo.toml")}
    manifests = {name: metadata.manifest(text) for name, text in manifests.items()}
    files = {**documents.documents(places), **documents.others(places), **licenses()}
    return {**files, **manifests, **{f"lib/linux-{processor.name}/libis_ice.a": archive for processor, archive in archives.items()}}
