"""What a release has for other systems than Linux: the zip for Windows and the package for npm, from what targets/run built."""
import hashlib
import os
import pathlib
import shutil
import sys

import documents
from building import Failed, below, contents, declared, filled, interface, licenses, run, top
from packing import zipped

GCC = "x86_64-w64-mingw32"


def built(name, library):
    """The folder of a target that targets/run built from the library for x86-64, or None, and says so."""
    folder = pathlib.Path(os.environ.get("IS_ICE_TARGETS") or top / "targets" / "out").resolve() / name
    digest, said = hashlib.sha256(library.read_bytes()).hexdigest(), folder / "BUILT"
    if said.exists() and digest in said.read_text():
        return folder
    print(f"nothing for {name}: {'it was built from another library' if said.exists() else 'not built'}, `targets/run {name}` builds it")
    return None


def imported(library):
    """The names of the libraries that a DLL needs."""
    said = run(f"{GCC}-objdump", "-p", library)
    return {line.split()[-1].lower() for line in said.splitlines() if "DLL Name:" in line}


def exported(library):
    """The names that a DLL exports."""
    table = run(f"{GCC}-objdump", "-p", library).partition("[Ordinal/Name Pointer] Table")[2].partition("\n\n")[0]
    return {line.split()[-1] for line in table.splitlines()[1:] if line.strip()}


def windows(library, number, when, _):
    """The zip for Windows on x86-64: the DLL, its import library, the list of its exports, headers, documents and examples."""
    folder = built("windows", library)
    if folder is None:
        return {}, {}
    dll = folder / "is_ice.dll"
    if imported(dll) - {"kernel32.dll", "msvcrt.dll"}:
        raise Failed(f"{dll} needs {' '.join(sorted(imported(dll)))}")
    if exported(dll) != declared():
        raise Failed(f"{dll}: calls and exports differ: {sorted(exported(dll) ^ declared())}")
    docs = "share/doc/is_ice"
    places = {**documents.carried(docs), **documents.placed("c", docs, "README.md", "examples/*"),
              **documents.placed("c", "include", "is_ice.h", "is_ice.hpp", "is_ice_kit.h", "is_ice_gather.h")}
    package = {**documents.documents(places), **documents.others(places), **below(docs, licenses()),
               "bin/is_ice.dll": dll.read_bytes(), **below("lib", contents(folder, "libis_ice.dll.a", "is_ice.def")),
               "README.md": filled("windows.md", INTERFACE=interface())}
    if wrong := documents.leading_out(package) + documents.not_there(package):
        raise Failed(f"the zip names files that it does not have: {wrong}")
    name = f"is_ice-{number}-windows-x86_64"
    row = f"is_ice.dll, SHA-256 {hashlib.sha256(dll.read_bytes()).hexdigest()}; {run(f'{GCC}-ld', '--version').splitlines()[0]}"
    return {f"{name}.zip": zipped(below(name, package), when)}, {"windows": row}


def npm(library, _, __, stage):
    """The package of js/ for npm, with the module of WebAssembly in it, if this clone has js/."""
    pack = top / "js" / "pack"
    module = built("wasm32", library) if pack.exists() else None
    if module is None:
        return {}, {}
    if shutil.which("npm") is None:
        print("nothing for npm: npm is not installed")
        return {}, {}
    archive = stage / run(sys.executable, pack, module / "is_ice.wasm", stage).strip()
    row = f"is_ice.wasm, SHA-256 {hashlib.sha256((module / 'is_ice.wasm').read_bytes()).hexdigest()}"
    return {archive.name: archive.read_bytes()}, {"npm": row}
