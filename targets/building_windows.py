"""The library for Windows on x86-64: a DLL, its import library, and a static library, all for mingw-w64."""
import shutil

import keeping
import official
import retargeting
from building import Failed, declared, run
from retargeting import WINDOWS

GCC = "x86_64-w64-mingw32-gcc"


def exported(definitions):
    """Writes the file that names the exports of the DLL."""
    definitions.write_text("\n".join(["LIBRARY is_ice.dll", "EXPORTS", *(f"    {name}" for name in sorted(declared()))]) + "\n")
    return definitions


def build():
    if shutil.which(GCC) is None:
        raise Failed(f"{GCC} is not installed (Debian: gcc-mingw-w64-x86-64)")
    module, rows = keeping.module()
    rows["linked"] = run(GCC, "--version").splitlines()[0]
    if not keeping.is_built("windows", rows):
        with keeping.written("windows", rows) as folder:
            made = retargeting.objects(module, WINDOWS, folder)
            archive = folder / "libis_ice.a"
            run(official.clang().parent / "llvm-ar", "rcs", archive, *made)
            run(GCC, "-shared", "-static-libgcc", "-s", "-o", folder / "is_ice.dll", f"-Wl,--out-implib={folder / 'libis_ice.dll.a'}",
                "-Wl,--gc-sections", "-Wl,--no-insert-timestamp", exported(folder / "is_ice.def"),
                "-Wl,--whole-archive", archive, "-Wl,--no-whole-archive")
            for each in made:
                each.unlink()
    return f"targets/out/windows/is_ice.dll, {(keeping.out / 'windows' / 'is_ice.dll').stat().st_size} bytes"
