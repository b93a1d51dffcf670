"""The library as a module of WebAssembly: with a 64-bit memory, and with a 32-bit one."""
import re
import shutil

import keeping
import official
import retargeting
from building import Failed, declared, run
from retargeting import WASM, memory

STACK = 131072
OWN = {"memory", "malloc", "free", "is_ice_heap_used"}  # exports beside the calls of is_ice.h
# What the kit's processor for WebAssembly has, for binaryen.
FEATURES = [f"--enable-{name}" for name in ("memory64", "bulk-memory", "sign-ext", "mutable-globals", "nontrapping-float-to-int")]


def number(data, at):
    """A number of the module at a place (LEB128), and the place after it."""
    value = shift = 0
    while True:
        value |= (data[at] & 0x7F) << shift
        at, shift = at + 1, shift + 7
        if data[at - 1] < 0x80:
            return value, at


def sections(data):
    """The contents of each section, by its number."""
    found, at = {}, 8
    while at < len(data):
        kind, (size, begin) = data[at], number(data, at + 1)
        found[kind], at = data[begin:begin + size], begin + size
    return found


def exports(section):
    """The names in the section of exports."""
    count, at = number(section, 0)
    names = set()
    for _ in range(count):
        length, at = number(section, at)
        names.add(section[at:at + length].decode())
        at = number(section, at + length + 1)[1]
    return names


def checked(module):
    """Fails unless the module exports the calls of is_ice.h and those for memory, imports nothing, and has no table of functions, which
    engines with a 64-bit memory and 32-bit tables would refuse."""
    found = sections(module.read_bytes())
    exported = exports(found.get(7, b"\0"))
    if exported != declared() | OWN:
        raise Failed(f"calls and exports differ: {sorted(exported ^ (declared() | OWN))}")
    for kind, what in ((2, "imports"), (4, "a table")):
        if number(found.get(kind, b"\0"), 0)[0]:
            raise Failed(f"{module} has {what}")


def linked(objects, folder):
    """Links the module of 64 bits. Its stack lies below all else, so that a call for which it does not suffice traps."""
    linker, made = folder / "wasm-ld", folder / "is_ice.wasm"
    linker.symlink_to(official.clang().parent / "ld.lld")
    flags = ["-mwasm64", "--no-entry", "--stack-first", "-z", f"stack-size={STACK}", "--gc-sections", "--strip-all"]
    run(linker, *flags, *(f"--export={name}" for name in sorted(declared() | OWN - {"memory"})), *objects, "-o", made)
    linker.unlink()
    checked(made)
    return made


def build_64():
    module, rows = keeping.module()
    if not keeping.is_built("wasm64", rows):
        with keeping.written("wasm64", rows) as folder:
            made = retargeting.objects(module, WASM, folder)
            made += [retargeting.compiled(memory / name, WASM, folder / f"{name}.o") for name in ("wasm.c", "int128.c")]
            linked(made, folder)
            for each in made:
                each.unlink()
    return said_of("wasm64")


def build_32():
    """The module of 64 bits, whose addresses are cut to 32 bits at each load and store. Pointers and sizes stay 64 bits wide."""
    if shutil.which("wasm-opt") is None:
        raise Failed("wasm-opt is not installed (Debian: binaryen)")
    build_64()
    _, rows = keeping.module()
    rows["lowered"] = re.sub(r"\s+", " ", run("wasm-opt", "--version")).strip()
    if not keeping.is_built("wasm32", rows):
        with keeping.written("wasm32", rows) as folder:
            made = folder / "is_ice.wasm"
            run("wasm-opt", *FEATURES, "--memory64-lowering", keeping.out / "wasm64" / "is_ice.wasm", "-o", made)
            checked(made)
    return said_of("wasm32")


def said_of(name):
    module = keeping.out / name / "is_ice.wasm"
    return f"{module.relative_to(keeping.here.parent)}, {module.stat().st_size} bytes"
