"""Compiles the module of the proved build for x86-64 for another target, by the kit's clang.

What changes in the module are names: those of the target, its data layout and its processor, and attributes of functions that only Linux
has. No instruction changes. Its sizes and pointers have 64 bits, as the proof takes them, on each target.
"""
import pathlib
import re
from typing import NamedTuple

import official
from building import Failed, run

memory = pathlib.Path(__file__).resolve().parent / "memory"
# The flags of `rattle build` for its own targets.
FLAGS = ["--no-default-config", "-no-canonical-prefixes", "-ffunction-sections", "-fdata-sections", "-Wno-override-module"]
FLAGS += [word for flag in ("-trap-unreachable", "-no-x86-call-frame-opt", "-disable-machine-licm", "-disable-postra-machine-licm",
                            "-sink-common-insts=false") for word in ("-mllvm", flag)]
# Linux's way to touch each page of a large frame. Windows calls __chkstk, and a module of WebAssembly has its stack below all else.
PROBES = '"probe-stack"="inline-asm" "stack-probe-size"="3072" '
PROCESSOR = '"target-cpu"="x86-64"'


class Back(NamedTuple):
    """A target of LLVM."""
    triple: str
    processor: str
    flags: list[str]
    attributes: str = ""  # of each function, before that of the processor
    tables: str = ""  # likewise, after nounwind


WINDOWS = Back("x86_64-w64-windows-gnu", "x86-64", ["-march=x86-64", "-mllvm", "-no-trap-after-noreturn"],
               tables="uwtable ")  # without a row of .pdata nothing can walk through a function's frame
WASM = Back("wasm64-unknown-unknown", "lime1",
            ["-mcpu=lime1", *(word for flag in ("div-rem", "fp-convert") for word in ("-mllvm", f"-expand-{flag}-bits=64"))],
            attributes='"no-builtin-bcmp" "no-builtin-memcmp" "no-builtin-strlen" ')  # there is no C library


def text_of(module, folder):
    """The module as text."""
    text = folder / "module.ll"
    run(official.clang(), "--no-default-config", f"--target={official.X86_64}", "-S", "-emit-llvm", "-Xclang", "-disable-llvm-passes",
        "-x", "ir", module, "-o", text)
    said = text.read_text()
    text.unlink()
    return said


def layout(triple):
    """The data layout of a target, as clang has it."""
    said = run(official.clang(), "--no-default-config", f"--target={triple}", "-S", "-emit-llvm", "-x", "c", "/dev/null", "-o", "-")
    return re.search(r"(?m)^target datalayout = .*$", said)[0]


def retargeted(text, back):
    """The module's text for another target."""
    for pattern, line in ((r"target datalayout = .*", layout(back.triple)), (r"target triple = .*", f'target triple = "{back.triple}"')):
        text, count = re.subn(rf"(?m)^{pattern}$", lambda _: line, text, count=1)
        if count == 0:
            raise Failed(f"the module has no {pattern}")
    if PROCESSOR not in text or PROBES not in text:
        raise Failed("the functions of the module have other attributes than those of x86-64")
    text = text.replace(PROBES, "").replace(PROCESSOR, f'{back.attributes}"target-cpu"="{back.processor}"')
    if back.tables:
        text = re.sub(r'(?m)^(attributes #\d+ = \{ [^}\n]*nounwind )(?=[^}\n]*"target-cpu")', rf"\1{back.tables}", text)
    return text


def compiled(source, back, target, *flags):
    """Compiles a file of LLVM text or C."""
    of_c = ["-O2", "-fwrapv", "-ffreestanding", "-nostdinc", "-Wall", "-Wextra", "-Werror"]
    kind = ["-x", "ir", "-O3"] if source.suffix == ".ll" else of_c
    run(official.clang(), f"--target={back.triple}", *back.flags, *FLAGS, *kind, *flags, "-c", source, "-o", target)
    return target


def objects(module, back, folder):
    """The objects of the library and of the functions that it calls for memory."""
    text = folder / "is.ll"
    text.write_text(retargeted(text_of(module, folder), back))
    made = [compiled(text, back, folder / "is.o"), compiled(memory / "heap.ll", back, folder / "heap.o")]
    text.unlink()
    return made
