"""All release files of one version."""
import datetime
import hashlib
import os
import re
from typing import NamedTuple

import debian
import documents
import origin
import other_systems
import sbom
from building import (Failed, below, exports_only_calls, for_c, for_rust, interface, kit, lowest_glibc, needs_only_libc, one_version,
                      proved, run, shared, suits_level, top, wheel)
from packing import gzipped, tar_gz, zipped
from processors import ARM64, X86_64, Processor


class Libraries(NamedTuple):
    """The libraries for a processor: what they are built from, and their bytes."""
    processor: Processor
    source: str
    static: bytes
    dynamic: bytes
    debug: bytes
    build_id: str
    glibc: str
    linker: str


def libraries(processor, archive, stage):
    """Builds the static and the shared library for a processor in a folder, and checks them."""
    tools = {"AR": processor.tool("ar"), "STRIP": processor.tool("strip")} if processor.prefix else {}
    run(top / "c" / "run", "install", stage, env={**os.environ, **tools, "IS_ICE_LIB": str(archive)})
    static, soname = stage / "lib" / "libis_ice.a", f"libis_ice.so.{interface()}"
    dynamic = shared(static, soname, stage / "lib" / soname, processor.compiler, processor.prefix)
    exports_only_calls(dynamic)
    needs_only_libc(dynamic)
    suits_level(dynamic, processor)
    linker = run(processor.compiler, "-Wl,--version").splitlines()[0]
    source = hashlib.sha256(archive.read_bytes()).hexdigest()
    debug = dynamic.with_name(f"{soname}.debug").read_bytes()
    build_id = re.search(r"Build ID: ([0-9a-f]+)", run("readelf", "-n", dynamic))[1]
    return Libraries(processor, source, static.read_bytes(), dynamic.read_bytes(), debug, build_id, lowest_glibc(dynamic), linker)


def closed(package):
    """The package, if it has each file that its documents and sources name."""
    if wrong := documents.leading_out(package) + documents.not_there(package):
        raise Failed(f"a package names files that it does not have: {wrong}")
    return package


def for_linux(built, number, when):
    """The release files for Linux on a processor, without the Rust crate, which has the libraries of all."""
    processor, soname = built.processor, f"libis_ice.so.{interface()}"
    tag = f"py3-none-manylinux_{built.glibc.replace('.', '_')}_{processor.name}"
    name = f"is_ice-{number}-linux-{processor.name}"
    c = closed(for_c({"lib/libis_ice.a": built.static, f"lib/{soname}": built.dynamic}, soname, number, when))
    dev = closed(for_c({f"{processor.multiarch}/libis_ice.a": built.static}, soname, number, when, deb=processor))
    return {
        f"{name}.tar.gz": tar_gz(below(name, c), when),
        f"is_ice-{number}-{tag}.whl": zipped(closed(wheel(built.dynamic, number, tag)), when),
        **debian.packages(processor, built.dynamic, dev, soname, number, built.glibc, when, built.debug, built.build_id),
    }


def built_from(number, every, others, when, ci_line):
    """What was built from what."""
    rows = {
        "version": number,
        "commit": origin.commit(),
        "date": datetime.datetime.fromtimestamp(when, datetime.timezone.utc).strftime("%Y-%m-%d %H:%M:%S UTC"),
        "kit": kit() or "unknown: rt is not on the path",
    }
    for it in every:
        rows |= {"library": f"libis_c.a for {it.processor.name}, SHA-256 {it.source}", "linker": it.linker, "processor": it.processor.level,
                 "glibc": f"{it.glibc} or later"} if it.processor is X86_64 else {
            it.processor.name: f"libis_c.a, SHA-256 {it.source}; {it.linker}; {it.processor.level}; glibc {it.glibc} or later"}
    rows |= {**others, "proof run": ci_line or "not given"}
    return "".join(f"{name + ':':<11}{value}\n" for name, value in rows.items()).encode()


def release(stage, ci_line=None):
    """Builds all release files in memory: a dictionary from their names to their bytes. Folders below `stage` get the libraries."""
    number, when, library = one_version(), origin.date(), proved()
    archives = {X86_64: library}
    if arm := other_systems.built("arm64", library):
        archives[ARM64] = arm / "libis_c.a"
    every = [libraries(processor, archive, stage / processor.name) for processor, archive in archives.items()]
    files = {}
    for built in every:
        files |= for_linux(built, number, when)
    crate = closed(for_rust({built.processor: built.static for built in every}))
    files[f"is-{number}-rust-linux.tar.gz"] = tar_gz(below(f"is-{number}", crate), when)
    others = {}
    for make in (other_systems.windows, other_systems.npm):
        more, rows = make(library, number, when, stage)
        files, others = {**files, **more}, {**others, **rows}
    if source := origin.archive(f"is_ice-{number}"):
        files[f"is_ice-{number}-source.tar.gz"] = gzipped(source)
    files[f"is_ice-{number}.spdx.json"] = sbom.document(files, number, origin.commit(), when, kit())
    files["BUILT"] = built_from(number, every, others, when, ci_line)
    sums = "".join(f"{hashlib.sha256(file).hexdigest()}  {name}\n" for name, file in files.items())
    return {**files, "SHA256SUMS": sums.encode()}
