"""The library for Linux on ARM64: the compiler's own build for that target."""
import keeping
import official
import retargeting
from building import run
from retargeting import memory

# The flags of the kit's builds for ARM64, for the functions over malloc, realloc and free, which the kit has for x86-64 only.
ARM64 = retargeting.Back(official.ARM64, "generic", ["-march=armv8-a", "-fPIC"])


def build():
    rows = keeping.inputs()
    if not keeping.is_built("arm64", rows):
        with keeping.written("arm64", rows) as folder:
            rows["proved"] = official.built(official.ARM64, official.kit() / "toolchain", folder / "libis_c.a")
            heap = retargeting.compiled(memory / "heap.ll", ARM64, folder / "heap.o")
            run(official.clang().parent / "llvm-ar", "rcs", folder / "liblibc_c.a", heap)
            heap.unlink()
    return f"targets/out/arm64/libis_c.a, {(keeping.out / 'arm64' / 'libis_c.a').stat().st_size} bytes"
