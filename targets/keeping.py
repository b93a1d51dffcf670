"""The folders below targets/out: one for each target, with a file BUILT that says from what it was built."""
import contextlib
import hashlib
import os
import pathlib
import shutil
import tempfile

import official
from building import run

here = pathlib.Path(__file__).resolve().parent
out = here / "out"


def summed(path):
    return hashlib.sha256(path.read_bytes()).hexdigest()


def inputs():
    """What all targets are built from: rows of BUILT."""
    sources = [*sorted(here.glob("*.py")), *sorted((here / "memory").iterdir())]
    together = "".join(f"{path.name} {summed(path)}\n" for path in sources)
    return {
        "library": f"libis_c.a of x86-64, SHA-256 {summed(official.library())}",
        "kit": run("rt", "version").strip(),
        "targets": f"SHA-256 {hashlib.sha256(together.encode()).hexdigest()}",
    }


def lines(rows):
    return "".join(f"{name + ':':<10}{value}\n" for name, value in rows.items())


def is_built(name, rows):
    """Whether the target's folder was built from these."""
    said = out / name / "BUILT"
    return said.exists() and said.read_text().startswith(lines(rows))


@contextlib.contextmanager
def written(name, rows):
    """A new folder that takes the place of the target's, with BUILT in it, if the block ends well. The block adds to the rows."""
    out.mkdir(exist_ok=True)
    made = pathlib.Path(tempfile.mkdtemp(prefix=f".{name}-", dir=out))
    try:
        yield made
        (made / "BUILT").write_text(lines(rows))
        os.chmod(made, 0o755)
        shutil.rmtree(out / name, ignore_errors=True)
        made.rename(out / name)
    finally:
        shutil.rmtree(made, ignore_errors=True)


def module():
    """The module of the proved build for x86-64, and the rows of BUILT that say so. It is kept in targets/out/module."""
    rows = inputs()
    if not is_built("module", rows):
        with written("module", rows) as folder:
            rows["proved"] = official.with_module(folder)
            shutil.rmtree(folder / "toolchain")
            (folder / "libis_c.a").unlink()
    said = (out / "module" / "BUILT").read_text()
    return out / "module" / "module.bc", {line.split(":")[0]: line.split(":", 1)[1].strip() for line in said.splitlines()}
