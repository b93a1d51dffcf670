"""The symbols of the shared library: their version node, which has the number of the soname, and since which release each is there."""
import pathlib

here = pathlib.Path(__file__).resolve().parent
SINCE = here / "symbols.txt"


def version_script(interface):
    """The linker's version script: the calls are exported, and nothing else."""
    return f"IS_ICE_{interface} {{\n    global: is_ice_*;\n    local: *;\n}};\n"


def since():
    """The release in which each call came: that of a call stays as long as the number of the soname does."""
    return dict(line.split() for line in SINCE.read_text().splitlines() if not line.startswith("#"))


def differing(calls):
    """The calls that symbols.txt lacks, or has although the header does not declare them."""
    return sorted(since().keys() ^ calls)


def debian(soname, package, dev):
    """Debian's file of symbols, by which other packages depend on the release that has the calls that they make."""
    interface, came = soname.rpartition(".")[2], since()
    node = f"IS_ICE_{interface}"
    lines = [f"{soname} {package} #MINVER#", f"* Build-Depends-Package: {dev}", f" {node}@{node} {min(came.values())}"]
    return "".join(f"{line}\n" for line in [*lines, *(f" {name}@{node} {release}" for name, release in sorted(came.items()))]).encode()
