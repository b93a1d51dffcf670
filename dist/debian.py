"""The Debian packages of one version: the shared library, and what a compiler needs."""
import email.utils
import hashlib
import pathlib
import time

import notices
import symbols
from metadata import MAINTAINER, control_lines
from packing import Link, ar, folders, gzipped, tar_gz

here = pathlib.Path(__file__).resolve().parent
top = here.parent
REVISION = 1  # of the packages of one version
CHANGELOG = """is-ice ({version}) unstable; urgency=medium

  * Version {number} of is_ice, as its CHANGELOG.md describes it.

 -- {maintainer}  {date}
"""


def names(interface):
    """The package of the shared library, which has the number of the interface in its name, and the one for compilers."""
    return f"libis-ice{interface}", "libis-ice-dev"


def copyright_file(date):
    """The licenses in Debian's format, in the year of the commit: the text of the MIT license, and where Debian has the other one."""
    lines = (top / "LICENSE-MIT").read_text().splitlines()
    first = next(n for n, line in enumerate(lines) if line.startswith("Permission"))
    holders = " ".join(line.strip() for line in lines[1:first] if line.strip()).split("Copyright (c) ")[1:]
    text = "\n".join(f" {line}" if line else " ." for line in lines[first:])
    owners = f"{time.gmtime(date).tm_year} " + "\n           ".join(holder.strip() for holder in reversed(holders))
    return (here / "copyright.in").read_text().replace("@HOLDERS@", owners).replace("@MIT@", text.rstrip()).encode()


def changelog(number, version, date):
    """Debian's changelog, which has the date of the commit."""
    return CHANGELOG.format(version=version, number=number, maintainer=MAINTAINER, date=email.utils.formatdate(date)).encode()


def described(package, number, version, date):
    """The files that Debian requires of each package."""
    docs = f"usr/share/doc/{package}"
    return {
        f"{docs}/copyright": copyright_file(date),
        f"{docs}/third-party.txt": notices.KEPT.read_bytes(),
        f"{docs}/changelog.gz": gzipped((top / "CHANGELOG.md").read_bytes()),
        f"{docs}/changelog.Debian.gz": gzipped(changelog(number, version, date)),
        # it is no upload to Debian, so it closes no request for a package
        f"usr/share/lintian/overrides/{package}": b"initial-upload-closes-no-bugs\n",
    }


def control(name, files, **values):
    """Debian's description of a package: a template with a value for each @NAME@."""
    size = sum(len(file) for file in files.values() if not isinstance(file, Link))
    values |= {"KIB": -(-size // 1024) + len({*files, *folders(files)}), "MAINTAINER": MAINTAINER}
    text = (here / name).read_text()
    for key, value in values.items():
        text = text.replace(f"@{key}@", str(value))
    return text.replace("Description: ", f"{control_lines()}Description: ").encode()


def debug_package(runtime, debug, build_id, date, values):
    """The package with the symbols of the shared library, where debuggers look for them."""
    package = f"{runtime}-dbgsym"
    files = {f"usr/lib/debug/.build-id/{build_id[:2]}/{build_id[2:]}.debug": debug, f"usr/share/doc/{package}": Link(runtime)}
    return packed(files, date, control("control-dbgsym.in", files, BUILD_ID=build_id, **values))


def packed(files, date, described_by, **more):
    """A package: an ar archive of its format, its control files, and its files."""
    sums = (f"{hashlib.md5(file).hexdigest()}  {name}\n" for name, file in sorted(files.items()) if not isinstance(file, Link))
    control_files = {"./control": described_by, "./md5sums": "".join(sums).encode(), **{f"./{name}": file for name, file in more.items()}}
    data = {f"./{name}": file for name, file in files.items()}
    parts = {"control.tar.gz": tar_gz(control_files, date), "data.tar.gz": tar_gz(data, date)}
    return ar({"debian-binary": b"2.0\n", **parts}, date)


def packages(processor, library, others, soname, number, glibc, date, debug, build_id):
    """The packages for a processor, by their file names. `others` is what the second one has, `debug` what the third one has."""
    interface = soname.rpartition(".")[2]
    runtime, dev = names(interface)
    version = f"{number}-{REVISION}"
    values = {"VERSION": version, "GLIBC": glibc, "RUNTIME": runtime, "ARCHITECTURE": processor.debian}
    own = {f"{processor.multiarch}/{soname}": library, **described(runtime, number, version, date)}
    others = {**others, **described(dev, number, version, date)}
    shlibs = f"libis_ice {interface} {runtime}\n".encode()
    more = {"shlibs": shlibs, "triggers": b"activate-noawait ldconfig\n", "symbols": symbols.debian(soname, runtime, dev)}
    name = f"{version}_{processor.debian}"
    return {
        f"{runtime}_{name}.deb": packed(own, date, control("control.in", own, **values), **more),
        f"{dev}_{name}.deb": packed(others, date, control("control-dev.in", others, **values)),
        f"{runtime}-dbgsym_{name}.deb": debug_package(runtime, debug, build_id, date, values),
    }
