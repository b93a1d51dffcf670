"""Installs each release file in an empty folder, and runs its quick start there."""
import hashlib
import importlib.util
import os
import pathlib
import re
import shutil
import sys
import tarfile
import time
import zipfile

from building import CC, interface, run
from processors import X86_64
from steps import Failed, Skipped, require

top = pathlib.Path(__file__).resolve().parent.parent
CXX = os.environ.get("CXX", "c++")
PATHS = ["10.0.0.1:5000 -> 10.0.0.2:5000", "10.0.0.2:5000 -> 10.0.0.1:5000"]
# Variables that could lead to a library, module or flag from elsewhere.
LEADING = re.compile(r"IS_ICE_|PYTHON|PIP_|PKG_CONFIG|LD_|C?CFLAGS|LDFLAGS|LIBRARY_PATH|CPATH|C_INCLUDE|CMAKE_|RUSTFLAGS"
                     r"|CARGO_(?!HOME)|VIRTUAL_ENV")
CMAKE = """cmake_minimum_required(VERSION 3.15)
project(two C)
find_package(is_ice {version} REQUIRED CONFIG)
add_executable(two_shared two.c)
target_link_libraries(two_shared is_ice::is_ice)
add_executable(two_static two.c)
target_link_libraries(two_static is_ice::static)
"""
# Makes changes below these folders go to memory, in a mount namespace of its own.
OVERLAID = """set -e
mount -t tmpfs none "$1"
for folder in usr etc var; do
    mkdir -p "$1/$folder/upper" "$1/$folder/work"
    mount -t overlay overlay -o "lowerdir=/$folder,upperdir=$1/$folder/upper,workdir=$1/$folder/work" "/$folder"
done
shift
exec "$@"
"""
# Installs the packages, and compiles and runs two.c with the shared library.
INSTALLED = """set -e
dpkg -i "$1" "$2" >&2
dpkg --verify libis-ice-dev
"$3" -o "$4" /usr/share/doc/libis-ice-dev/examples/two.c $(pkg-config --cflags --libs is_ice)
readelf -d "$4" | grep -q libis_ice.so
exec "$4"
"""


def bare(**more):
    """The environment without variables that could lead elsewhere."""
    return {**{name: value for name, value in os.environ.items() if not LEADING.match(name)}, **more}


def the(out, pattern):
    """The one release file whose name matches the pattern."""
    found = list(out.glob(pattern))
    if len(found) != 1:
        raise Failed(f"{out} has {len(found)} files {pattern}: run dist/run")
    return found[0]


def found_paths(said):
    """Fails unless both agents found the path to the other."""
    if sorted(re.split(r"\n| \| ", said.strip())) != PATHS:
        raise Failed(f"expected {PATHS}, got: {said}")


def unpacked(archive, folder):
    """Unpacks a tar.gz and returns its one folder."""
    with tarfile.open(archive) as tar:
        tar.extractall(folder)
    return next(folder.iterdir())


def both(programs, libraries):
    """Runs the program with the shared library, and the one with the static library, which must not need the shared one."""
    shared, static = programs
    for program, needs in ((shared, True), (static, False)):
        if ("libis_ice.so" in run("readelf", "-d", program)) != needs:
            raise Failed(f"{program.name}: linked with the wrong library")
    found_paths(run(shared, env=bare(LD_LIBRARY_PATH=str(libraries))))
    found_paths(run(static, env=bare()))


def compiled(place, example, headers, libraries, env):
    """Compiles two.c with the flags of pkg-config, and with the static library, and runs both."""
    require(CC, "pkg-config")
    flags = run("pkg-config", "--cflags", "--libs", "is_ice", env=env).split()
    if f"-I{headers}" not in {os.path.normpath(flag) for flag in flags}:
        raise Failed(f"pkg-config names other headers: {flags}")
    archive = libraries / "libis_ice.a"
    strict = ["-std=c99", "-Wall", "-Wextra", "-Werror"]
    run(CC, *strict, "-o", place / "two_shared", example, *flags, env=bare())
    run(CC, *strict, "-o", place / "two_static", example, *(flag for flag in flags if flag[:2] == "-I"), archive, env=bare())
    both((place / "two_shared", place / "two_static"), libraries)
    if shutil.which(CXX):
        include = [flag for flag in flags if flag[:2] == "-I"]
        run(CXX, "-std=c++17", "-Wall", "-Wextra", "-Werror", "-o", place / "two_cxx", example.with_suffix(".cpp"), *include, archive,
            env=bare())
        found_paths(run(place / "two_cxx", env=bare()))
    sizes = [(place / name).stat().st_size for name in ("two_shared", "two_static")]
    return f"two.c with the shared library: {sizes[0]} bytes; with the static one: {sizes[1]}"


# ---- steps: each returns a text for its line of output

def step_sums(_, out):
    lines = [line.split("  ") for line in the(out, "SHA256SUMS").read_text().splitlines()]
    wrong = [name for digest, name in lines if hashlib.sha256(the(out, name).read_bytes()).hexdigest() != digest]
    if wrong:
        raise Failed(f"other contents: {' '.join(wrong)}")
    return f"{len(lines)} files"


def moved(place, out):
    """The unpacked release for C, moved to another folder."""
    return unpacked(the(out, "is_ice-*-linux-x86_64.tar.gz"), place / "unpacked").rename(place / "moved")


def step_tarball(place, out):
    root = moved(place, out)
    env = bare(PKG_CONFIG_PATH=str(root / "lib" / "pkgconfig"))
    return compiled(place, root / "share" / "doc" / "is_ice" / "examples" / "two.c", root / "include", root / "lib", env)


def step_cmake(place, out):
    require("cmake", CC)
    root = moved(place, out)
    version = re.search("(?m)^Version: (.+)$", (root / "lib" / "pkgconfig" / "is_ice.pc").read_text())[1]
    (place / "CMakeLists.txt").write_text(CMAKE.format(version=version))
    shutil.copy(root / "share" / "doc" / "is_ice" / "examples" / "two.c", place)
    build = place / "build"
    run("cmake", "-S", place, "-B", build, f"-DCMAKE_PREFIX_PATH={root}", env=bare())
    run("cmake", "--build", build, env=bare())
    both((build / "two_shared", build / "two_static"), root / "lib")
    return f"find_package(is_ice {version})"


def step_wheel(place, out):
    if importlib.util.find_spec("ensurepip") is None:
        raise Skipped("venv is not installed")
    run(sys.executable, "-m", "venv", place / "venv", env=bare())
    python = place / "venv" / "bin" / "python"
    begun = time.monotonic()
    wheel = the(out, "*_x86_64.whl")
    run(python, "-m", "pip", "install", "--no-index", "--disable-pip-version-check", wheel, env=bare(PATH=str(python.parent)))
    took = time.monotonic() - begun
    shutil.copy(top / "python" / "examples" / "quick.py", place)
    found_paths(run(python, place / "quick.py", env=bare(), cwd=place))
    where = run(python, "-c", "import is_ice._library; print(is_ice._library.library_path())", env=bare(), cwd=place).strip()
    if not pathlib.Path(where).is_relative_to(place.resolve()):
        raise Failed(f"another library was loaded: {where}")
    with zipfile.ZipFile(wheel) as archive:
        size = sum(entry.file_size for entry in archive.infolist())
    return f"pip install: {took:.1f} s, {size} bytes unpacked"


def step_rust(place, out):
    require("cargo", CC)
    crate = unpacked(the(out, "is-*-rust-linux.tar.gz"), place / "unpacked")
    package, env = place / "package", bare()
    run("cargo", "new", "--quiet", "--vcs", "none", "--name", "two", package, env=env)
    run("cargo", "add", "--quiet", "--offline", "--path", crate, cwd=package, env=env)
    shutil.copy(top / "rust" / "examples" / "two.rs", package / "src" / "main.rs")
    begun = time.monotonic()
    found_paths(run("cargo", "run", "--quiet", "--offline", "--jobs", "1", cwd=package, env=env))
    took = time.monotonic() - begun
    run("cargo", "test", "--quiet", "--offline", "--jobs", "1", "--tests", cwd=crate / "drop_in", env=env)
    return f"cargo run: {took:.1f} s; the tests of drop_in passed"


def debs(out, processor=X86_64):
    """The Debian packages for a processor: of the shared library, and for compilers."""
    return the(out, f"libis-ice{interface()}_*_{processor.debian}.deb"), the(out, f"libis-ice-dev_*_{processor.debian}.deb")


def step_deb(place, out):
    require("dpkg-deb")
    root = place / "root"
    for package in debs(out):
        run("dpkg-deb", "-x", package, root)
    libraries = root / X86_64.multiarch
    env = bare(PKG_CONFIG_LIBDIR=str(libraries / "pkgconfig"), PKG_CONFIG_SYSROOT_DIR=str(root), PKG_CONFIG_ALLOW_SYSTEM_CFLAGS="1",
               PKG_CONFIG_ALLOW_SYSTEM_LIBS="1")
    example = root / "usr" / "share" / "doc" / "libis-ice-dev" / "examples" / "two.c"
    return compiled(place, example, root / "usr" / "include", libraries, env)


def overlaid(place, *words):
    """Runs a command in a mount namespace of its own, in which changes to the system are made in memory only."""
    return run("unshare", "--mount", "sh", "-c", OVERLAID, "sh", place, *words, env=bare(LC_ALL="C", DEBIAN_FRONTEND="noninteractive"))


def step_dpkg(place, out):
    require("dpkg", "unshare", "pkg-config", CC)
    memory, program = place / "memory", place / "two"
    memory.mkdir()
    try:
        overlaid(memory, "true")
    except Failed:
        raise Skipped("a mount namespace with overlays needs root") from None
    found_paths(overlaid(memory, "sh", "-c", INSTALLED, "sh", *debs(out), CC, program))
    return "dpkg -i and dpkg --verify; the shared library was found without variables"


def step_lintian(_, out):
    require("lintian")
    run("lintian", "--allow-root", "--fail-on", "error,warning", "--no-cfg", *debs(out), env=bare(LC_ALL="C.UTF-8"))
    return "no error and no warning"


STEPS = {"sums": step_sums, "tarball": step_tarball, "cmake": step_cmake, "wheel": step_wheel, "rust": step_rust, "deb": step_deb,
         "dpkg": step_dpkg, "lintian": step_lintian}
