"""Archives whose bytes depend only on names, contents and a date: tar.gz, zip, and the ar archive of a Debian package.

Files are a dictionary from a path to the contents, or to a Link.
"""
import calendar
import gzip
import io
import tarfile
import time
import zipfile


class Link(str):
    """A symbolic link: its target."""


def folders(paths):
    """The folders that contain the paths."""
    return {"/".join(path.split("/")[:count]) for path in paths for count in range(1, path.count("/") + 1)}


def tar_gz(files, date):
    """A tar.gz with folders, all owned by root, in the order of names."""
    archive = io.BytesIO()
    with tarfile.open(fileobj=archive, mode="w", format=tarfile.USTAR_FORMAT) as tar:
        for name in sorted({*files, *folders(files)}):
            entry = tarfile.TarInfo(name)
            entry.mtime, entry.uname, entry.gname, entry.mode = date, "root", "root", 0o644
            contents = files.get(name)
            if contents is None:
                entry.type, entry.mode = tarfile.DIRTYPE, 0o755
            elif isinstance(contents, Link):
                entry.type, entry.linkname, entry.mode = tarfile.SYMTYPE, contents, 0o777
            else:
                entry.size = len(contents)
            tar.addfile(entry, io.BytesIO(contents) if entry.isreg() else None)
    return gzipped(archive.getvalue())


def gzipped(contents):
    """A gz of the contents, without a name or date."""
    packed = io.BytesIO()
    with gzip.GzipFile("", "wb", 9, packed, mtime=0) as stream:
        stream.write(contents)
    return packed.getvalue()


def zipped(files, date):
    """A zip in the given order. Its dates are in UTC, and none is before 1980."""
    packed = io.BytesIO()
    when = time.gmtime(max(date, calendar.timegm((1980, 1, 1, 0, 0, 0))))[:6]
    with zipfile.ZipFile(packed, "w") as archive:
        for name, contents in files.items():
            entry = zipfile.ZipInfo(name, when)
            entry.create_system, entry.external_attr, entry.compress_type = 3, 0o100644 << 16, zipfile.ZIP_DEFLATED
            archive.writestr(entry, contents, compresslevel=9)
    return packed.getvalue()


def ar(files, date):
    """An ar archive in the given order."""
    packed = b"!<arch>\n"
    for name, contents in files.items():
        packed += f"{name:<16}{date:<12}{0:<6}{0:<6}{'100644':<8}{len(contents):<10}`\n".encode()
        packed += contents + b"\n" * (len(contents) % 2)
    return packed
