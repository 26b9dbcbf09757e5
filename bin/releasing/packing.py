"""Writes a tree into a folder, takes it away, and makes a tarball of it. The same tree gives the same bytes."""

import gzip
import io
import os
import tarfile

LIST = "lib/irp/installed"  # what was installed below a prefix: a place in each line


class File:
    """A file of a tree: its bytes, or where a link leads."""

    def __init__(self, data=b"", is_program=False, link=None):
        self.data, self.is_program, self.link = data, is_program, link


def mode_of(file):
    return 0o755 if file.is_program else 0o644


def write_file(path, file, time):
    """Writes one file or link."""
    os.makedirs(os.path.dirname(path), exist_ok=True)
    if os.path.lexists(path):
        os.remove(path)
    if file.link:
        os.symlink(file.link, path)
    else:
        with open(path, "wb") as it:
            it.write(file.data)
        os.chmod(path, mode_of(file))
    os.utime(path, (time, time), follow_symlinks=False)


def write(tree, folder, time):
    """Writes a tree: files of the time of the release, in folders that anybody may read."""
    for place, file in tree.items():
        write_file(f"{folder}/{place}", file, time)
    for at, _, _ in os.walk(folder, topdown=False):
        os.chmod(at, 0o755)
        os.utime(at, (time, time))


def install(tree, folder, time):
    """Writes a tree below a prefix, whose other files and folders stay as they are, and the list of what it wrote."""
    remove(folder)
    listed = "".join(f"{it}\n" for it in [*tree, LIST]).encode()
    for place, file in {**tree, LIST: File(listed)}.items():
        write_file(f"{folder}/{place}", file, time)


def remove(folder):
    """Takes away what was installed below a prefix, and folders that are empty then. Returns how many files went."""
    try:
        with open(f"{folder}/{LIST}", encoding="utf-8") as it:
            places = it.read().splitlines()
    except FileNotFoundError:
        return 0
    for place in places:
        if os.path.lexists(f"{folder}/{place}"):
            os.remove(f"{folder}/{place}")
    above = {at for place in places for at in folders_above(place)}
    for at in sorted(above, key=len, reverse=True):
        if os.path.isdir(f"{folder}/{at}") and not os.listdir(f"{folder}/{at}"):
            os.rmdir(f"{folder}/{at}")
    return len(places)


def folders_above(place):
    while place := os.path.dirname(place):
        yield place


def header(name, kind, mode, time):
    """Returns the header of a part of a tarball: its owner is root."""
    it = tarfile.TarInfo(name)
    it.type, it.mode, it.mtime, it.uname, it.gname = kind, mode, time, "root", "root"
    return it


def tarball(tree, top, time):
    """Returns the bytes of a tarball, whose files stand below the folder `top`."""
    made, seen = io.BytesIO(), set()
    with tarfile.open(fileobj=made, mode="w", format=tarfile.GNU_FORMAT) as out:
        for place, file in tree.items():
            for at in reversed([*folders_above(place), ""]):
                if at not in seen:
                    seen.add(at)
                    out.addfile(header(f"{top}/{at}".rstrip("/"), tarfile.DIRTYPE, 0o755, time))
            if file.link:
                it = header(f"{top}/{place}", tarfile.SYMTYPE, 0o777, time)
                it.linkname = file.link
                out.addfile(it)
            else:
                it = header(f"{top}/{place}", tarfile.REGTYPE, mode_of(file), time)
                it.size = len(file.data)
                out.addfile(it, io.BytesIO(file.data))
    return gzip.compress(made.getvalue(), 6, mtime=time)
