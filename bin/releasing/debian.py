"""Makes a Debian package of a tree, by dpkg-deb alone."""

import hashlib
import os
import re
import subprocess
import tempfile

import packing
from layout import LIB
from packing import File
from repository import PROGRAMS, Stop, call

DESCRIPTION = """Description: runs and judges Windows drivers' I/O request packets
 Runs WDM drivers in C, and scripts of drivers' calls, against a model of the
 Windows I/O manager, shows what happened to each packet, and judges it.
 .
 {proved}
"""
PROVED = {True: "The programs irpx, irp_view, irp_words, irp_orders and irp_live are proved.",
          False: "For a trial: the programs of this package are NOT proved."}


def architecture():
    return call("dpkg", "--print-architecture").strip()


def libraries(tree):
    """Returns the packages of C libraries that the programs want."""
    versions, wants_gcc = [(2, 17)], False
    for name in PROGRAMS:
        with tempfile.NamedTemporaryFile() as it:
            it.write(tree[f"{LIB}/programs/{name}"].data)
            it.flush()
            said = call("objdump", "-p", it.name)
        versions += [tuple(map(int, found)) for found in re.findall(r"GLIBC_(\d+)\.(\d+)", said)]
        wants_gcc = wants_gcc or "libgcc_s.so" in said
    least = ".".join(map(str, max(versions)))
    return f"libc6 (>= {least})" + (", libgcc-s1" if wants_gcc else "")


def control(release, tree):
    """Returns the package's control file."""
    size = sum((len(it.data) + 1023) // 1024 or 1 for it in tree.values())
    proved = PROVED[release.is_proved]
    return (f"Package: irp\nVersion: {release.version}\nArchitecture: {architecture()}\n"
            "Maintainer: Zillukaq <irp@zillukaq.invalid>\nSection: devel\nPriority: optional\n"
            f"Installed-Size: {size}\nDepends: {libraries(tree)}, python3 (>= 3.9)\n"
            "Recommends: gcc, binutils, libc6-dev, man-db\n" + DESCRIPTION.format(proved=proved)).encode()


def write(release, tree, path):
    """Writes the package."""
    below = {f"usr/{place}": it for place, it in tree.items()}
    sums = "".join(f"{hashlib.md5(it.data).hexdigest()}  {place}\n" for place, it in below.items() if not it.link)
    parts = {"DEBIAN/control": File(control(release, tree)), "DEBIAN/md5sums": File(sums.encode())}
    with tempfile.TemporaryDirectory() as room:
        packing.write({**parts, **below}, room + "/irp", release.time)
        made = subprocess.run(["dpkg-deb", "--root-owner-group", "-Zxz", "--threads-max=1", "--build", room + "/irp", path],
                              env=dict(os.environ, SOURCE_DATE_EPOCH=str(release.time)), capture_output=True, text=True,
                              check=False)
    if made.returncode:
        raise Stop(f"dpkg-deb fails: {made.stderr.strip()}")
