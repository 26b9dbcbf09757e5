"""What a release is made of: the files of the commit, its programs, and how it is named."""

import datetime
import functools
import hashlib
import os
import shutil
import subprocess
import tempfile

TOP = os.path.dirname(os.path.dirname(os.path.dirname(os.path.realpath(__file__))))
PROGRAMS = ("irpx", "irp_view", "irp_words", "irp_orders", "irp_live")


class Stop(Exception):
    """Why nothing can be released."""


def call(*words):
    """Returns what a command prints, run at the top."""
    made = subprocess.run(words, cwd=TOP, capture_output=True, text=True, check=False)
    if made.returncode:
        raise Stop(f"{' '.join(words[:2])} fails: {made.stderr.strip()}")
    return made.stdout


@functools.lru_cache
def files():
    """Returns the files of the repository, each with whether it is executable, in the order of their names."""
    found = {}
    for line in call("git", "ls-files", "--stage", "-z").split("\0"):
        if line:
            about, path = line.split("\t", 1)
            found[path] = about.startswith("100755")
    return dict(sorted(found.items()))


def bytes_of(path):
    with open(os.path.join(TOP, path), "rb") as it:
        return it.read()


def is_old(program):
    """Whether a file that the program is made of is newer than the program."""
    made = os.path.getmtime(program)
    parts = [it for it in files() if it.startswith("crates/") and "/must-fail/" not in it] + ["crates.txt"]
    return any(os.path.getmtime(f"{TOP}/{it}") > made for it in parts if os.path.exists(f"{TOP}/{it}"))


def place_of(name, is_proved):
    """Returns where a program stands: the proved one, or for a trial the one that the environment names, else another."""
    if not is_proved:
        named = os.environ.get(name.upper()) or f"{TOP}/out/{name}.unproved"
        if not os.access(named, os.X_OK):
            raise Stop(f"{named}: there is no such program; bin/program {name} quick builds it")
        return named
    proved = f"{TOP}/crates/{name}/out/{name}"
    if not os.access(proved, os.X_OK) or is_old(proved):
        raise Stop(f"{name} isn't proved, or isn't any more; bin/prove does that, and --unproved takes one for a trial")
    return proved


def program(name, is_proved):
    """Returns a program's bytes, without what is for debuggers: there stand names of the folder that it was built in."""
    with tempfile.TemporaryDirectory() as room:
        call("strip", "--strip-all", "-o", f"{room}/{name}", place_of(name, is_proved))
        return bytes_of(f"{room}/{name}")


class Release:
    """How a release is named, and when it was made: at the time of the commit, or of SOURCE_DATE_EPOCH."""

    def __init__(self, version, is_proved):
        self.is_proved = is_proved
        self.commit = call("git", "rev-parse", "HEAD").strip()
        self.time = int(os.environ.get("SOURCE_DATE_EPOCH") or call("git", "log", "-1", "--format=%ct"))
        self.is_changed = bool(call("git", "status", "--porcelain", "--untracked-files=no").strip())
        day = datetime.datetime.fromtimestamp(self.time, datetime.timezone.utc).strftime("%Y%m%d")
        self.version = version or f"0.{day}.{self.commit[:8]}" + ("+changed" if self.is_changed else "")
        self.version += "" if is_proved else "~unproved"

    def text(self, held):
        """Returns the file that says what an installed tree is. `held` are all its other files, by their places."""
        digest = hashlib.sha256()
        for place, bytes_there in sorted(held.items()):
            digest.update(place.encode() + b"\0" + hashlib.sha256(bytes_there).digest())
        commit = self.commit + (" and changes" if self.is_changed else "")
        kit = call("rt", "version").split("\n")[0] if shutil.which("rt") else "unknown"
        return (f"version {self.version}\ncommit {commit}\nkit {kit}\n"
                f"programs {'proved' if self.is_proved else 'not proved'}\nfiles {digest.hexdigest()}\n").encode()
