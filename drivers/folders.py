"""Where things stand. In a clone all that is built goes below it; where these files are installed, into a folder of the
user's, since nothing is written beside them."""

import hashlib
import os

HERE = os.path.dirname(os.path.abspath(__file__))
TOP = os.path.dirname(HERE)
RELEASE = TOP + "/release"  # a file that an installed tree has: a word and its value in each line


def release():
    """Returns what the file of an installed tree says, or nothing where this is a clone."""
    try:
        with open(RELEASE, encoding="utf-8") as it:
            return dict(line.rstrip("\n").split(" ", 1) for line in it if " " in line)
    except FileNotFoundError:
        return {}


def users_own():
    """Returns the user's folder for what is built of these files. Other files have another one: theirs have other times."""
    cache = os.environ.get("XDG_CACHE_HOME", "")
    if not os.path.isabs(cache):
        cache = os.path.expanduser("~/.cache")
    return f"{cache}/irp/{release().get('files', hashlib.sha256(HERE.encode()).hexdigest())[:12]}"


def below(folder):
    """Returns this folder of the clone, or the user's where nothing may be written there."""
    return users_own() if IS_INSTALLED or not os.access(os.path.dirname(folder), os.W_OK) else folder


IS_INSTALLED = os.path.exists(RELEASE)
OUT = below(HERE + "/out")
IRP = "irp" if IS_INSTALLED else "bin/irp"  # how messages name the command


def program(name):
    """Returns the program of this name that the environment names, or that is built or installed; or None."""
    named = [os.environ.get(name.upper()), f"{TOP}/crates/{name}/out/{name}", f"{TOP}/out/{name}.unproved",
             f"{TOP}/programs/{name}"]
    return next((it for it in named if it and os.access(it, os.X_OK)), None)
