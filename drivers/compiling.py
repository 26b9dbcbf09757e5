"""Compiles C files. An object of a file of this folder is kept (folders.py says where), by the text that the preprocessor makes of it and
the words that it is compiled with: where both are as before, it is taken from there."""

import contextlib
import functools
import hashlib
import os
import shutil
import subprocess
import sys
import threading

import folders
import missing

HERE = os.path.dirname(os.path.abspath(__file__))
KEPT = folders.OUT + "/kept"
FILLS = ["-ftrivial-auto-var-init=pattern"]
MOST = 2000  # objects that are kept; of more the older half goes


class Stop(Exception):
    """What keeps the run from being made."""


def made_by(words, why):
    """Runs a command. Returns what became of it, and stops where it fails."""
    made = subprocess.run(words, capture_output=True, text=True, errors="replace", check=False)
    if made.returncode:
        sys.stderr.write(missing.listed(made.stderr))
    sys.stderr.write(made.stderr)
    if made.returncode:
        raise Stop(f"{why}: {words[0]} ended with status {made.returncode}")
    return made


def call(words, why):
    """Returns what a command prints."""
    return made_by(words, why).stdout


@functools.lru_cache
def version_of(compiler):
    return call([compiler, "--version"], f"{compiler} doesn't run")


@functools.lru_cache
def filling(compiler):
    """Returns flags by which variables that aren't set have a value, and what each byte of it is; or neither."""
    words = [compiler, *FILLS, "-x", "c", "-", "-fsyntax-only"]
    made = subprocess.run(words, input="", capture_output=True, text=True, check=False)
    return (FILLS, 0xAA if "clang" in version_of(compiler) else 0xFE) if not made.returncode else ([], None)


def kept_at(words, source):
    """Returns where an object is kept, or None where it isn't: beside one that counts lines the compiler leaves notes."""
    if not os.path.abspath(source).startswith(HERE + "/") or "--coverage" in words:
        return None
    made = subprocess.run([*words, "-E", source], capture_output=True, check=False)
    if made.returncode:
        return None
    all_of_it = "\0".join([version_of(words[0]), os.getcwd(), *words, ""]).encode() + made.stdout
    return f"{KEPT}/{hashlib.sha256(all_of_it).hexdigest()}.o"


def forget_old():
    """Takes away the older half of what is kept, where that is too much."""
    kept = [it for it in os.scandir(KEPT) if it.name.endswith(".o")]
    if len(kept) > MOST:
        with contextlib.suppress(FileNotFoundError):  # another process does the same
            for it in sorted(kept, key=lambda it: it.stat().st_mtime)[:len(kept) - MOST // 2]:
                os.remove(it.path)


def keep(made, kept):
    """Keeps an object: all of it at once, since others may read there."""
    os.makedirs(KEPT, exist_ok=True)
    part = f"{kept}.{os.getpid()}.{threading.get_ident()}"
    shutil.copyfile(made, part)
    os.replace(part, kept)
    forget_old()


def taken(kept, made):
    """Copies what is kept. Returns whether it was there."""
    try:
        shutil.copyfile(kept, made)
        os.utime(kept)
    except FileNotFoundError:
        return False
    return True


def compiled(words, source, made):
    """Compiles a source with these words, or takes what is kept of it. What a compiler warns of isn't kept."""
    kept = kept_at(words, source)
    if kept and taken(kept, made):
        return
    told = made_by([*words, "-c", source, "-o", made], f"{source} doesn't compile").stderr
    if kept and not told:
        keep(made, kept)
