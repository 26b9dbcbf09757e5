"""What stands where in an installed tree, below its prefix (/usr, for instance).

lib/irp mirrors the repository, so that the scripts find each other as in a clone; what no machine has its own of stands in
share/irp, and links lead there. The programs stand in lib/irp/programs."""

import gzip
import importlib.machinery
import importlib.util
import os
import re
import subprocess
import tempfile

import answers
import repository
from packing import File
from repository import TOP, bytes_of

LIB, SHARE, DOC = "lib/irp", "share/irp", "share/doc/irp"
# Scripts of bin/ that are for who changes the repository.
OURS = ("bin/edits", "bin/irp_bench", "bin/links", "bin/prove", "bin/ratios", "bin/release", "bin/test")
COMPLETIONS = {"bash": "share/bash-completion/completions/irp", "zsh": "share/zsh/vendor-completions/_irp"}


def scripts():
    """Returns the scripts of an installed tree, and the modules that they import, and those that these import."""
    found = [it for it in repository.files() if it in ("drivers/run", "lessons/check", "lessons/grade", "lessons/slides")
             or it.startswith("bin/") and it.count("/") == 1 and it not in OURS or it.startswith("page/")
             or it.startswith("tests/player/") and not it.endswith(("/test.py", ".md"))]
    for path in found:  # which grows meanwhile
        for name in re.findall(r"(?m)^(?:import|from) (\w+)", bytes_of(path).decode()):
            found += [it for it in (f"drivers/{name}.py", f"bin/{name}.py", f"page/{name}.py") if it in repository.files() and it not in found]
    return set(found)


def is_of_host(path):
    """Whether drivers in C are built or recorded with this file."""
    return path.startswith(("drivers/host/", "drivers/include/", "drivers/recorder/")) or path in (
        "drivers/recorder.h", "drivers/drivers.mk", "drivers/drivers.cmake")


def place_of(path, its_scripts):
    """Returns the places of a file of the repository: one or none."""
    if answers.is_answer(path):
        return []
    if path.endswith(".md") and path.startswith(("README", "docs/", "drivers/")) or path.startswith("docs/pictures/"):
        return [f"{DOC}/{path}"]
    if path.startswith(("lessons/", "examples/", "schema/", "drivers/samples/")):
        return [f"{SHARE}/{path}"]
    return [f"{LIB}/{path}"] if path in its_scripts or is_of_host(path) else []


def module(path):
    """Returns a script of the repository as a module."""
    name = os.path.basename(path)
    loader = importlib.machinery.SourceFileLoader(name, f"{TOP}/{path}")
    made = importlib.util.module_from_spec(importlib.util.spec_from_loader(name, loader))
    loader.exec_module(made)
    return made


def manual():
    """Returns the manual pages, and the files that `bin/man` reads help in."""
    tree = {}
    with tempfile.TemporaryDirectory() as room:
        repository.call("bin/man", "--write", room)
        for page in sorted(os.listdir(room)):
            tree[f"share/man/man1/{page}.gz"] = File(gzip.compress(bytes_of(f"{room}/{page}"), mtime=0))
    for text in module("bin/man").HELPS.values():
        if isinstance(text, str):
            tree[f"{LIB}/{text}"] = File(bytes_of(text))
    return tree


def completions():
    """Returns what completes words of `irp`, where `bin/completions` prints that."""
    tree = {}
    for shell, place in COMPLETIONS.items():
        if "bin/completions" in repository.files():
            made = subprocess.run([TOP + "/bin/completions", shell], capture_output=True, check=False)
            if made.returncode == 0 and made.stdout:
                tree[place] = File(made.stdout)
    return tree


def links():
    tree = {f"{LIB}/{it}": f"../../{SHARE}/{it}" for it in ("lessons", "examples", "schema")}
    tree |= {f"{DOC}/{it}": f"../../irp/{it}" for it in ("lessons", "examples")}
    tree["bin/irp"], tree["bin/irpx"] = f"../{LIB}/bin/irp", f"../{LIB}/programs/irpx"
    return {place: File(link=to) for place, to in tree.items()}


def made(release):
    """Returns the whole tree, by places below the prefix."""
    its_scripts = scripts()
    tree = {place: File(bytes_of(path), is_program) for path, is_program in repository.files().items()
            for place in place_of(path, its_scripts)}
    for name in repository.PROGRAMS:
        tree[f"{LIB}/programs/{name}"] = File(repository.program(name, release.is_proved), True)
    tree |= manual() | completions() | links() | {f"{SHARE}/{answers.WHYS}": answers.whys()}
    tree[f"{LIB}/release"] = File(release.text({place: it.data for place, it in tree.items()}))
    return dict(sorted(tree.items()))
