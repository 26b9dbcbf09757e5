"""Tells what of the drivers' code never ran: by the compiler's own counts (gcov), and by what the host has recorded.

With gcc each function and line of a driver has a count, which `gcov` reads. Where the compiler's counts can't be read,
that is said."""

import glob
import json
import os
import re
import subprocess

HERE = os.path.dirname(os.path.abspath(__file__))
# Without the second a function that is inlined everywhere has no count; without the third a hook sees each count.
FLAGS = ["--coverage", "-fno-early-inlining", "-fprofile-update=atomic"]
LINK_FLAGS = ["--coverage", "-Wl,-u,__gcov_dump"]


def is_able(compiler):
    """Whether the compiler counts, and `gcov` reads what it counts."""
    made = subprocess.run([compiler, "--version"], capture_output=True, text=True, check=False)
    return made.returncode == 0 and "clang" not in made.stdout and reader(compiler) is not None


def reader(compiler):
    """Returns the `gcov` of this compiler, or None."""
    made = subprocess.run([compiler, "-print-prog-name=gcov"], capture_output=True, text=True, check=False)
    tool = made.stdout.strip()
    tried = subprocess.run([tool, "--version"], capture_output=True, check=False) if tool else None
    return tool if tried and tried.returncode == 0 else None


def forget(folder):
    """Takes the counts of an earlier run away, and what it compiled may have counted."""
    for path in (it for kind in ("gcda", "gcno") for it in glob.glob(f"{folder}/**/*.{kind}", recursive=True)):
        os.remove(path)


class Function:
    """A function of a driver, and how often it ran."""

    def __init__(self, name, line, count):
        self.name, self.line, self.count = name, line, count


class File:
    """What ran of one source file. A file may be counted in several parts."""

    def __init__(self, path):
        self.path, self.functions, self.lines = path, {}, {}

    def add(self, counted):
        for it in counted["functions"]:
            name = it["name"].split(".")[0]
            known = self.functions.setdefault(name, Function(name, it["start_line"], 0))
            known.count += it["execution_count"]
        for it in counted["lines"]:
            self.lines[it["line_number"]] = self.lines.get(it["line_number"], 0) + it["count"]

    def place(self, line):
        return f"{os.path.basename(self.path)}:{line}"


def is_a_drivers(path):
    """Whether a source file isn't one of the interface, of the host or of the system."""
    return not os.path.abspath(path).startswith((HERE + "/include/", HERE + "/host/", "/usr/"))


def read(compiler, folder):
    """Returns the files that were counted, the host's and the interface's left out."""
    notes = sorted(glob.glob(f"{folder}/parts/*.gcno"))
    words = [reader(compiler), "--json-format", "--stdout", *notes]
    made = subprocess.run(words, capture_output=True, text=True, cwd=folder, check=False)
    files = {}
    for text in made.stdout.splitlines():
        at = json.loads(text)
        for it in at["files"]:
            path = os.path.join(at["current_working_directory"], it["file"])
            if is_a_drivers(path):
                files.setdefault(path, File(path)).add(it)
    return [files[it] for it in sorted(files)]


def ranges(numbers):
    """Returns `3-5, 9` for 3, 4, 5, 9."""
    found = []
    for n in sorted(numbers):
        if found and found[-1][1] == n - 1:
            found[-1][1] = n
        else:
            found.append([n, n])
    return ", ".join(str(a) if a == b else f"{a}-{b}" for a, b in found)


def functions_told(files):
    """Returns the functions that never ran, with their places."""
    return [f"{it.name} ({file.place(it.line)})" for file in files
            for it in sorted(file.functions.values(), key=lambda it: it.line) if not it.count and it.name != "main"]


def tell_lines(compiler, folder, is_counted):
    """Prints which lines never ran in any order, or that it isn't known."""
    unknown = f"what never ran isn't known: {compiler} keeps no counts that gcov reads"
    for line in lines_told(read(compiler, folder)) if is_counted else [unknown]:
        print(line)


def lines_told(files):
    """Returns a line for each file: which of its lines never ran."""
    found = []
    for file in files:
        missed = [n for n, count in file.lines.items() if not count]
        found.append(f"lines       {file.place(ranges(missed)) if missed else os.path.basename(file.path) + ': all'} "
                     f"({len(missed)} of {len(file.lines)} never ran)")
    return found
