"""Tells which functions a driver's sources put into pageable sections: by `#pragma alloc_text`, or between two of
`#pragma code_seg`. The host has their names by a table of the program (host/rules/pageable.c)."""

import os
import re
import subprocess

PRAGMA = re.compile(r"#\s*pragma\s+(alloc_text|code_seg)\s*\(([^()]*)\)")
LOCKS = re.compile(r"\bMm(Lock\w*Code|Lock\w*Section|ResetDriverPaging|PageEntireDriver)")
TEXT = re.compile(r'"(?:\\.|[^"\\\n])*"|' r"'(?:\\.|[^'\\\n])*'")
FUNCTION = re.compile(r"(\w+)\s*\((?:[^(){}]|\([^(){}]*\))*\)\s*$")


# A function that makes no call of the host's says that it ran.
FLAGS = ["-finstrument-functions", f"-finstrument-functions-exclude-file-list={os.path.dirname(os.path.abspath(__file__))}/include/"]


def is_paged(section):
    return section.strip(' "').upper().startswith("PAGE")


def preprocessed(compiler, flags, source):
    made = subprocess.run([compiler, *flags, "-E", "-w", source], capture_output=True, text=True, errors="replace", check=False)
    return made.stdout


class Segments:
    """The section that `#pragma code_seg` names at a place."""

    def __init__(self):
        self.now, self.below = "", []

    def take(self, words):
        """Reads what stands between the pragma's parentheses: `push` and `pop` with or without a name, or a section."""
        given = [it.strip() for it in words.split(",") if it.strip()]
        if "push" in given:
            self.below.append(self.now)
        elif "pop" in given:
            self.now = self.below.pop() if self.below else ""
        named = [it.strip('"') for it in given if it.startswith('"')]
        if named or not given:
            self.now = named[0] if named else ""


def defined_in(text, segments):
    """Returns the functions that are defined in a text, where the section is pageable."""
    found, depth, head = set(), 0, ""
    for part in re.split(r"([{};])", TEXT.sub('""', text)):
        if part == "{":
            named = FUNCTION.search(head) if depth == 0 else None
            if named and is_paged(segments.now):
                found.add(named[1])
            depth += 1
        elif part == "}":
            depth -= 1
        head = part if part not in "{};" else ""
    return found


def functions_of(text):
    """Returns the names of the functions that a preprocessed source puts into pageable sections."""
    found, segments, at = set(), Segments(), 0
    for pragma in PRAGMA.finditer(text):
        found |= defined_in(text[at:pragma.start()], segments)
        at = pragma.end()
        section, _, names = pragma[2].partition(",")
        if pragma[1] == "code_seg":
            segments.take(pragma[2])
        elif is_paged(section):
            found |= set(re.findall(r"\w+", names))
    return found | defined_in(text[at:], segments)


def rows(compiler, flags, files):
    """Returns a driver's pageable functions, each with its file. A driver that locks code itself has none that is known."""
    texts = {}
    for file in files:
        with open(file, encoding="utf-8", errors="replace") as it:
            texts[file] = it.read()
    if any(LOCKS.search(it) for it in texts.values()):
        return []
    return [(file, name) for file, text in texts.items() if PRAGMA.search(text)
            for name in sorted(functions_of(preprocessed(compiler, flags, file)))]
