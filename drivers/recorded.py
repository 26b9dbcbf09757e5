"""Completes FILE.places, what the host leaves beside a transcript (docs/FORMATS.md): lines in place of addresses, the lines of
source that it names, and how the run ended."""

import json
import os

import places

# What the other voices of a page say: it needs no second word.
SAID_ELSEWHERE = ("faults", "refused calls: ")


def read(path):
    with open(path, encoding="utf-8", errors="replace") as it:
        return it.read()


def named_places(lines):
    """Returns the files and lines that a record names, as pairs."""
    found = set()
    for line in lines:
        for by in (line.get("by", {}), *line.get("asked", [])):
            if "file" in by:
                found.add((by["file"], by["line"]))
        if "switch" in line:
            for at in (line["at"], line["next"]):
                file, _, number = at["where"].partition(" ")[0].rpartition(":")
                found.add((file, int(number)) if number.isdigit() else ("", 0))
    return found


def quoted(lines, sources):
    """Returns the lines of these sources that a record names, by their files' names and their numbers."""
    of_name, found = {os.path.basename(it): it for it in sources}, {}
    texts = {}
    for file, number in sorted(named_places(lines)):
        if file not in of_name:
            continue
        if file not in texts:
            texts[file] = read(of_name[file]).split("\n")
        if 0 < number <= len(texts[file]):
            found.setdefault(file, {})[str(number)] = texts[file][number - 1].strip()
    return found


def complete(path, program, sources, run):
    """Completes the record beside a transcript. `run` has how the run ended: `complaints`, the refusals that its test has
    `expected`, how it is made `again`, and a `title`."""
    if not os.path.exists(path + ".places"):
        return
    text = read(path + ".places")
    if "+0x" in text:
        text = places.with_lines(text, program)
    try:
        lines = [json.loads(it) for it in text.splitlines()]
    except ValueError:
        return
    more = [{"sources": quoted(lines, sources)}, {"run": run}]
    with open(path + ".places", "w", encoding="utf-8") as out:
        out.write(text + "".join(json.dumps(it, separators=(",", ":"), sort_keys=True) + "\n" for it in more))


def told_here(complaints, verdict):
    """Returns the complaints that no other voice says."""
    return [it for it in complaints if it != verdict and not it.startswith(SAID_ELSEWHERE)]
