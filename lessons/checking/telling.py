"""What a student reads of what a run told: few lines, statuses by name, and no remedy."""

import functools
import os
import re

TOP = os.path.dirname(os.path.dirname(os.path.dirname(os.path.abspath(__file__))))
MOST_LINES = 3
STATUS = r"\bstatus(?:es)?|returned|returns|return|with|gets|ended with"
# What says how the mistake is mended: the lesson asks for that.
REMEDIES = [r"\.? Remedy: .*?(?= \[before|$)",
            r" \((?!0x|rules? |memory freed|somebody|used |its use|nobody)(?:[^()]|\((?:[^()]|\([^()]*\))*\))*\)(?=: \S+\.c:)",
            r"[:;,] (?:call|set|take|use|give|free|complete|mark) (?=\w+)[^\[]*(?= \[before)", r"\. if \(Irp->Cancel .*?complete it",
            r" \(rules? [^()]*\)", r" \(no stop code\)"]


@functools.lru_cache(maxsize=None)
def names():
    """Returns the name of each status, by its value."""
    with open(f"{TOP}/drivers/include/wdm_status.h", encoding="utf-8") as it:
        found = re.findall(r"#define (STATUS_\w+) \(\(NTSTATUS\)(0x[0-9A-Fa-f]+)\)", it.read())
    return {int(value, 16): name for name, value in reversed(found)}


def named(line):
    """Returns a line with names in place of statuses' values."""
    known = names()
    by_value = lambda it: known.get(int(it[0], 16), it[0])
    line = re.sub(r"\b0x[89a-fA-F][0-9a-fA-F]{7}\b|\b0x10[0-9a-f]\b", by_value, line)
    return re.sub(rf"({STATUS}) (0x[0-9a-f]+|\d+)\b(?![.:])",
                  lambda it: f"{it[1]} {known.get(int(it[2], 0), it[2])}", line)


def without_remedy(line):
    """Returns a line without what says how the mistake is mended."""
    for text in REMEDIES:
        line = re.sub(text, "", line)
    return line


def kind_of(line):
    """Returns a line without its numbers, but for those of lines: two packets may have the same fault at one place."""
    return re.sub(r"(?<!\.c:)\b\d+(\.\d+)*\b", "", line)


def told(said, most=MOST_LINES):
    """Returns what is shown of a run's output: its first faults and the order that was taken."""
    lines = [it for it in said.splitlines() if not it.startswith(("transcript ", "read it ", "why  "))]
    found = {}
    for it in lines:
        if re.search("FAULT|STOPPED", it) and " at the same place" not in it:
            found.setdefault(kind_of(it), it)
    kept = list(found.values())
    order = [it for it in lines if it.startswith(("schedule:", "again with"))]
    again = {m[1]: m[2] for m in re.finditer(r"FAULT (\w+) (\d+) times at the same place", said)}
    shown = [named(without_remedy(it)) for it in kept[:most]] or lines[-most:]
    more = len(kept) - most
    shown += [f".. and {more} more" if more > 0 else ""] + [f"({rule} {times} times at one place)" for rule, times in
                                                            list(again.items())[:1]]
    return "\n".join(it for it in shown + order if it)
