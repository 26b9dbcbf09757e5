"""Gives `irpx check` and `irp_view why` texts of up to a million lines, which they read block after block: refused lines in
each block and at a block's edge, cut lines, entries that aren't legal before a line that is refused, no newline at all.
What is told is worked out from the text. `irp_view text` and `packet` show such texts: the same is looked for, and that
they take no more memory for a long text.

Usage: long_texts.py IRPX IRP_VIEW. It prints a line for each answer that was wrong, and one that counts them all.
"""

import re
import subprocess
import sys
import tempfile
from typing import NamedTuple

# How many rounds most texts have, and how many some.
ROUNDS = 50_000
MANY_ROUNDS = 500_000
# How many bytes the programs read at once, and a fourth of them.
BLOCK = 262_144
PART = 65_536
HEADER = b'{"cancels":[],"completions":[0,0,0,0,0],"dispatches":[],"drivers":[[]],"form":1,"locks":1,"seats":1}\n'
# A packet is allocated and freed again.
ROUND = (
    '{"asked":[],"call":{"do":"allocate","size":1},"n":%d,"reply":{"irp":[0,%d]},"seat":0}\n'
    '{"asked":[],"call":{"do":"free","irp":[0,%d]},"n":%d,"reply":"done","seat":0}\n'
)
# What `irp_view text` prints of a round.
SHOWN = "%4d  IoAllocateIrp(1 location) -> IRP 0.%d\n%4d  IoFreeIrp(IRP 0.%d)\n"
# As much memory as it may take, in KiB.
MOST_MEMORY = 65_536
# Runs a program, and tells on standard error how much it took. A child of a small process: what its parent has counts.
MEASURED = """import resource, subprocess, sys
status = subprocess.run(sys.argv[1:]).returncode
print(resource.getrusage(resource.RUSAGE_CHILDREN).ru_maxrss, file=sys.stderr)
sys.exit(status)"""
# A word line, and what is printed of it, below the heading of them all.
WORD = b'{"do":"acquire","lock":0,"reply":{"status":0},"seat":0,"step":4,"tag":1}\n'
SHOWN_WORD = "    step 4  seat 0: IoAcquireRemoveLock(remove lock 0, tag 1) -> STATUS_SUCCESS\n"
HEADING = "Steps on remove locks and cancel slots:\n"


class Text(NamedTuple):
    """A text, and what `check` tells of it: `line K`, `legal K` or `illegal I`."""

    name: str
    whole: bytes
    told: str


def legal_text(rounds):
    """Returns a text of so many rounds, which is legal."""
    return HEADER + "".join(ROUND % (2 * n, n + 1, n + 1, 2 * n + 1) for n in range(rounds)).encode()


def line_at(text, place):
    """Returns the number, from 1, of the line in which this byte stands, and where that begins."""
    return text.count(b"\n", 0, place) + 1, text.rfind(b"\n", 0, place) + 1


def spoiled(text, places):
    """Returns the text with a byte that is no text in each of these places."""
    new = bytearray(text)
    for place in places:
        new[place] = 0xFF
    return bytes(new)


def with_number(text, place):
    """Returns the text where the entry in which this byte stands has another number, and the entry's number."""
    line, start = line_at(text, place)
    found = re.compile(rb'"n":\d').search(text, start)
    new = bytearray(text)
    new[found.end() - 1] ^= 1
    return bytes(new), line - 2


def refused_texts(text):
    """Yields texts with lines that are refused."""
    edges = range(BLOCK, len(text), BLOCK)
    for first in (0, len(edges) // 2, len(edges) - 1):
        line, _ = line_at(text, edges[first] + 100)
        places = [edge + 100 for edge in edges[first:]]
        yield Text(f"a refused line in each block from block {first + 1} on", spoiled(text, places), f"line {line}")
    for edge in (PART, edges[0], edges[1] + PART, edges[-1]):
        for place in (edge - 1, edge, edge + 1):
            yield Text(f"byte {place} spoiled", spoiled(text, [place]), f"line {line_at(text, place)[0]}")
    yield Text("no newline at all", text.replace(b"\n", b" "), "line 1")
    lines = text.count(b"\n")
    yield Text("no last newline", text[:-1], f"line {lines}")
    yield Text("empty lines alone", HEADER + b"\n" * 1_000_000, "line 2")
    yield Text("a second header", text + HEADER, f"line {lines + 1}")
    yield Text("an entry behind a word line", text + WORD + text[line_at(text, len(text) - 1)[1] :], f"line {lines + 2}")


def judged_texts(text):
    """Yields texts with entries that aren't legal, some before a line that is refused."""
    edges = range(BLOCK, len(text), BLOCK)
    entries = text.count(b"\n") - 1
    yield Text("a legal text", text, f"legal {entries}")
    yield Text("a word line behind", text + WORD, f"legal {entries}")
    for edge in (edges[0], edges[-1]):
        illegal, number = with_number(text, edge)
        yield Text(f"an illegal entry at byte {edge}", illegal, f"illegal {number}")
        for place in (edge + 300, len(text) - 2):
            told = f"line {line_at(text, place)[0]}"
            yield Text(f"the same before a refused line at byte {place}", spoiled(illegal, [place]), told)
    # Each hundredth line is written in another way, which takes longer to read.
    lines = text.splitlines(keepends=True)
    lines[100::100] = [line.replace(b":", b": ") for line in lines[100::100]]
    yield Text("lines written in another way", b"".join(lines), f"legal {entries}")


def texts():
    """Yields all texts."""
    text = legal_text(ROUNDS)
    yield from refused_texts(text)
    yield from judged_texts(text)
    text = legal_text(MANY_ROUNDS)
    middle = len(text) // 2
    places = range(middle, len(text), BLOCK)
    illegal, _ = with_number(text, middle)
    told = f"line {line_at(text, middle)[0]}"
    yield Text("a million entries", text, f"legal {2 * MANY_ROUNDS}")
    yield Text("a refused line in each block of the second half of a million", spoiled(text, places), told)
    yield Text("a million entries, one illegal, no last newline", illegal[:-1], f"line {2 * MANY_ROUNDS + 1}")


def checked(irpx, file):
    """Returns what `irpx check` tells of a text."""
    ran = subprocess.run([irpx, "check"], stdin=file, capture_output=True, text=True, timeout=600)
    said = ran.stdout + ran.stderr
    return said.removeprefix("irpx: transcript refused: ").rstrip("\n")


def why(irp_view, file):
    """Returns what `irp_view why` tells of a text, in the words of `irpx check`."""
    ran = subprocess.run([irp_view, "why"], stdin=file, capture_output=True, text=True, timeout=600)
    for form, words in (
        (r"nothing is wrong: (\d+) entries, legal\n", "legal"),
        (r"entry (\d+)\b", "illegal"),
        (r"irp: transcript refused: line (\d+)\b", "line"),
    ):
        found = re.match(form, ran.stdout + ran.stderr)
        if found:
            return f"{words} {found[1]}"
    return ran.stdout + ran.stderr


def shown(first, last):
    """Returns what is printed of the entries of such rounds from one number up to, and without, another."""
    lines = "".join(SHOWN % (2 * n, n + 1, 2 * n + 1, n + 1) for n in range(first // 2, (last + 1) // 2)).splitlines(True)
    skipped = first % 2
    return "".join(lines[skipped : skipped + last - first])


def listings():
    """Yields what is asked of which text, what has to be printed, and the line that is refused, if one is."""
    text = legal_text(MANY_ROUNDS)
    entries = 2 * MANY_ROUNDS
    late, _ = line_at(text, len(text) - 1000)
    refused = spoiled(text, [len(text) - 1000])
    yield "a million entries", ["text"], text, shown(0, entries), None
    yield "a million, some chosen", ["text", "--entries", "999..500001"], text, shown(999, 500_001), None
    yield "a million, a packet", ["packet", "0", "250000"], text, shown(499_998, 500_000), None
    yield "a line refused late", ["text"], refused, shown(0, late - 2), late
    yield "the same behind those chosen", ["text", "--entries", "5..9"], refused, shown(5, 9), late
    yield "the same, a packet", ["packet", "0", "7"], refused, shown(12, 14), late
    yield "no last newline", ["text"], text[:-1], shown(0, entries - 1), entries + 1
    words = legal_text(1) + WORD * 1_000_000
    steps = shown(0, 2) + HEADING + SHOWN_WORD * 1_000_000
    yield "a million word lines", ["text"], words, steps, None
    yield "a line refused behind them", ["text"], words + b"!\n", steps, 1_000_004
    yield "a million word lines, some entries", ["text", "--entries", "1.."], words, shown(1, 2), None


def fault_of_listing(irp_view, words, text, wanted, line):
    """Returns what is wrong with what `irp_view` prints and how it ends, or None."""
    with tempfile.TemporaryFile() as file, tempfile.TemporaryFile() as output, tempfile.TemporaryFile() as errors:
        file.write(text)
        file.seek(0)
        ran = subprocess.run([sys.executable, "-c", MEASURED, irp_view, *words], stdin=file, stdout=output, stderr=errors)
        output.seek(0)
        errors.seek(0)
        *lines, memory = errors.read().decode().splitlines()
        told = "".join(lines)
        if output.read().decode() != wanted:
            return "other entries are shown"
    if ran.returncode != (1 if line else 0):
        return f"status {ran.returncode}"
    if not told.startswith(f"irp: transcript refused: line {line}" if line else "") or bool(told) != bool(line):
        return f"tells {told!r}"
    if int(memory) > MOST_MEMORY:
        return f"took {memory} KiB"
    return None


def main():
    irpx, irp_view = sys.argv[1:3]
    tried = wrong = 0
    for name, words, text, wanted, line in listings():
        fault = fault_of_listing(irp_view, words, text, wanted, line)
        tried += 1
        if fault:
            wrong += 1
            print(f"failed: long texts: {name}, {' '.join(words)}: {fault}")
    for name, whole, told in texts():
        with tempfile.TemporaryFile() as file:
            file.write(whole)
            for ask, program in ((checked, irpx), (why, irp_view)):
                file.seek(0)
                answer = ask(program, file)
                tried += 1
                if answer != told:
                    wrong += 1
                    print(f"failed: long texts: {name}: {ask.__name__} tells {answer}, not {told}")
    print(f"tried: {tried} {wrong} long texts")
    return 1 if wrong else 0


if __name__ == "__main__":
    sys.exit(main())
