#!/usr/bin/env python3
"""Compares sizes, offsets and constants of the host's headers with kit_layouts.txt, which has those of the driver kit on x64
as mingw-w64's headers have them: a line for each, `STRUCTURE MEMBER NUMBER`, where - stands for the size, or
`= CONSTANT NUMBER`.

Usage: kit_layouts.py [--kit]. Prints how many are equal, and each that isn't. What may differ is listed below, with the
reason. Ends with 0 where nothing else differs. --kit makes kit_layouts.txt anew, by x86_64-w64-mingw32-gcc."""

import os
import re
import subprocess
import sys
import tempfile

HERE = os.path.dirname(os.path.abspath(__file__))
TABLE = HERE + "/kit_layouts.txt"
HOST = [os.environ.get("CC", "cc"), "-fshort-wchar", "-D_GNU_SOURCE", f"-I{os.path.dirname(HERE)}/drivers/include"]
KIT = ["x86_64-w64-mingw32-gcc", "-isystem", "/usr/x86_64-w64-mingw32/include/ddk"]
HEADERS = ["ntifs", "ntddk", "ntstatus", "stddef"]
MAY_DIFFER = {
    "DEVICE_OBJECT.-": "the kit aligns it to 16, so it has 336 as here; mingw-w64 doesn't",
    "DRIVER_OBJECT.-": "the host's name and number stand behind it; no driver allocates one",
    "=.PO_FX_VERSION": "version 1, unless a driver asks for another",
}


def table():
    with open(TABLE, encoding="utf-8") as it:
        return [tuple(line.split()[:2]) + (int(line.split()[2]),) for line in it if line.strip()]


def expression(structure, member):
    if structure == "=":
        return f"(unsigned)(long long)({member})"
    return f"sizeof({structure})" if member == "-" else f"offsetof({structure}, {member})"


def values(words, wanted):
    """Returns the numbers by structure and member, of those that the headers have."""
    left = list(wanted)
    with tempfile.TemporaryDirectory() as room:
        source = room + "/layouts.c"
        while True:
            lines = [f"unsigned long long layout_{n} = {expression(a, b)};" for n, (a, b) in enumerate(left)]
            with open(source, "w", encoding="utf-8") as it:
                it.write("\n".join([*(f"#include <{it}.h>" for it in HEADERS), *lines]) + "\n")
            made = subprocess.run([*words, "-w", "-fmax-errors=0", "-S", "-o", room + "/made.s", source], capture_output=True,
                                  text=True, check=False)
            lacking = {int(it) - len(HEADERS) - 1 for it in re.findall(r"layouts\.c:(\d+):\d+: error", made.stderr)}
            if not made.returncode:
                break
            if not lacking:
                raise SystemExit(made.stderr)
            left = [it for n, it in enumerate(left) if n not in lacking]
        with open(room + "/made.s", encoding="utf-8") as it:
            found = {n: int(number) if kind == "quad" else 0 for n, kind, number in
                     re.findall(r"^layout_(\d+):\n\s*\.(quad|zero|space)\s+(\d+)", it.read(), re.M)}
    return {it: found[str(n)] for n, it in enumerate(left)}


def main():
    wanted = table()
    if sys.argv[1:] == ["--kit"]:
        made = values(KIT, [it[:2] for it in wanted])
        with open(TABLE, "w", encoding="utf-8") as it:
            it.writelines(f"{a} {b} {made[a, b]}\n" for a, b, _ in wanted if (a, b) in made)
        return 0
    made, wrong, equal = values(HOST, [it[:2] for it in wanted]), 0, 0
    for a, b, number in wanted:
        mine = made.get((a, b))
        equal += mine == number
        if mine != number:
            reason = MAY_DIFFER.get(a) or MAY_DIFFER.get(f"{a}.{b}")
            wrong += not reason
            print(f"{a}.{b}: {mine} here, {number} in Windows{f' ({reason})' if reason else ''}")
    print(f"{equal} of {len(wanted)} equal")
    return 1 if wrong else 0


if __name__ == "__main__":
    sys.exit(main())
