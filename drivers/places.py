"""Puts files and lines in place of the addresses that the host tells."""

import os
import re
import shutil
import subprocess

import host_files


MOST_CALLS = 3  # so many of a chain are told
ADDRESS = r"\+0x[0-9a-f]+ in [^\s,;:()\"]+"


def read_lines(program, addresses):
    """Returns the calls at each address, the innermost first: where functions are inlined there are several. Each is a
    function and its file and line; none where `addr2line` can't tell them."""
    tool = shutil.which("addr2line")
    if not addresses or not tool:
        return {}
    made = subprocess.run([tool, "-a", "-f", "-i", "-e", program, *addresses], capture_output=True, text=True,
                          check=False)
    known = {}
    for block in re.findall(r"^0x[0-9a-f]+\n(?:(?!0x).*\n)*", made.stdout, re.M):
        address, *pairs = block.splitlines()
        calls = [(function, line.split(" ")[0]) for function, line in zip(pairs[::2], pairs[1::2])]
        known[int(address, 16)] = [] if "?" in calls[0][1] else calls
    return known


def with_lines(said, program):
    """Returns what the host said, with file and line in place of each address of the program (`+0x12ab in F`), without
    the calls of the host itself. Of who called a function, what that function is inlined into is left out."""
    known = read_lines(program, sorted(set(re.findall(r"\+0x([0-9a-f]+) in ", said))))

    def tell_chain(it):
        found, theirs = [], []
        for address in re.findall(r"\+0x([0-9a-f]+)", it["chain"]):
            for function, line in known.get(int(address, 16), []):
                (found if line.startswith(host_files.HOST + "/") else theirs).append((os.path.basename(line), function))
        functions = [function for _, function in theirs]
        if it["own"] in functions:
            theirs = theirs[functions.index(it["own"]) + 1:]
        if not it["lead"].startswith(", called"):
            theirs = theirs or found
        calls = [f"{line} in {function}" for line, function in theirs[:MOST_CALLS]]
        if known and not calls and not it["lead"]:
            calls = [re.sub(r"^\+\S+ (in [^,]+).*", r"\1", it["chain"])]
        return (it["own"] or "") + (it["lead"] + ", called at ".join(calls) if calls else "" if known else it[0])

    chain = rf"(?P<chain>{ADDRESS}(?:, called at {ADDRESS})*)"
    return re.sub(rf"(?P<own>(?<= in )\w+)?(?P<lead>, called at |, at |; now at |){chain}", tell_chain, said)
