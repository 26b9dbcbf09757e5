"""The control codes that drivers may know, by their source: what CTL_CODE makes of macros, their own over it too, in enums and
tables; what a `case` or a comparison names; and numbers of that size."""

import os
import re
import subprocess
import tempfile

MOST_CODES = 200
NUMBER = re.compile(r"\b0[xX][0-9a-fA-F]{5,8}\b")
MARK = "wdm_ctl_code"
MARKED = f"#include <wdm.h>\n#undef CTL_CODE\n#define CTL_CODE(device, function, method, access) {MARK}(device, function, method, access)\n"
NAMED = r"((?!STATUS_)[A-Za-z_]\w*(?:\([^()]*\))?)"  # a macro or an enum's constant, or a macro with its arguments
OWN_INTERNAL = re.compile(r"\[\s*IRP_MJ_INTERNAL_DEVICE_CONTROL\s*\]\s*=")
TAKEN = re.compile(r"\bObReferenceObjectByHandle\s*\(\s*([^,;]+?)\s*,")
STRUCTURE = re.compile(r"\bstruct\b(?:\s*__attribute__\s*\(\(.*?\)\))?\s*(\w*)\s*\{((?:[^{}]|\{[^{}]*\})*)\}"
                       r"(?:\s*__attribute__\s*\(\(.*?\)\))?\s*(\w*)")
MEMBER = re.compile(r"\b(\w+)\s+(\w+)\s*(?:\[[^\]]*\])?\s*;")
HERE = os.path.dirname(os.path.abspath(__file__))
TIMES = 4  # that a source is compiled at most: each time without what isn't constant


def candidates(compiler, flags, sources):
    """Returns the control codes that may stand in the sources, each with its name, or None."""
    found = {}
    for source in sources:
        with open(source, encoding="utf-8", errors="replace") as it:
            text = it.read()
        for code, name in values(compiler, flags, source, expressions(compiler, flags, source, text)):
            if found.get(code) is None:
                found[code] = name
        for code in NUMBER.findall(text):
            found.setdefault(int(code, 16), None)
    may_be = [it for it in found if 1 << 16 < it < 1 << 32 and it >> 16 != 0xC000]
    return {it: found[it] for it in sorted(may_be, key=lambda it: found[it] is None)[:MOST_CODES]}


def read_codes(sources):
    """Whether a source looks at a control's code."""
    for source in sources:
        with open(source, encoding="utf-8", errors="replace") as it:
            if "IoControlCode" in it.read():
                return True
    return False


def internals(sources):
    """Returns whether internal controls may be sent to drivers that have a dispatch of their own for them, as "1" or "0": not
    where a structure of the sender's comes with each. None where no driver has one."""
    texts = []
    for source in sources:
        with open(source, encoding="utf-8", errors="replace") as it:
            texts.append(it.read())
    if not any(OWN_INTERNAL.search(it) for it in texts):
        return None
    return "0" if any("Others.Argument" in it for it in texts) else "1"


def handles(compiler, flags, sources):
    """Returns where a source may take an object by a handle that no call of its own has given it, but one that it is sent: of
    each structure of its own with a HANDLE its length and the handle's place, `12:4,`. "0" where it has none, None where it
    takes no such object."""
    if not any(takes_handles(it) for it in sources):
        return None
    found = {row for it in sources for row, _ in values(compiler, flags, it, members(compiler, flags, it))}
    return "".join(f"{it >> 16}:{it & 0xFFFF}," for it in sorted(found)) or "0"


def takes_handles(source):
    with open(source, encoding="utf-8", errors="replace") as it:
        text = it.read()
    for handle in TAKEN.findall(text):
        own = re.sub(r"^\(\s*HANDLE\s*\)", "", handle).strip()
        if not re.search(rf"\b(?:Ps|Zw|Nt|Io|Ob)\w+\s*\([^;]*&\s*\(?\s*{re.escape(own)}\s*\)?\s*[,)]", text):
            return True
    return False


def members(compiler, flags, source):
    """Returns for each HANDLE in a structure of a source, or of a header beside it, what its size and place are as one number."""
    words = [compiler, *flags, "-E", source]
    said = subprocess.run(words, capture_output=True, text=True, errors="replace", check=False).stdout
    own, inside = "", {"HANDLE": [""]}
    for file, text in re.findall(r'^# \d+ "([^"]*)".*\n((?:(?!# ).*\n)*)', said, re.M):
        own += "" if file.startswith(("<", "/usr/", HERE + "/include/")) else text
    for tag, body, name in STRUCTURE.findall(own):
        inside[tag] = inside[name] = [f"{member}{'.' * bool(rest)}{rest}" for kind, member in MEMBER.findall(body)
                                      for rest in inside.get(kind, [])]
    rows = ((f"struct {tag}" if tag else name, member) for tag, _, name in STRUCTURE.findall(own) for member in inside[tag or name])
    return {f"sizeof({its}) << 16 | __builtin_offsetof({its}, {member})": member for its, member in rows}


def expressions(compiler, flags, source, text):
    """Returns what may be a control code in a source, and its name, or None: first what has a name."""
    with tempfile.TemporaryDirectory() as room:
        with open(room + "/marked.h", "w", encoding="ascii") as it:
            it.write(MARKED)
        words = [compiler, *flags, "-E", "-dD", "-include", room + "/marked.h", source]
        said = subprocess.run(words, capture_output=True, text=True, errors="replace", check=False).stdout
    bodies = dict(re.findall(r"^#define (\w+)(.*)$", said, re.M))
    after = re.sub(r"^#.*$", "", said, flags=re.M)
    named = [it for it in sorted(set(re.findall(r"\w+", text))) if leads_to_codes(it, bodies, set())]
    named = [it for it in named if not bodies[it].startswith("(")]
    named += re.findall(rf"\bcase\s+{NAMED}\s*:", text) + re.findall(rf"[=!]=\s*{NAMED}", text)
    found = {it: it for it in named}
    of_cases = re.findall(r"\bcase\s+([^:?;{}\"]+?)\s*:", after)
    for it, is_marked in [*((it, True) for it in marked(after)), *((it, False) for it in of_cases)]:
        words = " ".join(it.replace(MARK, "CTL_CODE").split())
        found.setdefault(words, words if is_marked else None)
    return found


def leads_to_codes(name, bodies, seen):
    """Whether a macro is made of CTL_CODE, by others too."""
    if name in seen or name not in bodies or name == "CTL_CODE":
        return False
    seen.add(name)
    used = re.findall(r"[A-Za-z_]\w*", bodies[name])
    return "CTL_CODE" in used or any(leads_to_codes(it, bodies, seen) for it in used)


def marked(text):
    """Returns what stands for CTL_CODE in a preprocessed source, with its arguments."""
    found = []
    for start in (it.start() for it in re.finditer(rf"\b{MARK}\s*\(", text)):
        depth, end = 0, start
        for end in range(text.index("(", start), len(text)):
            depth += {"(": 1, ")": -1}.get(text[end], 0)
            if not depth:
                break
        found.append(text[start:end + 1])
    return found


def values(compiler, flags, source, named):
    """Returns the values of those expressions that are constant, each with its name."""
    left = list(named)
    with tempfile.TemporaryDirectory() as room:
        for _ in range(TIMES):
            rows = "".join(f"(unsigned)({it}),\n" for it in left)
            given = (f'#include "{os.path.abspath(source)}"\n__attribute__((used, section(".wdm_codes"))) '
                     f'static const unsigned wdm_codes[] = {{\n#line 1 "wdm_codes"\n{rows}}};\n')
            words = [compiler, *flags, "-w", "-O0", "-x", "c", "-", "-c", "-o", room + "/codes.o"]
            made = subprocess.run(words, input=given, capture_output=True, text=True, errors="replace", check=False)
            wrong = {int(it) - 1 for it in re.findall(r"^wdm_codes:(\d+):\d+: error:", made.stderr, re.M)}
            if not made.returncode or not wrong:
                break
            left = [it for n, it in enumerate(left) if n not in wrong]
        words = ["objcopy", "-O", "binary", "--only-section=.wdm_codes", room + "/codes.o", room + "/codes"]
        if not left or made.returncode or subprocess.run(words, capture_output=True, check=False).returncode:
            return []
        with open(room + "/codes", "rb") as it:
            return [(code, named[word]) for code, word in zip(memoryview(it.read()).cast("I"), left)]
