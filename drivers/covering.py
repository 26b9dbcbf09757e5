"""What runs came to, and what they didn't: situations of the host's own test, functions, majors and minors, control codes,
routines' errors, cancel routines. The host leaves it as lines (host/test/covered.c); lines of many runs are joined here."""

import functools
import os
import re
import subprocess

HERE = os.path.dirname(os.path.abspath(__file__))
MOST_NAMES = 12  # of a kind
# Of each kind of lines: the word for what came, and for what didn't.
PAIRS = {"came": "uncame", "met": "unmet", "cancelled": "uncancelled", "taken": "refused",
         "knew": "unknown"}
RANKS = ("apart", "unmade", "made")
HOLDING = {"WdmIoMarkIrpPending", "WdmIoStartPacket", "WdmIoCsqInsertIrp"}  # without any, a driver holds no request
MINORS = {"IRP_MN_START_DEVICE": "PNP", "IRP_MN_WAIT_WAKE": "POWER", "IRP_MN_QUERY_ALL_DATA": "SYSTEM_CONTROL"}


class Covered:
    """What some runs came to."""

    def __init__(self):
        self.situations, self.ran, self.minors = {}, set(), set()
        self.done, self.known = {it: set() for it in PAIRS}, {it: set() for it in PAIRS}

    def take(self, key, value):
        """Keeps a line of the host's. Returns whether it is one of these."""
        if key == "control":
            key, _, value = value.partition(" ")
        if key == "situation":
            state, _, rest = value.partition(" ")
            self.situate(*rest.split("|", 1), state)
        elif key == "ran":
            self.ran.add(value)
        elif key == "minor":
            self.minors.add(value)
        elif key in PAIRS or key in PAIRS.values():
            kind = next(it for it, other in PAIRS.items() if key in (it, other))
            self.known[kind].add(value)
            if key == kind:
                self.done[kind].add(value)
        else:
            return False
        return True

    def situate(self, name, why, state):
        """Keeps a row of the table: it is made where any run made it."""
        if self.situations.get(name, ("",))[0] != "made":
            self.situations[name] = (state, why)

    def join(self, other):
        """Takes what other runs came to."""
        for name, (state, why) in other.situations.items():
            self.situate(name, why, state)
        self.ran |= other.ran
        self.minors |= other.minors
        for kind in PAIRS:
            self.done[kind] |= other.done[kind]
            self.known[kind] |= other.known[kind]

    def missing(self, kind):
        return sorted(self.known[kind] - self.done[kind])

    def rows(self):
        """Returns the rows that count, each with whether it was made, and why not."""
        return [(name, state == "made", why) for name, (state, why) in self.situations.items() if state != "apart"]

    def unmade(self):
        return [(name, why) for name, is_made, why in self.rows() if not is_made]


class Source:
    """What the drivers' source has, against which it is held what came."""

    def __init__(self, drivers, objects, codes):
        self.codes, self.functions = codes, functions_of(objects)
        self.may_hold = bool(HOLDING & wanted_by(objects))
        self.minors, self.near_codes = set(), set()
        for path in (file for _, files in drivers for file in files):
            with open(path, encoding="utf-8", errors="replace") as it:
                text = it.read()
            self.minors |= set(re.findall(r"\bIRP_MN_\w+", text))
            if "IoControlCode" in text:
                self.near_codes |= set(re.findall(r"\b(\w+)\s*\(", text))

    def never(self, covered, ran=None):
        """Returns what never ran or came, by kinds. `ran`: functions that did, where that is known otherwise."""
        majors = [it.split(" ", 1) for it in covered.missing("came")]
        by_value = minors_by_name()
        ran = covered.ran if ran is None else ran
        names = {hex(code): name for code, name in self.codes.items()}
        return {"functions": sorted(self.functions - ran) if ran else [],
                "majors": [f"{major} to {name}" for name, major in majors if name in self.functions],
                "minors": sorted(it for it in self.minors if by_value.get(it, "") not in covered.minors | {""}),
                "controls": [names[it] for it in covered.missing("taken") if names.get(it)],
                "codes": [it for it in covered.missing("knew") if it in self.functions & self.near_codes],
                "errors": [it for it in covered.missing("met") if it in self.functions],
                "cancels": [it for it in covered.missing("cancelled") if it in self.functions]}


def functions_of(objects):
    """Returns the functions that drivers define, by their names."""
    said = subprocess.run(["nm", *objects], capture_output=True, text=True, check=False).stdout
    return {words[2].split(".")[0] for words in map(str.split, said.splitlines())
            if len(words) == 3 and words[1] in "tT" and not re.search("_DriverEntry$|^_(sub|GLOBAL)_", words[2])}


def wanted_by(objects):
    """Returns the names that drivers call of the host."""
    said = subprocess.run(["nm", "-u", *objects], capture_output=True, text=True, check=False).stdout
    return {line.split()[-1] for line in said.splitlines() if line.strip()}


@functools.lru_cache
def minors_by_name():
    """Returns of each IRP_MN_ name of the interface its major and its number, as the host writes them."""
    with open(HERE + "/include/wdm_codes.h", encoding="ascii") as it:
        blocks = re.findall(r"enum \{[^}]*\}", it.read())
    found = {}
    for block in blocks:
        values = re.findall(r"(IRP_MN_\w+) = (0x\w+)", block)
        major = MINORS.get(values[0][0]) if values else None
        found.update({name: f"{major} {int(value, 16)}" for name, value in values if major})
    return found


def some(names, between=", "):
    more = len(names) - MOST_NAMES
    return between.join(names[:MOST_NAMES]) + (f" and {more} more" if more > 0 else "")


def lines_of(never, functions=None):
    """Returns lines that tell what never ran or came. `functions`: with their places, where those are known."""
    named = functions if functions is not None else never["functions"]
    kinds = ((named, "never ran   {}"), (never["majors"], "never came  {}"), (never["minors"], "never came  {}"),
             (never["controls"], "never taken {}"), (never["codes"], "no code     was known to {}: give --controls"), (never["errors"], "no error    was met by {}"),
             (never["cancels"], "no cancel   called {}"))
    return [text.format(some(names)) for names, text in kinds if names]


def line_of_unmade(covered):
    """Returns a line for each reason for which situations weren't made."""
    reasons = {}
    for name, why in covered.unmade():
        reasons.setdefault(why, []).append(name)
    return [f"not made    {'; '.join(names)}: {why}" for why, names in reasons.items()]


def last_line(covered, word):
    """Returns what the word for a run, such as `clean`, covers, or None where there is no table of situations."""
    rows, unmade = covered.rows(), covered.unmade()
    if not rows:
        return None
    names = "; not made: " + some([name for name, _ in unmade], "; ") if unmade else ""
    return f"{word}: {len(rows) - len(unmade)} of {len(rows)} situations{names}"
