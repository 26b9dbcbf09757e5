"""`run --verify`, and its parts: the same program in many runs, each of which takes one thing away from its luck: pages
end where blocks end, routines run high, drivers below pend, an allocation fails, a request is cancelled at one call. They
are one plan: counted first, the cheap ones first, each fault told once, with the command that makes its best run again."""

import concurrent.futures
import copy
import os
import re
import shlex
import sys
import time

import covering
import pageable
import reporting
import usage

SEEDS_OF_REFUSALS = 4
RUNS_A_PROCESSOR = 2  # side by side: a run waits more than it works
PATIENCE = 10  # seconds: runs stand side by side, and one that gets no processor for a while doesn't hang
FLAGS = pageable.FLAGS
# What is told of memory is told best where pages end with blocks: at the line itself.
MEMORY = ("PoolOverrun", "WrittenAfterFree", "UsedAfterFree")
MOST_NOTES = 20  # that are told
TIMES_AGAIN = 3  # that a run is made again which no fault of the host's tells, but the judge


# The parts of a plan that can be had alone, and what each does.
PARTS = {"low_memory": "each allocation fails, alone and with all behind it",
         "force_pending": "between any two drivers a device of the host's pends all that passes",
         "cancel_everywhere": "each request is cancelled at each call that a driver makes meanwhile"}


class Kind:
    """Runs of one kind: the flags that `run` takes for each of them."""

    def __init__(self, name, part, flags):
        self.name, self.part, self.flags = name, part, flags
        self.made = self.bad = 0
        self.seconds = 0.0


def split(lines, seen):
    """Returns where each kind of a place is reached first, and where else: the second time of each kind before the third
    of any. A line has where, and what makes the kind. Kinds that were seen before are no first ones."""
    firsts, others, times = [], [], {}
    for line in lines:
        at, _, kind = line.partition(" ")
        times[kind] = times.get(kind, 0) + 1
        if times[kind] > 1:
            others.append((times[kind], at))
        elif kind not in seen:
            firsts.append(at)
    seen.update(times)
    return firsts, [at for _, at in sorted(others, key=lambda it: it[0])]


def each_place(key, short, whole):
    """Returns flags that take something away at each kind of place once, and those for all other places of the short run.
    What only the whole test reaches comes behind what the short one does."""
    seen = set()
    firsts, others = split(short, seen)
    more, _ = split(whole, seen)
    return [{key: at} for at in firsts] + [{key: at, "whole": 1} for at in more], [{key: at} for at in others]


def plan_of(short, whole):
    """Returns the kinds of runs, the most telling first, by what two runs counted: of the short test, and of the whole one."""
    allocations = range(1, int(short.facts.get("allocations", 0)) + 1)
    attached = range(1, int(short.facts.get("attached", 0)) + 1)
    refused, _ = each_place("refuse", short.allocated, whole.allocated)
    cancelled, others = each_place("cancel", short.places, whole.places)
    firsts = {it["refuse"] for it in refused if "whole" not in it}
    below = [{"pend": str(n)} for n in attached] + ([{"pend": "all"}] if len(attached) > 1 else [])
    seeds = range(1, SEEDS_OF_REFUSALS + 1) if allocations else []
    return [Kind("blocks at pages' ends", None, [{"page_ends": 1}]),
            Kind("routines at DISPATCH_LEVEL", None, [{"routines_high": 1}]),
            Kind("drivers below that pend", "force_pending", below),
            Kind("an allocation refused at each place", "low_memory", refused),
            Kind("a cancel at each call", "cancel_everywhere", cancelled),
            Kind("another allocation refused", "low_memory",
                 [{"refuse": str(n)} for n in allocations if str(n) not in firsts]),
            Kind("all refused from one on", "low_memory", [{"refuse": f"{n}+"} for n in allocations]),
            Kind("some refused, by a seed", "low_memory", [{"refuse": f"s{n}"} for n in seeds]),
            Kind("a cancel at each call of each request", "cancel_everywhere", others)]


def words_of(flags):
    """Returns the flags as `run` takes them."""
    return " ".join(f"--{key.replace('_', '-')}" + ("" if value == 1 else f" {value}") for key, value in flags.items())


def rule_of(line):
    found = re.match(r"host: (?:FAULT )?(\w+)", line)
    return found[1] if found else "no fault of the host"


def key_of(line):
    """Returns what makes a fault the same one in another run: its rule and its place; of memory, the block."""
    block = re.search(r"allocated at ([\w.]+:\d+)", line)
    if rule_of(line) in MEMORY and block:
        return "memory", block[1]
    found = re.match(r"host: (?:FAULT )?(\S+?):? .*?([\w.]+:\d+)", line)
    return found.groups() if found else re.sub(r"\d+", "N", line)


def is_by_judge(line):
    return line.startswith(("illegal", "not judged"))


def taken_by(run):
    """Returns what the run took away, and where, or None."""
    refused = re.search(r"^host: memory was refused .*first to (.*)$", run.said, re.M)
    cancelled = re.search(r"^host: the request was (cancelled at .*)$", run.said, re.M)
    return f"refused     {refused[1]}" if refused else cancelled[1].replace(" at ", "   ", 1) if cancelled else None


def complaints_of(run):
    """Returns the lines that say what is wrong with a run; the run's own words where the host told nothing."""
    told = [line for line in run.said.splitlines()
            if line.startswith("host: FAULT ") and not re.search(r" \d+ times at the same place", line)]
    if told or not run.complaints():
        return told
    last = [line for line in run.said.splitlines() if line.startswith("host: STOPPED")]
    return last[:1] or ["; ".join(run.complaints())]


def notes_of(run):
    """Returns the notes of a run: of those that differ in numbers alone the first one, by what they have in common."""
    found = {}
    for line in run.said.splitlines():
        if line.startswith("host: note, "):
            found.setdefault(re.sub(r"\d+", "N", line), line)
    return found


class Fault:
    """A fault that runs told: its line, the flags of its best run, what that took away, and when it was found."""

    def __init__(self, line, flags, taken, seconds, transcript):
        self.line, self.flags, self.taken, self.seconds, self.transcript = line, flags, taken, seconds, transcript
        self.is_told = False


class Verification:
    """What the runs of a plan found."""

    def __init__(self, options, make_run):
        self.options, self.make_run, self.numbers = options, make_run, iter(range(1 << 30))
        self.faults, self.notes, self.covered, self.cases = {}, {}, covering.Covered(), []
        self.began, self.left_out = time.monotonic(), []
        self.until = self.began + 60 * options.minutes
        self.made = self.planned = 0

    def one(self, flags, is_first=False):
        """Returns a run with these flags and how long it took, or None where the time is over: not of the first ones."""
        began = time.monotonic()
        if began > self.until and not is_first:
            return None
        options = copy.copy(self.options)
        options.patience = options.patience or PATIENCE
        for key, value in flags.items():
            setattr(options, key, value)
        return self.make_run(options, next(self.numbers)), time.monotonic() - began

    def take(self, kind, flags, made):
        if made is None:
            self.left_out.append(kind.name)
            return
        run, seconds = made
        kind.made += 1
        kind.seconds += seconds
        self.made += 1
        self.covered.join(run.covered)
        found = complaints_of(run)
        kind.bad += bool(found)
        self.cases.append(reporting.Case(words_of(flags) or kind.name, seconds, found))
        for key, line in notes_of(run).items():
            self.notes.setdefault(key, (line, flags))
        for line in found:
            known = self.faults.get(key_of(line))
            if known is None or (rule_of(line) in MEMORY and "page_ends" in flags):
                self.faults[key_of(line)] = Fault(line, flags, taken_by(run), time.monotonic() - self.began, run.transcript)

    def again(self, flags):
        """Returns the command that makes a run again."""
        words = ["run"]
        for key in ("threads", "controls", "args", "test"):
            if getattr(self.options, key, None):
                words.append(f"--{key} {shlex.quote(str(getattr(self.options, key)))}")
        words += [f"--cflag={shlex.quote(it)}" for it in self.options.cflag]
        words += [f"--library {shlex.quote(it)}" for it in getattr(self.options, "library", [])]
        words += [f"--on {shlex.quote(child)} {shlex.quote(file)}" for child, file in getattr(self.options, "on", [])]
        if getattr(self.options, "wine", None):
            words.append(f"--wine {shlex.quote(self.options.wine)}")
        its = {file for _, file in getattr(self.options, "on", [])}
        files = [shlex.quote(it) for it in self.options.source if it not in its]
        return " ".join([*words, *([words_of(flags)] if flags else []), *files])

    def comes_again(self, fault):
        """Returns lines for how often the run of a fault tells it again, where that depends on the threads."""
        if not is_by_judge(fault.line):
            return ""
        runs = [self.one(fault.flags) for _ in range(TIMES_AGAIN)]
        made = [it[0] for it in runs if it]
        same = sum(any(is_by_judge(line) for line in complaints_of(it)) for it in made)
        return f"\n  came again  in {same} of {usage.counted(len(made), 'run')}\n  transcript  {fault.transcript}"

    def tell_found(self, but=()):
        """Tells the faults that weren't told, but not those by some rules yet."""
        for fault in self.faults.values():
            if not fault.is_told and rule_of(fault.line) not in but:
                fault.is_told = True
                taken = f"\n  {fault.taken}" if fault.taken else ""
                print(f"{fault.line}{taken}\n  again with  {self.again(fault.flags)}{self.comes_again(fault)}\n"
                      f"  found       after {fault.seconds:.1f} s", flush=True)

    def tell_notes(self):
        """Tells each note once, with the first run that had it."""
        notes = list(self.notes.values())
        for line, flags in notes[:MOST_NOTES]:
            print(f"{line}\n  again with  {self.again(flags)}")
        if len(notes) > MOST_NOTES:
            print(f"and {usage.counted(len(notes) - MOST_NOTES, 'other note')}")

    def progress(self, kind):
        if sys.stderr.isatty():
            spent = time.monotonic() - self.began
            left = min(spent / max(self.made, 1) * (self.planned - self.made), self.until - time.monotonic())
            sys.stderr.write(f"\r{self.made} of {self.planned} runs, {len(self.faults)} faults, about {left:.0f} s more: "
                             f"{kind.name} \x1b[K")

    def all_of(self, kinds, pool):
        """Makes the runs of these kinds, one kind behind the other, and tells what each found as soon as it has ended."""
        runs = {pool.submit(self.one, flags): (kind, flags) for kind in kinds for flags in kind.flags}
        for made in concurrent.futures.as_completed(runs):
            kind, flags = runs[made]
            self.take(kind, flags, made.result())
            self.progress(kind)
            self.tell_found(() if kind.part else MEMORY)
        if sys.stderr.isatty():
            sys.stderr.write("\r\x1b[K")
        self.tell_found()


def chosen(kinds, options):
    """Returns the kinds that are asked for: all by --verify, else those of the parts that are named."""
    return [it for it in kinds if it.flags and (options.verify or (it.part and getattr(options, it.part)))]


def situate(found, kinds):
    """The kinds of runs are rows of the table too, where the host's own test has one."""
    for kind in kinds if found.covered.situations else []:
        left = found.left_out.count(kind.name)
        found.covered.situate(kind.name, f"{left} of {len(kind.flags)} runs are left: give more --minutes",
                              "unmade" if left else "made")


def sum_up(found, kinds, never):
    """Prints the runs of each kind, the faults by rule, and what never ran."""
    made = ", ".join(f"{it.made} {it.name}" + (f" ({it.bad} bad)" if it.bad else "") for it in kinds)
    rules = {}
    for fault in found.faults.values():
        rules[rule_of(fault.line)] = rules.get(rule_of(fault.line), 0) + 1
    found.tell_notes()
    print(f"runs        {made}")
    if rules:
        print("faults      " + ", ".join(f"{n} {rule}" for rule, n in sorted(rules.items())))
    for line in covering.lines_of(never):
        print(line)
    if found.left_out and not found.covered.situations:
        left = ", ".join(f"{found.left_out.count(it)} {it}" for it in dict.fromkeys(found.left_out))
        print(f"not made    {left}: give more --minutes")
    ending = "NOT CLEAN" if found.faults else "nothing wrong so far" if found.left_out else "clean"
    print(f"verify: {usage.counted(found.made, 'run')}, {usage.counted(len(found.faults), 'fault')}; {ending}")


def counted(found, pool, has_short_test):
    """Makes the first runs, which count: the plain run with its whole test, and the short one where there is one. Returns
    the runs of the short test and of the whole one."""
    count = {"cancel": "count"}
    flags = [dict(count, whole=1), count] if has_short_test else [count]
    plain, made = Kind("plain", None, [{}]), list(pool.map(lambda it: found.one(it, is_first=True), flags))
    found.take(plain, {}, made[0])
    found.tell_found(MEMORY)
    return made[-1][0], made[0][0], plain


def verify(options, make_run, has_short_test):
    """Makes all runs, and sums up. `make_run(options, number)` gives a judged run. Returns the exit status, and what was
    found."""
    found = Verification(options, make_run)
    with concurrent.futures.ThreadPoolExecutor(options.processes or RUNS_A_PROCESSOR * os.cpu_count()) as pool:
        short, whole, plain = counted(found, pool, has_short_test)
        kinds = chosen(plan_of(short, whole), options)
        found.planned = 1 + sum(len(it.flags) for it in kinds)
        print(f"verify: {usage.counted(found.planned, 'run')}", flush=True)
        found.all_of([it for it in kinds if not it.part], pool)
        found.all_of([it for it in kinds if it.part], pool)
    situate(found, kinds)
    never = options.its.never(found.covered)
    sum_up(found, [plain, *kinds], never)
    return (1 if found.faults else 3 if found.left_out else 0), reporting.Found(found.cases, found.covered, never)
