"""Counts the checks of Wine's tests of the I/O manager: how many there are in a file, how many run on the host, pass, fail,
and why the others don't run. Lines are those of Wine 10.0. A check that fails in one run counts as failed.

A failure that FAILS doesn't list is a failure of the run. One that is listed and passes by now is told."""

import os
import re

TESTS = "dlls/ntoskrnl.exe/tests/"  # in Wine's source
CHECK = re.compile(r"\bok_?\s*\(")
COUNTED = ("driver_pnp", "driver_netio")  # drivers that are compiled whole
FILES = ("driver.c", "driver_pnp.c", "driver_netio.c", "ntoskrnl.c")
# Of driver.c: functions that are left out, with their body, and why.
PROCESSES, IMAGES = "processes other than the one", "images, and drivers that a driver loads"
FUNCTIONS = {
    "test_load_driver": ("{ }", IMAGES), "test_process_memory": ("{ }", PROCESSES),
    "test_default_security": ("{ }", "the filter manager's security descriptors"),
    "test_load_driver_ioctl": ("{ return STATUS_NOT_SUPPORTED; }", IMAGES),
}
# And lines: from, to, what stands there in their place, and why.
LINES = [
    (67, 67, "", PROCESSES), (314, 327, "", IMAGES), (472, 476, "", PROCESSES), (433, 433, "", PROCESSES),
    (1997, 1998, "", "memory from the pool isn't run"),
]
# The parts of driver.c's main test; each is a run of its own, since one that stops the host would hide the next.
PARTS = ["test_lookaside_list", "test_irp_struct", "test_current_thread", "test_critical_region", "test_mdl_map", "test_init_funcs", "test_sync",
         "test_queue", "test_ob_reference", "test_resource", "test_IoAttachDeviceToDeviceStack", "test_executable_pool",
         "test_dpc", "test_driver_object_extension", "test_version", "test_stack_callout", "test_lookup_thread", "test_object_name",
         "test_affinity", "test_permanence"]


def blank(lines, first, last, text):
    """Puts a text in the place of lines, whose number stays."""
    lines[first - 1:last] = [text] + [""] * (last - first)


def function_lines(lines, name):
    """Returns the first and last line of a function's body, braces included."""
    head = next(k for k, it in enumerate(lines) if re.match(r"(static|NTSTATUS)\b[^;=]*\b" + name + r"\(", it))
    first = next(k for k in range(head, len(lines)) if lines[k] == "{")
    return first + 1, next(k for k in range(first, len(lines)) if lines[k] == "}") + 1


def left_out(source):
    """Yields each range of lines of driver.c that is left out: from, to, what stands there, why."""
    lines = read(source, "driver.c")
    for name, (body, why) in FUNCTIONS.items():
        yield *function_lines(lines, name), body, why
    yield from LINES


def read(source, name):
    with open(f"{source}/{TESTS}{name}", encoding="utf-8", errors="replace") as it:
        return it.read().splitlines()


def write_driver(source, here, path):
    """Writes driver.c with its lines, but for those that are left out. Each part of its main test runs where the run is
    told to."""
    lines = read(source, "driver.c")
    for first, last, text, _ in list(left_out(source)):
        blank(lines, first, last, text)
    begin, end = function_lines(lines, "main_test")
    for k in range(begin - 1, end):
        part = re.match(r"    (test_\w+)\(.*\);$", lines[k])
        if part and part[1] in FUNCTIONS:
            lines[k] = ""
        elif part:
            lines[k] = f'    if (OksDoes("{part[1]}")){lines[k]}'
    head = next(k for k, it in enumerate(lines) if '"utils.h"' in it) + 1
    with open(path, "w", encoding="utf-8") as it:
        it.write(f'#include "{here}/oks_driver.h"\n#line {head + 1} "driver.c"\n' + "\n".join(lines[head:]) + "\n")


def write_counted(source, here, name, path):
    """Writes another of the tests' drivers, whole, with its checks counted."""
    lines = read(source, name)
    head = next(k for k, it in enumerate(lines) if '"utils.h"' in it) + 1
    with open(path, "w", encoding="utf-8") as it:
        it.write("\n".join(lines[:head]) + f'\n#include "{here}/oks.h"\n#line {head + 1} "{name}"\n')
        it.write("\n".join(lines[head:]) + "\n")


def logged(path):
    """Returns the checks of a run's log: of each its file, line, and 1 where it held."""
    if not os.path.exists(path):
        return []
    with open(path, encoding="utf-8", errors="replace") as it:
        return [words for words in map(str.split, it) if len(words) == 3]


class Counts:
    """What the checks of all runs came to, by file and line (`LINE` or `LINE@CALLER`)."""

    def __init__(self, source):
        self.source, self.held, self.failed = source, {}, {}

    def add(self, path):
        """Adds a run's log, and removes it."""
        for file, line, held in logged(path):
            there = self.held if held == "1" else self.failed
            there[file, line] = there.get((file, line), 0) + 1
        if os.path.exists(path):
            os.remove(path)

    def has_new(self, path):
        """Whether a check fails in a run's log that isn't listed."""
        return any(held == "0" and line not in FAILS.get(file, ()) for file, line, held in logged(path))

    def checks(self, name):
        """Returns the lines of a file that have a check, with how many."""
        found = {n: len(CHECK.findall(line)) for n, line in enumerate(read(self.source, name), 1)}
        return {n: count for n, count in found.items() if count and not
                read(self.source, name)[n - 1].lstrip().startswith("#define")}

    def not_run(self, name, seen):
        """Returns why checks don't run, each with its lines and how many checks a line has."""
        ranges, lines, found = list(left_out(self.source)) if name == "driver.c" else [], read(self.source, name), {}
        for n, count in self.checks(name).items():
            if n not in seen:
                reached = ONLY_FAILS if re.search(r"\bok\(0,", lines[n - 1]) else NOT_REACHED[name]
                why = next((why for first, last, _, why in ranges if first <= n <= last), reached)
                found.setdefault(why, []).append((n, count))
        return found

    def tell(self, is_whole):
        """Prints the table. Returns what is wrong. After all runs it tells what is listed as failing and doesn't."""
        wrong = []
        for name in FILES:
            failed = {key[1] for key in self.failed if key[0] == name}
            seen = {int(line.split("@")[0]) for key, line in [*self.held, *self.failed] if key == name}
            checks = self.checks(name)
            total, run = sum(checks.values()), sum(n for line, n in checks.items() if line in seen)
            bad = len({it.split("@")[0] for it in failed})
            print(f"{name}: {total} checks, {run} run, {run - bad} passed, {bad} failed, {total - run} not run")
            for why, them in sorted(self.not_run(name, seen).items(), key=lambda it: -len(it[1])):
                where = f" (lines {', '.join(str(n) for n, _ in them)})" if len(them) < 10 else ""
                print(f"  {sum(count for _, count in them):4} not run: {why}{where}")
            known = FAILS.get(name, {})
            for line in sorted(failed, key=lambda it: [int(n) for n in it.split("@")]):
                print(f"  line {line} fails: {known.get(line, 'NEW')}")
            wrong += [f"{name}:{line} fails, and isn't listed" for line in failed if line not in known]
            for line in known if is_whole else ():
                if line not in failed and (name, line) in self.held and "slow machine" not in known[line]:
                    print(f"  line {line} passes by now: take it out of FAILS")
        return wrong


NOT_REACHED = {"driver.c": "no run comes to it", "driver_pnp.c": "no run comes to it", "driver_netio.c": "no run comes to it",
               "ntoskrnl.c": "a program in user mode makes it; only its table of returned statuses is made here, as requests"}
ONLY_FAILS = "it only says that something came which mustn't come"
ONE = "there is one processor, and the mask names the second"
# What test_resource asks 20 ms after it made a thread that waits.
WAITS = ("1668", "1694", "1703", *(f"{line}@{caller}" for line in (1438, 1441, 1447) for caller in
                                   (1606, 1610, 1655, 1659, 1664, 1669, 1687, 1691, 1695, 1699, 1704)))
FAILS = {
    "driver.c": {
        "451": "there is one process, the system's",
        "498": "a dispatch has no APCs disabled here; Windows shows both", "2030": ONE, "2054": ONE,
        **dict.fromkeys(WAITS, "on a slow machine: the thread that it waits a moment for hasn't come"),
    },
}
CALL = re.compile(r"\b([A-Z][a-z]+[A-Z]\w*)\s*\(|get_proc_address\(\"(\w+)\"\)")
# What driver.c calls, or asks for by its name, and why the host hasn't it.
NO_PAGE = "no page of the kit has it"
NOT_THERE = {
    **dict.fromkeys(("FltBuildDefaultSecurityDescriptor", "FltFreeSecurityDescriptor"), "there is no filter manager"),
    **dict.fromkeys(("PsSetLoadImageNotifyRoutine", "PsRemoveLoadImageNotifyRoutine"), "no image is loaded, so nothing would call it"),
    **dict.fromkeys(("ZwLoadDriver", "ZwUnloadDriver"), "the test loads all drivers"),
    **dict.fromkeys(("MmCopyVirtualMemory", "PsGetProcessInheritedFromUniqueProcessId", "PsGetProcessSectionBaseAddress"), NO_PAGE),
    "ZwQueryInformationProcess": "there is one process",
    "ZwQueryObject": "drivers call ObQueryNameString, which is there",
}


def words_of(path):
    with open(path, encoding="utf-8") as it:
        return set(re.findall(r"\w+", it.read()))


def tell_functions(source, drivers):
    """Prints how many functions driver.c calls, and those that the host hasn't. Returns what NOT_THERE says wrongly."""
    called = {a or b for a, b in CALL.findall("\n".join(read(source, "driver.c")))}
    words = words_of(drivers + "/host/rtl/system_routines.c")
    for folder, _, files in os.walk(drivers + "/include"):
        words = words.union(*(words_of(f"{folder}/{it}") for it in files))
    lacks = called - words
    print(f"driver.c calls {len(called)} functions, of which {len(lacks)} aren't there")
    for name in sorted(lacks):
        print(f"  {name}: {NOT_THERE.get(name, 'NEW')}")
    return [f"{name} isn't there, and isn't listed" for name in sorted(lacks - NOT_THERE.keys())] + \
        [f"{name} is there by now: take it out of NOT_THERE" for name in sorted(NOT_THERE.keys() - lacks)]
