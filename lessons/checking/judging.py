"""Runs a student's file, and says whether it is right for its lesson, and what was told of it."""

import json
import os
import re
import subprocess
import sys
import tempfile

import plans
import telling

TOP = telling.TOP
LESSONS = TOP + "/lessons"
STOPPED = 3
# Calls whose second word, or third, is a routine that has to run.
ROUTINES = (r"\bIoSetCompletionRoutine(?:Ex)?\s*\(\s*(?:[^,()]+,\s*)?[^,()]+,\s*(\w+)\s*,",
            r"\bIoSetCancelRoutine\s*\([^,]+,\s*(\w+)\s*\)",
            r"\bIoQueueWorkItem(?:Ex)?\s*\([^,]+,\s*(\w+)\s*,")


def program(name):
    """Returns the path of a program: the one that the environment names, else the repository's."""
    return os.environ.get(name.upper()) or f"{TOP}/bin/{name}"


def ended(words, **more):
    """Runs a command. Returns its exit status and all that it printed."""
    made = subprocess.run(words, stdout=subprocess.PIPE, stderr=subprocess.STDOUT, text=True, errors="replace",
                          check=False, **more)
    return made.returncode, made.stdout


def calls_of(path):
    """Returns the calls of a history, in order, or None where a line isn't JSON."""
    try:
        with open(path, encoding="utf-8") as it:
            return [entry.get("call") for entry in map(json.loads, it.read().splitlines()[1:])]
    except (ValueError, AttributeError):
        return None


def judge_history(path):
    """Returns whether a history is legal, and what is told of it. It has to have the lesson's calls still."""
    with open(path, "rb") as it:
        status, said = ended([program("irpx"), "check"], stdin=it)
    if status:
        told = ended([program("irp_view"), "why", path])[1].splitlines()
        return False, "\n".join(it for it in told if not re.match(r"\s+(manager|why|see|rule) ", it))
    if calls_of(path) != calls_of(f"{LESSONS}/{plans.LESSONS[plans.HISTORY]}/history.transcript"):
        return False, "Some of the calls are others, or gone. Only a reply is wrong: keep each call as it is."
    return True, said


def steps_of(path):
    """Returns the lines of a script in words, without comments and blanks at their ends."""
    with open(path, encoding="utf-8", errors="replace") as it:
        return [line.strip() for line in it if line.strip() and not line.lstrip().startswith("#")]


def judge_protocol(path):
    """Returns whether each order of a script ends right, and what is told. It has to have the lesson's steps still."""
    its = steps_of(path)
    gone = [it for it in steps_of(f"{LESSONS}/{plans.LESSONS[plans.PROTOCOL]}/protocol.words") if it not in its]
    if gone:
        return False, f"Something is missing: {gone[0]}"
    status, said = ended([program("irp_orders"), "--right", path])
    return status == 0, "\n".join(it for it in said.splitlines() if not it.startswith("such orders"))


def code_of(path):
    """Returns a file in C without its comments."""
    with open(path, encoding="utf-8", errors="replace") as it:
        return re.sub(r"/\*.*?\*/|//[^\n]*", "", it.read(), flags=re.DOTALL)


def guarded(code):
    """Returns the blocks behind __try, each as the places of its beginning and its end."""
    found = []
    for it in re.finditer(r"\b__try\s*\{", code):
        depth, at = 1, it.end()
        while depth and at < len(code):
            depth += {"{": 1, "}": -1}.get(code[at], 0)
            at += 1
        found.append((it.end(), at))
    return found


def probes_outside(code):
    """Whether a call that raises an exception for a bad pointer stands outside of __try, and nobody calls its function there."""
    blocks = guarded(code)
    inside = " ".join(code[low:high] for low, high in blocks)
    for probe in re.finditer(r"\b(?:ProbeFor(?:Read|Write)|MmProbeAndLockPages)\s*\(", code):
        before = re.findall(r"(?m)^[A-Za-z_][^\n;{}()]*\b(\w+)\([^;{}]*\)\s*\{", code[:probe.start()])
        is_called = before and re.search(rf"\b{before[-1]}\s*\(", inside)
        if not is_called and not any(low <= probe.start() < high for low, high in blocks):
            return True
    return False


def is_met(way, text):
    """Returns whether a record has each text of a way, and none of those behind a "!"."""
    return all(bool(re.search(it.removeprefix("!"), text)) != it.startswith("!") for it in way)


def lacking(number, transcript):
    """Returns what the record of a clean run should show, and doesn't, or None."""
    with open(transcript, encoding="utf-8") as it:
        text = it.read()
    return next((what for what, *ways in plans.NEEDS.get(number, ()) if not any(is_met(way, text) for way in ways)), None)


class Judge:
    """The runs of one file for one lesson."""

    def __init__(self, number, path, room):
        self.number, self.path, self.room = number, path, room
        self.test = f"{LESSONS}/{plans.LESSONS[number]}/test.c"
        self.never, self.was_stopped = None, False
        self.plain = plans.PLAIN.get(number, ())

    def run(self, is_test, *flags):
        """Makes a run. Returns its exit status and what it told, and keeps which functions never ran."""
        name = re.sub(r"^(?=\d)", "_", re.sub(r"\W", "_", os.path.splitext(os.path.basename(self.path))[0]))
        its = ([f'--cflag=-DDRIVER="{name}"'], [self.test]) if is_test else ([], [])
        found = f"{self.room}/found"
        if os.path.exists(found):
            os.remove(found)
        coverage = ["--coverage"] if is_test and flags == self.plain else []
        more = [] if flags[:1] == ("--every-order",) else ["--json", found, *coverage]
        status, said = ended([f"{TOP}/drivers/run", *flags, *more, *its[0], self.path, *its[1]])
        if status == 2 and not re.search("FAULT|STOPPED", said):
            print(f"irp lesson: {self.path} can't be run:\n{said.rstrip()}", file=sys.stderr)
            sys.exit(2)
        if os.path.exists(found) and not any(it in flags for it in ("--low-memory",)):
            with open(found, encoding="utf-8") as it:
                never = {re.split(r"[ :(]", it)[-1] if ":" in it else it.split()[0]
                         for it in json.load(it)["never"].get("functions", [])}
            self.never = never if self.never is None else self.never & never
        return status, said

    def unused(self):
        """Returns the functions that no plain run called: those that the lesson needs, and the others."""
        code = code_of(self.path)
        needed = {name for text in ROUTINES for name in re.findall(text, code)} - {"NULL"}
        never = {it for it in self.never or () if re.search(rf"\b{it}\b", code)}
        return sorted(never & needed), sorted(never - needed)

    def overlooked(self):
        """Returns what no run shows and the driver's code does, or None."""
        code, name = code_of(self.path), plans.READ_BY_TESTS.get(self.number)
        if name and not re.search(rf"(?m)^volatile\s+LONG\s+{name}\b", code):
            return f"the test reads {name}: leave its declaration as it is."
        if self.number == 2 and "IoQueueWorkItem" not in code:
            return "no work item answers the read any more."
        if self.number == 8 and re.search(r"(?ms)\bIoDetachDevice\s*\((?:(?!^\}).)*\bIoReleaseRemoveLockAndWait\s*\(", code):
            return "yours is detached while who has the lock may still send to the device below."
        if self.number == 12 and "PoRequestPowerIrp" not in code:
            return "nobody asks for the device's packet any more."
        if self.number == 14 and probes_outside(code):
            return "a probe stands outside of __try."
        return None

    def judged(self):
        """Returns whether the file is right, and what was told."""
        flaw = self.overlooked()
        if flaw:
            return False, f"Something is missing: {flaw}"
        status, said = self.run(True, *self.plain)
        if status not in (0, STOPPED):
            return False, telling.told(said)
        status, said = self.run(False, *self.plain, "--transcript", f"{self.room}/transcript")
        if status not in (0, STOPPED):
            return False, telling.told(said)
        what = lacking(self.number, f"{self.room}/transcript")
        if what:
            return False, f"The host tells no fault. But this lesson is about {what}, and no run of your driver shows that."
        needed, others = self.unused()
        if needed:
            return False, f"The host tells no fault. But {', '.join(needed)} never ran: no test of this lesson came there."
        for more in plans.MORE_RUNS.get(self.number, ()):
            status, said = self.run(more.is_test, *more.flags)
            if status not in (0, STOPPED):
                return False, telling.told(said)
            self.was_stopped |= status == STOPPED
        notes = [f"{', '.join(others)} never ran: nothing is said of it."] if others else []
        notes += ["The time was up before every order was tried; none of those tried has a fault."] if self.was_stopped else []
        return True, "\n".join(notes)


def judge_driver(number, path):
    """Returns whether a driver is clean in each of its lesson's runs and does what the lesson is about, and what was told."""
    with tempfile.TemporaryDirectory() as room:
        return Judge(number, path, room).judged()


def judge(number, path):
    """Returns whether a file is right for a lesson, and what was told of it."""
    own = {plans.HISTORY: judge_history, plans.PROTOCOL: judge_protocol}
    return own[number](path) if number in own else judge_driver(number, path)
