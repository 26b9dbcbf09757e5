"""Runs of the program, side by side, and a tally of what was tried and what was wrong."""

import json
import multiprocessing
import os
import socket
import struct
from collections import Counter
from typing import NamedTuple

EXAMPLES = os.path.join(os.path.dirname(os.path.dirname(os.path.realpath(__file__))), "examples")
FOLDERS = ("sending", "completing", "cancelling", "slots", "removal", "many_threads", "practice")
# The settings of faults.c, in its order.
SETTINGS = (
    "refuse", "refuse_behind", "read_ends", "read_error", "read_once",
    "write_ends", "write_error", "piece", "refuse_threads", "refuse_shrinks",
)  # fmt: skip
# The steps that are no calls, but acts on a remove lock.
ON_LOCKS = ("acquire", "release", "begin_remove", "drained")
NO_MEMORY = b"irpx: out of memory\n"
FAILED = b"irpx: input or output failed\n"


class Ended(NamedTuple):
    """What a run left: its exit status (below 0: the signal that ended it), its output, its errors, and how many
    things the library before it (faults.c) had go wrong."""

    status: int
    output: bytes
    errors: bytes
    faults: int

    def is_so(self, status, output, errors=b""):
        """Returns whether the run left just this."""
        return self[:3] == (status, output, errors)


class Program:
    """The program, which reads from memory and writes to it, with the library of faults.c before it.

    For each row of words one process of it stands ready, and each run is a copy of that."""

    def __init__(self, path, library):
        self.path = path
        self.files = [os.memfd_create(name) for name in ("input", "output", "errors", "marks")]
        # What watches memory in a program that was built without proofs wants to be the first library.
        self.environment = {**os.environ, "LD_PRELOAD": library, "ASAN_OPTIONS": "verify_asan_link_order=0"}
        self.ready = {}

    def start(self, words):
        """Starts a process with these words, and returns where it takes orders."""
        ours, theirs = socket.socketpair()
        places = [*self.files, theirs.fileno()]
        actions = [(os.POSIX_SPAWN_DUP2, file, at) for at, file in enumerate(places)]
        os.posix_spawn(self.path, [self.path, *words], self.environment, file_actions=actions)
        theirs.close()
        return ours

    def run(self, *words, text=b"", **settings):
        """Runs the program with these words and this input. The settings are those of faults.c."""
        if words not in self.ready:
            self.ready[words] = self.start(words)
        for file in self.files:
            os.ftruncate(file, 0)
            os.lseek(file, 0, os.SEEK_SET)
        os.pwrite(self.files[0], text, 0)
        order = [settings.pop(name, -1) for name in SETTINGS]
        self.ready[words].sendall(struct.pack(f"{len(order)}l", *order))
        status = os.waitstatus_to_exitcode(*struct.unpack("i", self.ready[words].recv(4, socket.MSG_WAITALL)))
        assert not settings, settings
        output, errors, marks = (os.pread(file, os.fstat(file).st_size, 0) for file in self.files[1:])
        return Ended(status, output, errors, len(marks))


class Tally:
    """How many were tried of each kind, and the names of those that were wrong."""

    def __init__(self):
        self.tried = Counter()
        self.wrong = []
        self.shown = set()

    def note(self, kind, name, is_right):
        self.tried[kind] += 1
        if not is_right:
            self.wrong.append(f"{kind}: {name}")

    def add(self, other):
        self.tried += other.tried
        self.wrong += other.wrong
        self.shown |= other.shown

    def tell(self):
        """Prints a line for each try that was wrong, and then one for each kind. check_all reads them."""
        for name in self.wrong:
            print(f"failed: {name}")
        wrong = Counter(name.split(":")[0] for name in self.wrong)
        for kind, tried in sorted(self.tried.items()):
            print(f"tried: {tried} {wrong[kind]} {kind}")


class Example(NamedTuple):
    """A script with the transcript that one worker leaves."""

    name: str
    script: bytes
    transcript: bytes

    def entries(self):
        """Returns how many entries the transcript has."""
        return self.transcript.count(b'"n":')

    def verdict(self):
        """Returns what `check` prints of the transcript."""
        return b"legal %d\n" % self.entries()

    def beginnings(self):
        """Returns the transcripts of the run's beginnings: of no step, of the first, of the first two, and so on."""
        script = json.loads(self.script)
        header, *lines = self.transcript.splitlines(keepends=True)
        entries = lines[: self.entries()]
        words = [(json.loads(line)["step"], line) for line in lines[self.entries() :]]
        with_lines = {at for at, _ in words}
        texts, made = [header], 0
        for place in range(-len(script["setup"]), len(script["steps"])):
            # A step has an entry or a word line. Which of both a finish_taken has depends on the run.
            made += place not in with_lines
            told = [line for at, line in words if at <= place]
            texts.append(b"".join([header, *entries[:made], *told]))
        return texts


def examples():
    """Returns the examples whose transcript is stored, in the order of their names."""
    found = []
    for folder in FOLDERS:
        for file in os.listdir(os.path.join(EXAMPLES, folder)):
            path = os.path.join(EXAMPLES, folder, file.removesuffix(".script"))
            if file.endswith(".script") and os.path.exists(path + ".transcript"):
                with open(path + ".script", "rb") as script, open(path + ".transcript", "rb") as transcript:
                    found.append(Example(os.path.basename(path), script.read(), transcript.read()))
    return sorted(found)


def work(tasks, prepare, given):
    """Does the tasks, rows of a function and its arguments, as many at once as there are processors. Each process first
    calls `prepare` with what is given. A task answers a Tally; this answers their sum."""
    whole = Tally()
    with multiprocessing.Pool(len(os.sched_getaffinity(0)), prepare, given) as pool:
        for tally in pool.imap_unordered(do, tasks):
            whole.add(tally)
    return whole


def do(task):
    call, *given = task
    return call(*given)
