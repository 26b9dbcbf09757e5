"""Runs a command within limits: where the system allows it in namespaces of its own, without a network, where it sees the
system's programs and these lessons alone, and writes to a private /tmp alone; else with the limits alone.

`inside.py` watches the command from within. It is process 1 of the namespace: where it ends, the system ends all others."""

import os
import shutil
import subprocess
import sys
import tempfile
from collections import namedtuple

HERE = os.path.dirname(os.path.abspath(__file__))
# How much a run may take: seconds of the processor, megabytes in memory, processes at once, megabytes of files.
Limits = namedtuple("Limits", "seconds memory processes files")
USUAL = Limits(600, 2048, 100, 512)
# How inside.py ends where a limit is passed.
ENDS = {100: "time", 101: "processes", 102: "memory"}
NAMESPACES = ("--mount", "--pid", "--net", "--ipc", "--fork", "--kill-child")
MOST_SAID = 20000
Ended = namedtuple("Ended", "status said")


class Sandbox:
    """What commands run in. `why_not` tells why they run outside of namespaces, or is None."""

    def __init__(self, limits, programs):
        """`programs` are those that the commands need beside the system's and the repository's."""
        self.limits, self.programs, self.why_not = limits, programs, None

    def command(self, room, words):
        """Returns the command line that runs a command with the files of `room`."""
        inside = [sys.executable, HERE + "/inside.py", room, *map(str, self.limits)]
        if self.why_not is not None:
            return [*inside, "-", *words]
        space = [*NAMESPACES, *([] if os.geteuid() == 0 else ["--user", "--map-root-user"])]
        return ["unshare", *space, *inside, ":".join(self.programs), *words]

    def run(self, room, *words):
        """Runs a command. Returns its exit status, or which limit ended it, and what it printed."""
        with tempfile.TemporaryFile() as out:
            status = self.waited(self.command(room, words), out)
            out.seek(0)
            return Ended(ENDS.get(status, status), out.read(MOST_SAID).decode("utf-8", "replace"))

    def waited(self, command, out):
        """Runs a command line to its end, which comes by itself. Returns its exit status."""
        return subprocess.run(command, stdin=subprocess.DEVNULL, stdout=out, stderr=out, start_new_session=True, check=False).returncode

    def probe(self, room):
        """Finds out whether the system allows namespaces."""
        lacking = [it for it in ("unshare", "setpriv", "mount") if not shutil.which(it)]
        if lacking:
            self.why_not = f"there is no {lacking[0]}"
            return
        made = self.run(room, "true")
        if made.status != 0:
            self.why_not = (made.said.strip().splitlines() or [f"unshare ends with {made.status}"])[-1]
