"""Reads the story of a history: the lines that `irp story` writes. All that a page says of the history comes from there."""

import json
import subprocess
from collections import namedtuple

# An entry, how it stands (legal, illegal, unjudged), where its call left its packet, that packet in the manager's state
# behind it, and what is wrong with it. The last three may be None.
Told = namedtuple("Told", "entry judged outcome packet wrong")


class Untold(Exception):
    """Why there is no story, and the exit status of who told none."""

    def __init__(self, message, status):
        super().__init__(message)
        self.status = status


class Story:
    """The header, what is told of each entry, the steps on locks and slots, the verdict, and what `irp why` says."""

    def __init__(self, view, file):
        made = told_by(view, "story", file)
        if made.returncode:
            raise Untold(made.stderr.strip() or f"irp_view ended with {made.returncode}", made.returncode)
        self.header, self.entries, self.steps, self.wrong_at, self.why = {}, [], [], None, []
        for line in made.stdout.splitlines():
            self.take(json.loads(line))
        if self.wrong_at is not None:
            self.why = rows_of(told_by(view, "why", file).stdout)

    def take(self, line):
        """Takes one line."""
        if "entry" in line:
            self.entries.append(Told(*(line[key] for key in Told._fields)))
        elif "step" in line:
            self.steps.append(line["step"])
        elif "header" in line:
            self.header = line["header"]
        else:
            self.wrong_at = line["wrong_at"]


def told_by(view, word, file):
    """Runs irp_view on an opened file."""
    file.seek(0)
    return subprocess.run([view, word], stdin=file, capture_output=True, text=True, encoding="utf-8", check=False)


def rows_of(text):
    """Returns the rows of what `irp why` prints, each a name and what stands behind it."""
    rows = [line.strip().split("  ", 1) for line in text.splitlines()[1:] if line.startswith("  ")]
    return [(row[0], row[1].strip()) for row in rows if len(row) == 2]
