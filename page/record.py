"""Reads what the host of drivers in C left beside a transcript (docs/FORMATS.md): names, lines of source, faults and
switches, in the order in which they were recorded. It is the host's word, and nobody judged it."""

import json
import os
import zlib
from collections import namedtuple

# A fault of the host: its rule, what others know it as, whose packet, what is said of it, where, its call, how often at
# this place, its seat, and the row that it belongs to, or None.
Fault = namedtuple("Fault", "number name known packet said where by times seat of")
# Where a thread gave way: its number, how (preempted, waits, yields, ends), at which call and place, and who went on.
Switch = namedtuple("Switch", "thread how at is_early is_decision to next")


class Unfit(Exception):
    """Why a record isn't taken."""


class Record:
    """What the host tells of a run. `rows` has all that was recorded, in order: entries, steps, faults and switches."""

    def __init__(self, path, text):
        try:
            with open(path, encoding="utf-8", errors="replace") as it:
                self.head, *lines = map(json.loads, it)
            if (self.head["bytes"], self.head["crc"]) != (len(text), zlib.crc32(text)):
                raise Unfit("is of another transcript")
            for it in ("devices", "dispatches", "cancels", "completions"):
                list(self.head[it])
            self.entries, self.steps, self.faults, self.switches, self.notes, self.details = {}, {}, [], [], [], []
            self.rows, self.threads, self.run, self.sources, self.packets = [], {}, {}, {}, {}
            for line in lines:
                self.take(line)
        except (OSError, ValueError, KeyError, TypeError, AttributeError) as why:
            raise Unfit("can't be read") from why
        if len(self.entries) != self.head["entries"]:
            raise Unfit("ends early")
        self.faults = [it._replace(of=self.row_of(it)) for it in self.faults]

    def take(self, line):
        """Takes one line."""
        for by in (line.get("by", {}), *line.get("asked", [])):
            checked(by)
        if "n" in line:
            self.entries[line["n"]] = line
            self.rows.append(("entry", line["n"]))
        elif "step" in line:
            self.steps[line["step"]] = line["by"]
            if "packet" in line:
                self.packets[line["step"]] = tuple(line["packet"])
            self.rows.append(("step", line["step"]))
        elif "fault" in line:
            self.rows.append(("fault", len(self.faults)))
            packet = tuple(line["packet"]) if "packet" in line else None
            self.faults.append(Fault(len(self.faults) + 1, line["fault"], line.get("known", ""), packet, line["said"],
                                     line.get("where", ""), line["by"], line.get("times", 1), line["seat"], None))
        elif "switch" in line:
            self.rows.append(("switch", len(self.switches)))
            self.threads.update({line["thread"]: line["name"], line["to"]: line["to_name"]})
            self.switches.append(Switch(line["thread"], line["switch"], line["at"], line["early"], line["is_decision"],
                                        line["to"], line["next"]))
        elif "note" in line:
            self.notes.append(f"{line['note']}: {line['said']}")
        elif "detail" in line:
            self.details.append(line["detail"])
        elif "sources" in line:
            self.sources = line["sources"]
        elif "run" in line:
            self.run = line["run"]

    def source(self, file, number):
        """Returns a line of source as it was, or nothing."""
        return self.sources.get(file, {}).get(str(number), "")

    def source_at(self, where):
        """Returns the line of source at a place that is a text, such as `a.c:12 in F`."""
        file, _, number = where.partition(" ")[0].rpartition(":")
        return self.source(file, number)

    def by(self, row):
        """Returns the place of a row that is an entry or a step."""
        kind, at = row
        return self.entries[at]["by"] if kind == "entry" else self.steps[at] if kind == "step" else {}

    def row_of(self, fault):
        """Returns the entry or step whose call told a fault: the first one behind it, or else the last one before it, that
        was made in the same line. None where there is none: then it stands by itself."""
        at, wanted = self.rows.index(("fault", fault.number - 1)), call_of(fault.by)
        if not wanted:
            return None
        behind = self.neighbour(self.rows[at + 1:at + 12], wanted)
        return behind or self.neighbour(self.rows[max(at - 3, 0):at][::-1], wanted)

    def neighbour(self, rows, wanted):
        """Returns the first of these rows that the call made, up to a switch of threads."""
        for row in rows:
            if row[0] == "switch":
                return None
            if row[0] != "fault" and call_of(self.by(row)) == wanted:
                return row
        return None


def checked(by):
    """Whether a place has what it needs, else an exception tells it."""
    return not by or (by["file"], by["function"], int(by["line"]), by["call"])


def call_of(by):
    """Returns what tells a call from another one."""
    return (by["call"], by["file"], by["line"]) if "file" in by else None


def read(path, text):
    """Returns the record beside a transcript with that text, or None, and why one isn't taken."""
    if not path or not os.path.exists(path + ".places"):
        return None, ""
    try:
        return Record(path + ".places", text), ""
    except Unfit as why:
        return None, f"{os.path.basename(path)}.places {why}: names, lines and faults of drivers are left out"
