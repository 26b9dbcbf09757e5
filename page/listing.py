"""What `irp text`, `packet` and `why` print: the lines of irp_view, and of a run of drivers in C names, files and lines
beside them. These stand in brackets: they are the host's word, and nobody judged it."""

import os
import re
import subprocess
import sys

import drawing
import irp_reading
import mermaid
import record
import story as stories
import words as wording
from tables import RULES

WORD = "In brackets: drivers, functions and lines as the host tells them; nobody judged that."
# How irp_view writes a device, and a routine.
DEVICE, ROUTINE = r"\bD(\d+)\b", rf"\b(dispatch|cancel routine|{'|'.join(RULES)}) (\d+)\b"
NO_PACKET = 2  # the exit status where no entry names the packet


class Names:
    """The names that a record has for what irp_view writes."""

    def __init__(self, host):
        self.devices = host.head["devices"]
        self.routines = {"dispatch": host.head["dispatches"], "cancel routine": host.head["cancels"],
                         **dict(zip(RULES, host.head["completions"]))}

    def named(self, text):
        """Returns a text with the driver behind each device, and the function behind each routine."""
        text = re.sub(DEVICE, lambda it: it[0] + in_brackets(at(self.devices, it[1])), text)
        return re.sub(ROUTINE, lambda it: it[0] + in_brackets(at(self.routines[it[1]], it[2])), text)


def at(names, number):
    return names[int(number)] if int(number) < len(names) else ""


def in_brackets(text):
    return f" [{text}]" if text else ""


def place_of(by):
    """Returns a place, and the driver where the name of its file doesn't tell it."""
    text = wording.place(by)
    tells = by.get("driver") in (None, os.path.splitext(by.get("file", ""))[0])
    return text if tells or not text else f"{text}, {by['driver']}"


def caller_of(by, shown):
    """Returns where an entry's call was made: with the real call, where the entry is another one that came of it."""
    text = place_of(by)
    if text and by.get("by_host"):
        return in_brackets(f"made by the host, so that the run goes on after {text}")
    return in_brackets(text if not text or f"{by['call']}(" in shown else f"by {by['call']}: {text}")


def with_places(host, lines):
    """Yields irp_view's lines of text with names and places: of each entry, and of each answer behind whoever was asked."""
    names, entry, turn, waits = Names(host), None, 0, False
    yield WORD + "\n"
    for line in lines:
        line = line.rstrip("\n")
        begins = re.match(r" *(\d+)  \S|entry (\d+) \(line \d+\): ", line)
        where = ""
        if begins:
            entry, turn, waits = host.entries.get(int(begins[1] or begins[2]), {"by": {}, "asked": []}), 0, False
            where = caller_of(entry["by"], line)
        elif entry is not None and re.match(r" +\S (D\d+|originator) ", line):
            waits = True
        elif waits:
            where = in_brackets(place_of(entry["asked"][turn]) if turn < len(entry["asked"]) else "")
            turn, waits = turn + 1, False
        yield names.named(line) + where + "\n"


def shown(view, words, text, host, name):
    """Runs irp_view with these words on an opened transcript, and prints what it prints, with names and places where there
    is a record. Returns its exit status, or that no entry names the packet."""
    text.seek(0)
    is_empty = True
    with subprocess.Popen([view, *words], stdin=text, stdout=subprocess.PIPE, text=True, encoding="utf-8",
                          errors="replace") as made:
        for line in with_places(host, made.stdout) if host else made.stdout:
            is_empty = is_empty and line == WORD + "\n"
            if words[0] == "why" and line.startswith("nothing is wrong: 0 entries"):
                irp_reading.tell_no_entry("why", name)
            sys.stdout.write(line)
        sys.stdout.flush()
    if words[0] == "packet" and is_empty and made.returncode == 0:
        chosen = "of these entries none" if "--entries" in words else "no entry"
        print(f"irp packet: {chosen} names IRP {words[1]}.{words[2]}", file=sys.stderr)
        return NO_PACKET
    return made.returncode


def diagram(text, file, slot, use):
    """Prints one packet's way in mermaid's language. Returns the exit status."""
    try:
        history, told = drawing.history_of(text, file)
    except stories.Untold as why:
        print(why, file=sys.stderr)
        return why.status
    packet = int(slot), int(use)
    if packet not in history.packets:
        print(f"irp packet: no entry names IRP {slot}.{use}", file=sys.stderr)
        return NO_PACKET
    if told:
        print(told, file=sys.stderr)
    sys.stdout.write(mermaid.Diagram(history, packet).text())
    return 0


def run(view, words, file):
    """Does what a word of irp says with a transcript. Returns the exit status."""
    text = irp_reading.transcript(words[0], file)
    if "--mermaid" in words:
        return diagram(text, file, *words[1:3])
    host, told = record.read(file, text.read())
    if told:
        print(told, file=sys.stderr)
    sys.stdout.reconfigure(encoding="utf-8", errors="replace")
    return shown(view, words, text, host, file)
