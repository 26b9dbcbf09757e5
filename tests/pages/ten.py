"""Makes ten pages: of runs of scripts and of drivers in C, of an order, of a record of Wine."""

import json
import os
import re
import subprocess

HERE = os.path.dirname(os.path.abspath(__file__))
TOP = os.path.dirname(os.path.dirname(HERE))
EXAMPLES = "examples"
SLOT = EXAMPLES + "/slots/a_canceller_takes_a_packet_from_its_slot.words"


class Unmade(Exception):
    """Why a page wasn't made."""


def irp(*words, out=None, ends=(0,)):
    """Runs irp. Returns what it printed."""
    made = subprocess.run([TOP + "/bin/irp", *words], stdout=out or subprocess.PIPE, stderr=subprocess.PIPE, text=True,
                          check=False, cwd=TOP)
    if made.returncode not in ends:
        raise Unmade(f"irp {' '.join(words)}: {(made.stderr or made.stdout or '')[-600:]}")
    return made.stdout


def of_transcript(path, *more):
    """Returns what makes the page of a transcript."""
    return lambda page: irp("page", *more, "-o", page, path)


def of_drivers(*words, ends=(0, 1)):
    """Returns what makes the page of a run of drivers."""
    def make(page):
        irp("drive", "--page", page, "--transcript", page + ".transcript", *words, ends=ends)

    return make


def of_order(page):
    """Makes the page of one order of a script with a cancel slot."""
    with open(page + ".transcript", "w", encoding="utf-8") as out:
        irp("orders", "--show", "3", SLOT, out=out)
    irp("page", "--names", SLOT, "--title", "A canceller at a slot: outcome 3", "-o", page, page + ".transcript")


def of_words(script, title):
    """Returns what runs a script in words, and makes its page."""
    def make(page):
        with open(page + ".transcript", "w", encoding="utf-8") as out:
            irp("run", script, out=out)
        irp("page", "--names", script, "--title", title, "-o", page, page + ".transcript")

    return make


def of_packet(page):
    """Makes the page of the packet that lesson 8's first fault names, from the page's own transcript."""
    whole = os.path.dirname(page) + "/lesson_8.html.transcript"
    irp("page", "--packet", first_packet(whole + ".places"), "-o", page, whole)


def first_packet(path):
    """Returns the first packet that a fault of a record names in its text."""
    with open(path, encoding="utf-8") as it:
        faults = [line["said"] for line in map(json.loads, it) if "fault" in line]
    return re.search(r"IRP (\d+\.\d+)", faults[0])[1]


TEN = {
    "two_devices": of_transcript(EXAMPLES + "/practice/two_devices.transcript", "--title", "Two devices"),
    "an_entry_that_is_wrong": of_transcript(EXAMPLES + "/why/shown_the_location_below_a_skip.transcript", "--title",
                                            "An entry that no manager makes"),
    "the_status_is_read_once": of_transcript("tests/pages/mend_on_error.transcript", "--title", "Wine 8.0: mend_on_error"),
    "an_order_with_a_slot": of_order,
    "two_stacks": of_words("tests/pages/two_stacks.words", "Thirty-two devices"),
    "a_race": of_drivers("--every-order", "--scenario", "overlap", "drivers/races/untested/pends.c"),
    "a_removal": of_drivers("drivers/stacks/removal.c"),
    "a_deadlock": of_drivers("--patience", "2", "drivers/hostile/takes_two_mutexes.c"),
    "lesson_8": of_drivers("lessons/08_remove_locks/driver.c"),
    "one_packet": of_packet,
}


def make(folder):
    """Makes all pages in a folder. Returns their paths by their names."""
    folder = os.path.abspath(folder)
    os.makedirs(folder, exist_ok=True)
    for name, made in TEN.items():
        made(f"{folder}/{name}.html")
    return {name: f"{folder}/{name}.html" for name in TEN}
