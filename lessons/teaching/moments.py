"""Runs what a lesson shows, and has each entry of one packet's way drawn: a moment for each."""

import collections
import html
import json
import os
import re
import sys
import tempfile

import judging
import plans
import protocols
import telling
import texts

TOP = telling.TOP
sys.path += [TOP + "/page", TOP + "/bin"]
import drawing  # noqa: E402 (the path is set above)
import parts  # noqa: E402
import whole  # noqa: E402

READ = 3
# One step of what is shown: its number, its call on one line, and its picture with what is told of it, as HTML.
Moment = collections.namedtuple("Moment", "number call picture")
# What is told of a lesson's file, what the moments show, these, and the style of their pictures.
Shown = collections.namedtuple("Shown", "said name moments style")


def history_of(path):
    """Returns the history of a transcript."""
    with open(path, "rb", buffering=0) as file:
        return drawing.history_of(file, path)[0]


def run(number, path):
    """Runs a lesson's driver, with the transcript of the run that tells a fault. Returns what is told, and what this run told."""
    test = ['--cflag=-DDRIVER="driver"', f"{texts.folder_of(number)}/test.c"]
    words = [f"{TOP}/drivers/run", "--transcript", path, texts.files_of(number)[0]]
    status, said = judging.ended(words)
    if status == 1:
        return said, said
    said = judging.ended([*words, *test])[1]
    # The transcript is that of the last test, whichever of them tells the fault.
    failed = re.search(r"(?m)^(\w+):\n(?:host:.*\n)*\d+ entries.*NOT CLEAN", said)
    return said, judging.ended([*words, *test, "--test", failed[1]])[1] if failed else said


def packet_before(path, number):
    """Returns the packet of the last entry before the one with this number, or None."""
    with open(path, encoding="utf-8") as it:
        entries = [it for it in map(json.loads, it) if "call" in it and it["n"] < number]
    found = [it["call"].get("irp") or it["reply"]["irp"] for it in entries
             if "irp" in it["call"] or isinstance(it["reply"], dict) and "irp" in it["reply"]]
    return ".".join(map(str, found[-1])) if found else None


def packet_of(said, path, history):
    """Returns the packet that the first fault names, else that of the entry before it, else that of the first read."""
    fault = next((it for it in said.splitlines() if "FAULT" in it), "")
    named, before = re.search(r"IRP (\d+\.\d+)", fault), re.search(r"\[before entry (\d+)\]", fault)
    if named:
        return named[1]
    return before and packet_before(path, int(before[1])) or first_read(history)


def first_read(history):
    """Returns the packet of the first read that an entry prepares."""
    calls = (it["call"] for it in history.entries)
    return next((".".join(map(str, it["irp"])) for it in calls if it["do"] == "set_next" and it["major"] == READ), None)


def of_driver(number):
    """Returns what the host tells of a lesson's driver, with the way of the packet that it tells it of."""
    with tempfile.TemporaryDirectory() as folder:
        path = f"{folder}/driver.transcript"
        said, of_run = run(number, path)
        said = telling.told(said, 1)
        if not os.path.exists(path):
            return Shown(said, "", [], "")
        history = history_of(path)
        packet = packet_of(of_run, path, history)
        return shown_of(said, f"IRP {packet}" if packet else "The history", history, packet, of_run)


def of_history(number):
    """Returns the same of the lesson that has a history."""
    path = texts.files_of(number)[0]
    return shown_of(telling.told(judging.judge_history(path)[1], 4), "The history", history_of(path))


def of_protocol(number):
    """Returns the same of the lesson that has a protocol: the order that isn't right."""
    path = texts.files_of(number)[0]
    said = judging.judge_protocol(path)[1]
    return Shown(said, "The order", [Moment(*it) for it in protocols.moments_of(path, said)], "")


def of(number):
    """Returns what is told of a lesson's file, and what shows it."""
    own = {plans.HISTORY: of_history, plans.PROTOCOL: of_protocol}
    return own.get(number, of_driver)(number)


def note_of(fault):
    """Returns what a moment says of a fault that the host told behind it."""
    text = re.sub(r"^\w+: | \[before entry \d+\]", "", telling.named(telling.without_remedy(fault)))
    # A history has no dispatch that pends without a mark.
    more = ". The picture has a mark all the same, as each history has behind STATUS_PENDING." if "marked nothing" in text else ""
    return f'<p class="fault">Then the host tells: {html.escape(text + more)}</p>'


def noted(moments, run):
    """Returns moments, with the first fault that a run told behind one of them."""
    for fault in re.findall(r"(?m)^.*FAULT .*\[before entry \d+\].*$", run):
        before = int(re.search(r"\[before entry (\d+)\]", fault)[1])
        at = sum(it.number < before for it in moments) - 1
        if at >= 0:
            noted_one = moments[at]._replace(picture=moments[at].picture + note_of(fault))
            return [*moments[:at], noted_one, *moments[at + 1:]]
    return moments


def shown_of(said, name, history, packet=None, run=""):
    """Returns what is told, with the moments of a packet or of all, in order, and what a run told behind one of them."""
    use = tuple(map(int, packet.split("."))) if packet else None
    found = [Moment(number, html.escape(call), shown) for number, call, shown in whole.moments(history, use)]
    return Shown(said, name, noted(found, run), parts.text_of("page.css"))
