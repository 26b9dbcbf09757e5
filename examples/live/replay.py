#!/usr/bin/env python3
"""A harness over irp live: goes through a recorded history, and asks before each call what it would be refused with.

Usage: replay.py TRANSCRIPT [IRP_LIVE]. IRP_LIVE names another program. It tells where an answer isn't what was recorded, and what is wrong with the first
wrong entry. Then it prints the verdict, and ends with the status of irp live. A harness that drives code of its own makes
the same calls: `would` before the code's call, `feed` once it knows the entry."""

import json
import os
import subprocess
import sys

HERE = os.path.dirname(os.path.realpath(__file__))


class Manager:
    """The proved manager behind two pipes."""

    def __init__(self, header, program=HERE + "/../../bin/irp_live"):
        self.process = subprocess.Popen([program], stdin=subprocess.PIPE, stdout=subprocess.PIPE, text=True, bufsize=1)
        if self.ask(header) is not None:
            sys.exit("the header is refused")

    def tell(self, line):
        self.process.stdin.write((line if isinstance(line, str) else json.dumps(line)) + "\n")
        return self.process.stdout.readline()

    def ask(self, line):
        return json.loads(self.tell(line))

    def would(self, call):
        """The refusal that the call would get now, or None."""
        return self.ask({"would": call})

    def look(self, slot, use):
        """What a Look would be replied with, or the refusal."""
        return self.ask({"look": [slot, use]})

    def feed(self, entry):
        """What is wrong with the next entry, or None."""
        return self.ask(entry)

    def end(self):
        """The verdict and the exit status."""
        return self.tell({"end": True}).strip(), self.process.wait()


def main(path, *program):
    with open(path, encoding="ascii") as it:
        header, *lines = it.read().splitlines()
    manager = Manager(header, *program)
    for line in lines:
        entry = json.loads(line)
        if "call" in entry:
            reply = entry["reply"]
            refusal = reply.get("refused") if isinstance(reply, dict) else None
            if entry["call"]["do"] == "look":
                if manager.look(*entry["call"]["irp"]) != (refusal or reply):
                    print("entry", entry["n"], "shows something else")
            elif manager.would(entry["call"]) != refusal:
                print("entry", entry["n"], "would be refused otherwise than", refusal)
        wrong = manager.feed(line)
        if wrong and "made" in wrong:
            print("entry", entry["n"], "is wrong in", wrong["differs"], "the manager makes", json.dumps(wrong["made"]))
    verdict, status = manager.end()
    print(verdict)
    return status


if __name__ == "__main__":
    sys.exit(main(*sys.argv[1:]))
