#!/usr/bin/env python3
"""Shows that each step of a script that is warned of is refused, or finished as no device takes it.

Usage: warned.py SCRIPT TRANSCRIPT WARNINGS. The transcript is that of one worker. Ends with status 1 where a step isn't.
"""

import json
import re
import sys

# The steps that have word lines in place of entries.
BESIDE = ("acquire", "release", "begin_remove", "drained", "hand", "publish", "withdraw", "request")


def lines(name):
    with open(name, encoding="utf-8") as file:
        return [json.loads(line) for line in file]


def replies(script, transcript):
    """Returns what was answered to each step, by its list and its place."""
    entries = iter([it for it in transcript if "n" in it])
    words = {it["step"]: it for it in transcript if "step" in it}
    answered = {}
    for section in ("setup", "steps"):
        for place, step in enumerate(script[section]):
            beside = step["do"] in BESIDE or section == "steps" and place in words
            answered[section, place] = words[place] if beside else next(entries)
    return answered


def is_borne_out(answer):
    reply = json.dumps(answer["reply"])
    return "refused" in reply or "not_held" in reply or "no_lock" in reply or "3221225488" in reply


def main():
    with open(sys.argv[1], encoding="utf-8") as file:
        script = json.load(file)
    answered = replies(script, lines(sys.argv[2]))
    with open(sys.argv[3], encoding="utf-8") as file:
        told = re.findall(r"^warning: (\w+)\[(\d+)\]", file.read(), re.MULTILINE)
    sys.exit(not all(is_borne_out(answered[section, int(place)]) for section, place in told))


main()
