"""Compares the names that irp_view prints with the tables of the second reading, one by one, and those with the tables that
irp_words prints."""

import json
import os
import subprocess
import sys

sys.path.insert(0, os.path.join(os.path.dirname(os.path.abspath(__file__)), "second_reading"))
from names_in_windows import MAJORS, ROUTINES, STATUSES, major, status  # noqa: E402 (the path is set above)
from why_texts import IN_WINDOWS, MEANINGS, calls_of_page  # noqa: E402

HEADER = {"cancels": [], "completions": [0] * 5, "dispatches": [], "drivers": [], "form": 2, "locks": 1, "seats": 1,
          "slots": 0}
PACKET = {"irp": [0, 1]}
OWNER = {"by": "o", **PACKET}


def entry(call, reply, number):
    return {"asked": [], "call": call, "n": number, "reply": reply, "seat": 0}


def calls():
    """Returns calls with their replies, and for each what its block has to have."""
    found = [({"do": "set_next", "major": it, "word": 7, **OWNER}, "done", f": {major(it)}, word 0x7")
             for it in range(len(MAJORS) + 1)]
    found += [({"do": "reuse", "status": it, **PACKET}, {"irp": [0, 2]}, f", {status(it)})")
              for it in [*STATUSES, 0xC0FFEE00]]
    complete = {"do": "complete", "information": 0, "status": 0, **OWNER}
    others = {"call_driver": {"do": "call_driver", "target": 0, **OWNER},
              "reuse": {"do": "reuse", "status": 0, **PACKET}, "complete": complete,
              "delete": {"device": 0, "do": "delete", "drained": False, "lock": None}}
    refusals = [("complete", name) for name in MEANINGS] + [it for it in IN_WINDOWS if it[0] != "complete"]
    for do, name in refusals:
        windows = f" (in Windows: {IN_WINDOWS[do, name]})" if (do, name) in IN_WINDOWS else ""
        found.append((others[do], {"refused": name}, f"refused: {name}, {MEANINGS[name]}{windows}\n"))
    return found


def compare(tables):
    """Returns what each table of irp_words has, and what the second reading has for it."""
    acts, refusals = tables["acts"], tables["refusals"]
    in_windows = {(do, it["name"]): name for it in refusals for do, name in it["windows"].items()}
    tokens = {("finish_taken", name): windows for (do, name), windows in IN_WINDOWS.items() if do == "complete"}
    return {
        "routines": ({it["word"]: it["windows"] for it in acts if it["word"] in ROUTINES}, ROUTINES),
        "names in RULES": ({it["word"]: it["rules"] for it in acts if it["word"] in ROUTINES},
                           {do: calls_of_page()[do][0] for do in ROUTINES}),
        "numbers": ([it["number"] for it in refusals], [*range(1, len(MEANINGS) + 2)]),
        "meanings": ({it["name"]: it["meaning"] for it in refusals}, {**MEANINGS, "HistoryFull": "the history is full"}),
        "mistakes": (in_windows, {**IN_WINDOWS, **tokens}),
        "statuses": (tables["statuses"], [[it, status(it)] for it in STATUSES]),
        "majors": (tables["majors"], [[it, major(it)] for it in range(len(MAJORS))]),
    }


def main():
    wanted = calls()
    rows = [HEADER, *(entry(call, reply, at) for at, (call, reply, _) in enumerate(wanted))]
    text = "".join(json.dumps(it, sort_keys=True, separators=(",", ":")) + "\n" for it in rows)
    made = subprocess.run([sys.argv[1], "text"], input=text, capture_output=True, text=True, check=False, timeout=600)
    blocks = {}
    for line in made.stdout.splitlines():
        if line[:4].strip():
            number = int(line[:4])
        blocks[number] = blocks.get(number, "") + line + "\n"
    wrong = 0
    for at, (call, _, told) in enumerate(wanted):
        if told not in blocks.get(at, ""):
            wrong += 1
            print(f"failed: names: {call}: no {told!r} in {blocks.get(at)!r}")
    if made.returncode:
        wrong += 1
        print(f"failed: names: exit status {made.returncode}: {made.stderr}")
    told = subprocess.run([sys.argv[2], "tables"], capture_output=True, text=True, check=True, timeout=600).stdout
    pairs = compare(json.loads(told))
    for table, (one, other) in pairs.items():
        if one != other:
            wrong += 1
            print(f"failed: names: {table} of irp_words: {one}, and not {other}")
    print(f"tried: {len(wanted) + len(pairs)} {wrong} names in Windows")
    return 1 if wrong else 0


if __name__ == "__main__":
    sys.exit(main())
