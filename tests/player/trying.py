"""What a manager does with steps that the model refuses, in a few words, and the table of docs/PRACTICE.md that has them."""

import concurrent.futures
import re
import subprocess
import tempfile

import building
import refusals
import running
from conditions import is_refused
from playable import Playable

PAGE = building.TOP + "/docs/PRACTICE.md"
HEAD = ["| Step | Refusal | Wine 8.0 | Host |", "|---|---|---|---|"]
PLACES = {"wine": 2, "host": 3}  # of the columns
PATIENCE = 120  # seconds
SIDE_BY_SIDE = {"host": 8, "wine": 2}  # rows at a time: some wait ten seconds for what doesn't come


class Try:
    """One row's script, and what the model makes of it."""

    def __init__(self, row, model):
        script, place = refusals.script_of(row)
        lines, wrong = model.run(script)
        if wrong:
            raise building.Failed(f"{row.what}: {wrong}")
        self.row, self.playable = row, Playable(script, lines, (place,))
        self.at = self.playable.places[place]
        reply = self.playable.expected[self.at]["reply"]
        if reply not in (row.refusal, {"refused": row.refusal}):
            raise building.Failed(f"{row.what}: the model answers {reply}")
        if any(is_refused(it["reply"]) for k, it in enumerate(self.playable.expected) if k != self.at):
            raise building.Failed(f"{row.what}: another step is refused, too")


def play(it, manager, room):
    """Returns the first record of the player, or None, and what the manager said."""
    with tempfile.NamedTemporaryFile(dir=room, suffix=".feed") as file:
        file.write(it.playable.feed())
        file.flush()
        try:
            made = subprocess.run([*manager.words, file.name, "0", running.ONE_THREAD], env=manager.setting, check=False,
                                  stdin=subprocess.DEVNULL, capture_output=True, timeout=PATIENCE)
            out, said = made.stdout, made.stderr
        except subprocess.TimeoutExpired as late:
            out, said = late.stdout or b"", late.stderr or b""
    return running.read_answers(out, True).get(0), said.decode(errors="replace")


def asked(entry):
    """Returns who was asked, in order: devices whose dispatch was, and routines by their rule."""
    return [f"D{it['shown'][0]}" if "dispatch" in it else "cancel routine" if "cancel" in it else
            it["completion"][0] for it in entry["asked"]]


def entry_of(record, do, which):
    """Returns the n-th entry that does `do`."""
    found = [it for it in record.lines[1:] if "n" in it and it["call"]["do"] == do]
    return found[which] if which < len(found) else None


def doings(it, k):
    """Returns which of its kind an operation is, among the entries of a record."""
    name = lambda op: op[0] & 255
    return sum(name(op) == name(it.playable.ops[k]) for op in it.playable.ops[:k])


def what_was_done(it, record):
    """Returns what the manager did with the refused step."""
    if record is None:
        return "stops"
    if record.how in ("crash", "hang") and record.made <= it.at:
        return {"crash": "crashes", "hang": "hangs"}[record.how]
    if record.replies[it.at:it.at + 1] == [running.LEFT_OUT]:
        return "refuses"
    do = it.playable.expected[it.at].get("call", {}).get("do")
    if do in ("call_driver", "complete"):
        entry = entry_of(record, do, doings(it, it.at))
        return ("asks " + ", ".join(asked(entry)) if asked(entry) else "asks nobody") if entry else "taken"
    return "taken"


def what_came_later(it, record):
    """Returns what was otherwise than in the model behind the step, or None."""
    last = len(it.playable.ops) - 1
    if record is None or last == it.at or record.how in ("crash", "hang") and record.made <= it.at:
        return None
    if record.how in ("crash", "hang"):
        return {"crash": "later crashes", "hang": "later hangs"}[record.how]
    if record.how == "parted":
        return "the packet has moved"
    made = it.playable.expected[last]
    if made.get("do") == "drained":
        got = bool(record.replies[last])
        return None if got == (made["reply"] == "yes") else "the lock drains" if got else "the lock never drains"
    entry = entry_of(record, made["call"]["do"], doings(it, last))
    return None if not entry or asked(entry) == asked(made) else \
        "later asks " + (", ".join(asked(entry)) or "nobody")


def what_was_told(said):
    """Returns the names of the faults that the host told, but for those of the player's own taking down."""
    return list(dict.fromkeys(f"`{it}`" for it in re.findall(r"FAULT (\w+)", said.split("\n@ ")[0])))


def cell(it, manager, room):
    """Returns the faults that the host told, else what the manager did."""
    record, said = play(it, manager, room)
    told = what_was_told(said) if manager.name == "host" else []
    return ", ".join(told or filter(None, (what_was_done(it, record), what_came_later(it, record))))


def columns(names, room, words=()):
    """Returns of each row what each manager does, by its name."""
    model, made = running.Model(), {}
    rows = [row for row in refusals.ROWS if not words or any(it in row.what for it in words)]
    tries = [Try(row, model) for row in rows]
    for name in names:
        manager = running.manager(name, room)
        try:
            if name == "wine":  # its first start makes its folder
                manager.play([tries[0].playable.feed()])
            with concurrent.futures.ThreadPoolExecutor(SIDE_BY_SIDE[name]) as pool:
                for it, text in zip(tries, pool.map(lambda it: cell(it, manager, room), tries)):
                    made.setdefault(it.row, {})[name] = text
        finally:
            manager.end()
    return made


def page_table():
    """Returns the table's lines as they stand on the page."""
    with open(PAGE, encoding="utf-8") as it:
        lines = it.read().splitlines()
    if HEAD[0] not in lines:
        return []
    first = lines.index(HEAD[0])
    last = next(k for k in range(first, len(lines)) if not lines[k].startswith("|"))
    return lines[first:last]


def page_rows():
    """Returns the cells of the page's rows, by their first."""
    rows = [[cell.strip() for cell in line.strip("|").split("|")] for line in page_table()[2:]]
    return {row[0]: row for row in rows}


def table(made, page):
    lines = list(HEAD)
    for row, cells in made.items():
        known = page.get(row.what, [row.what, row.refusal, "?", "?"])
        line = [row.what, row.refusal, known[2], known[3]]
        for name, text in cells.items():
            line[PLACES[name]] = text
        lines.append("| " + " | ".join(line) + " |")
    return lines
