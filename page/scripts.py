"""Reads what a script in words, or in JSON, tells beside its run: names, and which of its steps make no entry."""

import json
import re

from tables import RULES

SECTIONS = ("completions", "cancels", "dispatches", "drivers", "setup", "steps")
ON_LOCKS = ("acquire", "release", "begin_remove", "drained", "hand", "publish", "withdraw", "request")


class Script:
    """The names of a script in words, how many calls its setup has, and of each step the seat and what it does: None where
    it hangs on a condition."""

    def __init__(self, text):
        self.devices, self.drivers, self.dispatches, self.cancels = {}, {}, {}, {}
        self.seats, self.locks, self.slots = {}, {}, {}
        self.completions = {rule: {} for rule in RULES}
        self.labels, self.setup, self.steps, self.made = [], 0, [], 0
        if text.lstrip().startswith("{"):
            self.read_json(json.loads(text))
        else:
            self.read_words(text)

    def read_json(self, script):
        self.setup = len(script["setup"])
        self.steps = [None if "if" in it else (it["seat"], it["do"]) for it in script["steps"]]

    def read_words(self, text):
        section = ""
        for line in text.splitlines():
            words = line.split("#")[0].split()
            if words[:1] and words[0] in SECTIONS and len(words) == 1:
                section = words[0]
            elif words and not section:
                self.take_heading(words)
            elif words and section in ("setup", "steps"):
                self.take_step(section, words)
            elif words:
                self.take_name(section, words)

    def take_heading(self, words):
        """Takes a line before the first section: names of seats, locks or slots."""
        if words[0] in ("seats", "locks", "slots") and len(words) > 1 and not words[1].isdigit():
            setattr(self, words[0], dict(enumerate(words[1:])))

    def take_name(self, section, words):
        """Takes a line of a table. Routines are counted by their rules."""
        name = words[0][:-1] if words[0].endswith(":") else ""
        if section == "completions":
            rule = words[1] if name else words[0]
            table = self.completions.setdefault(rule, {})
            table[len(table)] = name or None
        else:
            table = getattr(self, section)
            table[len(table)] = name or None

    def take_step(self, section, words):
        """Takes a line of the setup or a step."""
        words = words[1:] if words[0].endswith(":") else words
        seat, words = (self.seat(words[1]), words[2:]) if words[0] == "seat" else (0, words)
        do, count = words[0], 1
        if do == "stack":
            count = self.take_stack(words[1:])
        elif do == "create_device":
            self.take_device(words[words.index("as") + 1] if "as" in words else None)
        elif do == "allocate" and "as" in words:
            self.labels.append(words[words.index("as") + 1])
        if section == "setup":
            self.setup += count
        else:
            self.steps += [(seat, "create_device"), *[(seat, "create_device"), (seat, "attach")] * (count // 2)] \
                if do == "stack" else [None if do == "if" else (seat, do)]

    def seat(self, name):
        return int(name) if name.isdigit() else next((n for n, it in self.seats.items() if it == name), 0)

    def take_device(self, name):
        self.devices[self.made] = name
        self.made += 1

    def take_stack(self, words):
        """Takes the devices of a stack. Returns how many calls it is: each is made, and all but the first are attached."""
        drivers = re.findall(r"(?<!\S)(?!lock )(\S+)(?: as (\S+))?", re.sub(r"\block \S+", "", " ".join(words)))
        for driver, name in drivers:
            self.take_device(name or None)
        return 2 * len(drivers) - 1

    def places(self, entries, steps):
        """Returns before which entry each step without one happened, by its number; of a step that isn't there it isn't
        known: another seat's calls stand beside it. None where the history isn't one of this script without conditions."""
        without = {it["step"] for it in steps}
        if None in self.steps or not all(n in without or do not in ON_LOCKS for n, (_, do) in enumerate(self.steps)):
            return None
        found = {}
        for seat in {it[0] for it in self.steps}:
            if not self.place_of_seat(seat, entries, without, found):
                return None
        return found

    def place_of_seat(self, seat, entries, without, found):
        """Finds the places of a seat's steps without an entry. Returns whether its calls are those of the script."""
        its = [n for n in range(self.setup, len(entries)) if entries[n]["seat"] == seat]
        own = [(n, do) for n, (by, do) in enumerate(self.steps) if by == seat]
        if [do for step, do in own if step not in without] != [entries[n]["call"]["do"] for n in its]:
            return False
        made = 0
        for step, _ in own:
            if step not in without:
                made += 1
                continue
            least = its[made - 1] + 1 if made else self.setup
            most = its[made] if made < len(its) else len(entries)
            if least == most:
                found[step] = least
        return True
