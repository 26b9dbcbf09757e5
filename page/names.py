"""Names for a history's numbers: from the host's record of a run, or from the script that was run."""

from tables import RULES


class Names:
    """What each number is called. Where there is no name the number is told."""

    def __init__(self):
        self.devices, self.drivers, self.dispatches, self.cancels = {}, {}, {}, {}
        self.seats, self.locks, self.slots, self.packets = {}, {}, {}, {}
        self.completions = {rule: {} for rule in RULES}
        self.from_where = ""

    def take_record(self, head, threads):
        """Takes the names that the host of drivers in C tells."""
        self.from_where = "the host"
        self.devices = dict(enumerate(head["devices"]))
        self.dispatches = dict(enumerate(head["dispatches"]))
        self.cancels = dict(enumerate(head["cancels"]))
        self.completions = {rule: dict(enumerate(it)) for rule, it in zip(RULES, head["completions"])}
        self.seats = threads

    def take_script(self, script, path):
        """Takes the names that a script in words gives."""
        self.from_where = path
        for name in ("devices", "drivers", "dispatches", "cancels", "seats", "locks", "slots", "completions"):
            setattr(self, name, getattr(script, name))

    def label(self, entries, labels):
        """Gives packets the labels that a script allocates them as, and keeps them over each new use."""
        labels = iter(labels)
        for entry in entries:
            call, reply = entry["call"], entry["reply"]
            if "irp" not in reply or call["do"] not in ("allocate", "reuse"):
                continue
            label = next(labels, None) if call["do"] == "allocate" else self.packets.get(tuple(call["irp"]))
            if label:
                self.packets[tuple(reply["irp"])] = label
