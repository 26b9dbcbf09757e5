"""What a page needs to know of a history beside each entry: who stands on whom, which packets there were, and the order of
all rows."""

from collections import defaultdict

import words as wording
from names import Names


class Packet:
    """One use of a packet: the entries that are about it, and the devices that it came to."""

    def __init__(self, use):
        self.use, self.entries, self.reached = use, [], set()


class Fact:
    """What is known of an entry: its packet, why it was refused, the devices that it touches, the rows of its picture, who
    had the packet before, where it is then, and its state before and then."""

    def __init__(self, told):
        entry = told.entry
        self.entry, self.outcome, self.wrong, self.judged = entry, told.outcome, told.wrong, told.judged
        reply = entry["reply"]
        self.refused = reply.get("refused", "") if isinstance(reply, dict) else ""
        self.use = use_of(entry)
        self.devices, self.rows, self.before, self.after = devices_of(entry), [], None, told.packet
        self.moves = told.outcome is not None


def use_of(entry):
    """Returns the packet that an entry is about, or None."""
    reply, call = entry["reply"], entry["call"]
    if isinstance(reply, dict) and "irp" in reply:
        return tuple(reply["irp"])
    return tuple(call["irp"]) if "irp" in call else None


def devices_of(entry):
    """Returns the devices that an entry names."""
    call = entry["call"]
    found = [it["shown"][0] for it in entry["asked"]] + [call.get("target"), call.get("device"), call.get("by")]
    return {it for it in found if isinstance(it, int)}


class History:
    """A story with all that follows from it, and what is known beside it."""

    def __init__(self, story, host=None, script=None, script_name=""):
        self.story, self.host, self.names = story, host, Names()
        self.entries = [it.entry for it in story.entries]
        self.steps = {it["step"]: it for it in story.steps}
        if host:
            self.names.take_record(host.head, host.threads)
        elif script:
            self.names.take_script(script, script_name)
            self.names.label(self.entries, script.labels)
        self.order, self.driver_of, self.deleted, self.below, self.locks = [], {}, {}, {}, {}
        self.packets, self.facts = {}, []
        for number, told in enumerate(story.entries):
            self.facts.append(self.follow(number, Fact(told)))
        self.words = wording.Words(self.names, {lock: its[0] for lock, its in self.locks.items() if len(its) == 1})
        self.rows, self.apart = self.all_rows(script)
        self.packet_of_step = self.packets_of_steps()
        self.faults = host.faults if host else []
        self.faults_of = defaultdict(list)
        for fault in self.faults:
            self.faults_of[fault.of].append(fault)

    def follow(self, number, fact):
        """Takes one entry: the devices that it makes or moves, and its packet."""
        call, reply = fact.entry["call"], fact.entry["reply"]
        do = call["do"]
        if not fact.refused and do == "create_device":
            self.order.insert(0, reply["device"])
            self.driver_of[reply["device"]] = call["driver"]
            self.locks.setdefault(call["lock"], []).append(reply["device"])
        elif not fact.refused and do == "attach":
            self.attach(call["device"], reply["device"])
        elif not fact.refused and do == "delete":
            self.deleted[call["device"]] = number
        if fact.use:
            self.follow_packet(number, fact)
        return fact

    def attach(self, upper, lower):
        """The upper device stands on the lower one from now on."""
        if upper in self.order and lower in self.order:
            self.below[upper] = lower
            self.order.remove(upper)
            self.order.insert(self.order.index(lower), upper)

    def follow_packet(self, number, fact):
        """Takes an entry that is about a packet."""
        packet = self.packets.setdefault(fact.use, Packet(fact.use))
        last = self.facts[packet.entries[-1]] if packet.entries else None
        fact.before = last.after if last else None
        packet.entries.append(number)
        reached = packet.reached | fact.devices
        fact.rows = [None] + [it for it in self.order if it in reached]
        if fact.moves:
            packet.reached = reached

    # ---- the order of all rows

    def all_rows(self, script):
        """Returns all rows in their order, entries, steps and faults, and the steps whose place isn't known."""
        if self.host:
            rows = [it for it in self.host.rows if it[0] != "step" or it[1] in self.steps]
            placed = {it[1] for it in rows if it[0] == "step"}
            rows = [it for it in rows if it[0] != "fault" or self.host.faults[it[1]].of is None]
            return rows, [it for it in sorted(self.steps) if it not in placed]
        places = script.places(self.entries, self.steps.values()) if script else None
        if places is None:
            return [("entry", n) for n in range(len(self.entries))], sorted(self.steps)
        before = defaultdict(list)
        for step, place in sorted(places.items()):
            before[place].append(("step", step))
        rows = [row for n in range(len(self.entries) + 1) for row in (*before[n], ("entry", n))]
        return rows[:-1], [it for it in sorted(self.steps) if it not in places]

    def packets_of_steps(self):
        """Returns for steps on remove locks the packet that the tag stands for, where the host tells it."""
        tagged, found = {}, {}
        for kind, at in self.rows if self.host else []:
            if kind == "step" and "tag" in self.steps[at]:
                key = self.steps[at]["lock"], self.steps[at]["tag"]
                tagged[key] = self.host.packets.get(at, tagged.get(key) if self.steps[at]["do"] != "acquire" else None)
                found[at] = tagged[key]
        return {at: packet for at, packet in found.items() if packet}

    def by(self, row):
        """Returns where a row's call was made, as the host tells it."""
        return self.host.by(row) if self.host else {}

    def asked_by(self, number):
        """Returns the places of an entry's answers."""
        return self.host.entries[number]["asked"] if self.host else []

    def seat_of(self, row):
        """Returns the thread of a row. A reference that is handed over is its taker's from then on."""
        kind, at = row
        if kind == "entry":
            return self.entries[at]["seat"]
        if kind == "fault":
            return self.host.faults[at].seat
        step = self.steps[at]
        return step.get("to", step["seat"]) if self.host else step["seat"]

    def is_bad(self, row):
        """Whether a row tells something that is wrong."""
        kind, at = row
        if kind == "fault" or self.faults_of[row]:
            return True
        if kind == "step":
            return wording.is_failed(self.steps[at])
        return self.is_refused(at) or self.facts[at].wrong is not None

    def is_refused(self, number):
        """Whether an entry was refused, and no test says that it expects that."""
        refused = self.facts[number].refused
        return bool(refused) and refused not in self.expected()

    def expected(self):
        """Returns the refusals that the test expects."""
        return self.host.run.get("expected", []) if self.host else []

    def refusals(self):
        return [n for n in range(len(self.facts)) if self.is_refused(n)]

    def failed_steps(self):
        return [it for it in self.steps.values() if wording.is_failed(it)]
