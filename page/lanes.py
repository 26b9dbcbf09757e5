"""Threads as columns, time from the top down: a box is a stretch in which one thread ran, and its foot says why it ended."""

import verdict
from parts import Html, counted, joined, link, part
from tables import major

MOST_STRETCHES, MOST_ROWS, LAST, REPEATS = 60, 7, 2, 3
HOW = {"preempted": "preempted before", "waits": "waits in", "yields": "yields in", "ends": "ends"}
PREPARES = ("allocate", "reuse", "set_next")


class Stretch:
    """A thread's rows, one behind another; the switch that began it, and the one that ended it."""

    def __init__(self, seat, begun=None):
        self.seat, self.begun, self.ended, self.rows = seat, begun, None, []


def by_switches(history):
    """Returns the stretches from the first decision that isn't usual up to the first fault, or to the end."""
    host = history.host
    first = next((n for n, it in enumerate(host.switches) if it.is_decision), None)
    if first is None:
        return []
    stretches = [Stretch(host.switches[first].thread)]
    for kind, at in host.rows:
        if kind == "switch":
            switch = host.switches[at]
            if at >= first:
                stretches[-1].ended = switch
                stretches.append(Stretch(switch.to, switch))
                if has_fault(history, stretches):
                    return stretches[:-1]
        elif kind != "fault" or not host.faults[at].of:  # a fault of a row stands there
            put(history, stretches, (kind, at))
    return stretches


def has_fault(history, stretches):
    return any(history.faults_of[row] or row[0] == "fault" for it in stretches for row in it.rows)


def put(history, stretches, row):
    """Puts a row into the last stretch of its thread: an entry may be recorded after its thread gave way."""
    seat = history.seat_of(row)
    its = [it for it in stretches if it.seat == seat]
    if its:
        its[-1].rows.append(row)


def by_record(history):
    """Returns stretches by whose rows follow each other."""
    stretches = []
    for row in history.rows:
        if row[0] == "switch":
            continue
        seat = history.seat_of(row)
        if not stretches or stretches[-1].seat != seat:
            stretches.append(Stretch(seat))
        stretches[-1].rows.append(row)
    return stretches


class Lanes:
    """The section of the threads: a race where the host tells its switches, and a fault."""

    def __init__(self, history, is_long):
        self.history, self.words = history, history.words
        switched = by_switches(history) if history.host and history.host.switches else []
        self.is_told = bool(switched) and len(switched) <= MOST_STRETCHES
        self.is_race = self.is_told and bool(history.faults)
        self.stretches = switched if self.is_told else [] if is_long else by_record(history)
        self.seats = sorted({it.seat for it in self.stretches})

    def html(self):
        """Returns the section, or nothing where one thread alone made the run, or it is too long."""
        if len(self.seats) < 2 or len(self.stretches) > MOST_STRETCHES:
            return Html("")
        heads = joined(part("lane_head", column=place + 1, name=self.words.thread(seat))
                       for place, seat in enumerate(self.seats))
        pieces, before = [], None
        for it in self.stretches:
            place = self.seats.index(it.seat)
            if before is not None and before != place:
                pieces.append(self.arrow(before, place))
            pieces.append(self.stretch(it, place))
            before = place
        because = "which thread ran, what it did, and why it gave way." if self.is_told else \
            "whose entries follow each other. Who was preempted the record doesn’t tell."
        return part("lanes", title="The race" if self.is_race else "Threads", because=because, count=len(self.seats),
                    heads=heads, pieces=joined(pieces))

    def arrow(self, before, place):
        start, end = ((it + .5) / len(self.seats) * 100 for it in (before, place))
        return part("lane_arrow", start=f"{start:.2f}", end=f"{end:.2f}")

    def shown_rows(self, stretch):
        """Returns the rows of a stretch that are shown, and how many stand before them."""
        history = self.history
        rows = [it for it in stretch.rows if not self.is_dull(it)]
        few = len(rows) <= MOST_ROWS or any(map(history.is_bad, rows))
        prepares = [it for it in rows if it[0] == "entry" and history.entries[it[1]]["call"]["do"] in PREPARES
                    and not history.is_bad(it)]
        if self.is_told or not few:  # what only prepares a send is left out, unless it is the last
            rows = [it for it in rows if it not in prepares or it == rows[-1]]
        left = 0 if few else max(len(rows) - LAST, 0)
        return rows[left:], left

    def is_dull(self, row):
        """Whether a row shows nothing of the threads: a look, a free, what the host does for the record alone."""
        kind, at = row
        if kind == "entry":
            return self.history.entries[at]["call"]["do"] in ("look", "free")
        return kind == "step" and self.history.steps[at]["do"] == "hand" and bool(self.history.host)

    def stretch(self, it, place):
        rows, left = self.shown_rows(it)
        items = []
        if it.begun and it.begun.next["where"]:
            items.append(part("lane_resumed", where=short(it.begun.next["where"]), call=it.begun.next["call"]))
        if left:
            first = next((at for kind, at in it.rows if kind == "entry"), 0)
            items.append(part("lane_more", count=counted(left, "earlier step"), link=link(f"e{first}", f"entry {first}")))
        items += self.items(rows)
        if not items:
            items.append(part("lane_none"))
        return part("stretch", column=place + 1, seat=it.seat, items=joined(items),
                    foot=self.foot(it.ended) if it.ended else "")

    def items(self, rows):
        """Returns the items of rows; of many that are alike the first stands for all."""
        found, at = [], 0
        while at < len(rows):
            alike = 1
            while at + alike < len(rows) and self.likeness(rows[at]) == self.likeness(rows[at + alike]):
                alike += 1
            alike = alike if self.likeness(rows[at]) else 1
            shown = rows[at:at + 1] if alike >= REPEATS else rows[at:at + alike]
            found += [self.item(it) for it in shown]
            if alike >= REPEATS:
                found.append(part("lane_repeats", count=alike - 1))
            at += alike
        return found

    def likeness(self, row):
        """Returns what makes rows alike, or None."""
        kind, at = row
        if self.history.faults_of[row] or kind == "fault":
            return None
        if kind == "step":
            it = self.history.steps[at]
            return it["do"], it.get("lock"), it.get("slot"), str(it["reply"])
        fact = self.history.facts[at]
        return (fact.entry["call"]["do"], fact.refused) if fact.refused and not fact.wrong else None

    def foot(self, switch):
        early = part("lane_early") if switch.is_early else ""
        call = switch.at["call"] if switch.how != "ends" else ""
        source = self.history.host.source_at(switch.at["where"])
        where = short(switch.at["where"])
        return part("lane_foot", how=switch.how, said=HOW[switch.how], call=call, where=where, early=early,
                    source=part("source", text=source) if source else "")

    def source(self, row):
        """Returns the line of source of a row in which something is wrong."""
        by = self.history.by(row)
        source = self.history.host.source(by["file"], by["line"]) if "file" in by and self.history.is_bad(row) else ""
        return part("source", text=source) if source else Html("")

    def faults(self, row):
        return joined(part("lane_fault", mark=verdict.mark_of(it), head=verdict.head_of(it))
                      for it in self.history.faults_of[row])

    def item(self, row):
        """Returns one row as an item of a stretch."""
        kind, at = row
        css = "bad" if self.history.is_bad(row) else "plain"
        if kind == "fault":
            it = self.history.faults[at]
            return part("lane_item", css="bad", text=part("lane_fault", mark=f"f{it.number}", head=verdict.head_of(it)))
        where = at_place(self.history.by(row))
        if kind == "step":
            text, gives = self.words.step(self.history.steps[at])
            said = part("lane_step", where=where, text=text, gives=f" → {gives}" if gives else "")
            return part("lane_item", css=css, text=joined([said, self.source(row), self.faults(row)]))
        return part("lane_item", css=css, text=joined([self.entry(at, where, self.source(row)), self.faults(row)]))

    def entry(self, number, where, source):
        """Returns an entry as it stands in a stretch."""
        entry, words = self.history.entries[number], self.words
        call, by = entry["call"], entry["call"].get("by")
        said = words.call(entry, bool(self.history.host)).replace("STATUS_", "")
        if call["do"] == "call_driver" and entry["asked"]:
            said = f"{said[:-1]}, {major(entry['asked'][0]['shown'][3])})"
        elif call["do"] == "set_next":
            said = f"prepares {words.packet(call['irp'])}: {major(call['major'], call['word'])}"
        reply = words.reply(entry).replace("STATUS_", "")
        gives = part("gives", css="no" if self.history.facts[number].refused else "gives", text=reply) if reply else ""
        places = self.history.asked_by(number) or [{}] * len(entry["asked"])
        under = joined(part("lane_sub", where=at_place(by_place), text=words.in_short(asked))
                       for asked, by_place in zip(entry["asked"], places))
        who = part("who", text=words.party(by)) if by not in (None, "o") else ""
        return part("lane_entry", number=number, where=where, who=who, call=said, gives=gives, source=source,
                    under=under)


def at_place(by):
    return part("at", text=f"{by['file']}:{by['line']}") if "file" in by else ""


def short(where):
    return where.removeprefix("drivers/host/")
