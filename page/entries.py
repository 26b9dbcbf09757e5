"""The rows of a history: entries, steps on locks and slots, and faults that stand by themselves."""

import packets
import stacks
import verdict
import words as wording
from parts import Html, joined, part
from picture import ALL, Picture
from tables import WINDOWS

REPEATS = 3  # from so many on, like rows become one
OUTCOMES = ("call_driver", "complete", "finish_taken", "cancel")


class Rows:
    """Makes the rows of a history. `is_long` leaves out what would make a long run's page heavy; `only` is the packet that
    the page shows alone. `tells` says whether an illegal entry's mistake is told."""

    def __init__(self, history, seats, is_long, only=None, tells=True):
        self.history, self.words, self.seats = history, history.words, seats
        self.is_long, self.only, self.tells = is_long, only, tells

    # ---- many rows

    def list(self, rows, _is_bad=False):
        """Returns rows as a list, in which like ones stand behind the first."""
        found, at = [], 0
        while at < len(rows):
            likeness, alike = self.likeness(rows[at]), 1
            while likeness and at + alike < len(rows) and self.likeness(rows[at + alike]) == likeness:
                alike += 1
            if alike >= REPEATS:
                found.append(self.repeated(rows[at:at + alike]))
            else:
                alike = 1
                found.append(self.row(rows[at]))
            at += alike
        return part("rows", rows=joined(found))

    def plain(self, rows, is_bad):
        """Returns rows as a text, as a very long run has them where nothing is wrong."""
        return self.list(rows) if is_bad else part("plain_rows", text="\n".join(map(self.line, rows)))

    def likeness(self, row):
        """Returns what makes rows alike: calls refused for the same reason, or steps with the same answer."""
        kind, at = row
        if self.history.faults_of[row] or kind == "fault":
            return None
        if kind == "step":
            it = self.history.steps[at]
            return "step", it["do"], it.get("lock"), it.get("slot"), str(it["reply"]), it["seat"]
        fact = self.history.facts[at]
        if not fact.refused or fact.wrong:
            return None
        return "entry", fact.entry["call"]["do"], fact.refused, fact.entry["seat"], fact.entry["call"].get("by")

    def repeated(self, rows):
        """Returns like rows as the first one, with the others behind a line of it."""
        (kind, first), (_, last) = rows[0], rows[-1]
        steps = self.history.steps
        what = f"entries {first} to {last}" if kind == "entry" else \
            f"tags {steps[first].get('tag')} to {steps[last].get('tag')}"
        others = part("likes", count=len(rows), what=what, rows=joined(map(self.row, rows[1:])))
        return self.row(rows[0], others)

    # ---- one row

    def row(self, row, more=""):
        kind, at = row
        if kind == "fault":
            return self.fault(self.history.faults[at])
        return self.step(at, more) if kind == "step" else self.entry(at, more)

    def lane(self, seat):
        return self.seats.index(seat) if seat in self.seats else 0

    def place(self, by, prefix=""):
        """Returns where a call was made, and the line of source where it is given."""
        text = wording.place(by)
        if not text:
            return Html("")
        source = self.history.host.source(by["file"], by["line"])
        return part("place", text=prefix + text, source=part("source", text=source) if source else "")

    def caller(self, number):
        """Returns where an entry's call was made; of another call, that one's name stands before it."""
        by, entry = self.history.by(("entry", number)), self.history.entries[number]
        if by.get("by_host"):
            return self.place(by, "made by the host, so that the run goes on after ")
        is_own = by.get("call") == WINDOWS[entry["call"]["do"]]
        return self.place(by, "" if is_own else f"by {by.get('call')}: ")

    def faults(self, row):
        return joined(part("row_fault", number=it.number, head=verdict.head_of(it), text=verdict.text_of(it))
                      for it in self.history.faults_of[row])

    def fault(self, fault):
        """Returns a fault that stands by itself."""
        use = packets.name_of(fault.packet) if fault.packet else ""
        return part("fault_row", number=fault.number, use=use, lane=self.lane(fault.seat), head=verdict.head_of(fault),
                    text=Html("") if self.only else verdict.text_of(fault))

    def step(self, number, more=""):
        """Returns a step on a remove lock or a cancel slot."""
        history, row, step = self.history, ("step", number), self.history.steps[number]
        text, gives = self.words.step(step)
        bad, seat = self.history.is_bad(row), self.history.seat_of(row)
        said = part("gives", css="no" if bad else "gives", text=gives) if gives else ""
        use = history.packet_of_step.get(number)
        return part("step_row", number=number, use=packets.name_of(use) if use else "", seat=seat,
                    bad=Html(" data-bad=1" if bad else ""), lane=self.lane(seat), call=text, gives=said,
                    place=self.place(history.by(row)), body=joined([self.faults(row), more]))

    def entry(self, number, more=""):
        """Returns an entry."""
        history, fact = self.history, self.history.facts[number]
        entry, row = fact.entry, ("entry", number)
        bad, reply = history.is_bad(row), self.words.reply(entry)
        by = entry["call"].get("by")
        refused = part("refused", text=self.words.refusal(entry)) if fact.refused and self.words.refusal(entry) else ""
        expected = part("expected") if fact.refused and not history.is_refused(number) else ""
        body = joined([refused, expected, self.faults(row), self.told(fact), more])
        use = packets.name_of(fact.use) if fact.use else ""
        return part("entry_row", css="e bad" if bad else "e", number=number, use=use,
                    seat=entry["seat"], devices=" ".join(map(str, sorted(fact.devices))),
                    bad=Html(" data-bad=1" if bad else ""), lane=self.lane(entry["seat"]),
                    who=part("by_who", text=self.words.party(by)) if by is not None else "",
                    call=self.words.call(entry, bool(history.host)),
                    gives=part("gives", css="no" if fact.refused else "gives", text=reply) if reply else "",
                    place=self.caller(number), body=body)

    def moment(self, number):
        """Returns an entry's call as a text, and all that its row shows."""
        fact, entry = self.history.facts[number], self.history.entries[number]
        reply, by = self.words.reply(entry), entry["call"].get("by")
        call = self.words.call(entry, bool(self.history.host))
        gives = part("gives", css="no" if fact.refused else "gives", text=reply) if reply else ""
        who = part("by_who", text=self.words.party(by)) if by is not None else ""
        return f"{call} → {reply}" if reply else call, part("moment", who=who, call=call, gives=gives,
                                                            place=self.caller(number), body=self.told(fact))

    # ---- what an entry did to its packet

    def told(self, fact):
        """Returns who was asked, the picture, and the packet's locations; of an illegal entry also the manager's own."""
        wrong = wrong_step(fact.wrong) if fact.wrong and self.tells else None
        pieces = [self.moved(fact, fact.entry, fact.outcome, f"e{fact.entry['n']}", wrong)]
        if fact.wrong:
            pieces.append(self.illegal(fact) if self.tells else part("not_told"))
        return joined(pieces)

    def moved(self, fact, entry, outcome, mark, wrong):
        """Returns the picture of an entry beside its steps."""
        is_own = entry is fact.entry
        places = self.history.asked_by(entry["n"]) if is_own else []
        steps = self.steps(entry, places, mark, wrong)
        table = stacks.Table(self.words, fact).html(self.only is not None) \
            if is_own and stacks.has_table(fact, self.is_long) else ""
        if not outcome or not fact.rows:
            return joined([steps, table])
        picture = Picture(self.words, fact, entry, outcome, mark, wrong).svg()
        return part("moved", picture=picture, steps=steps, end=self.words.end(outcome), table=table)

    def steps(self, entry, places, mark, wrong):
        """Returns who was asked, and what each did."""
        items = []
        for number, asked in enumerate(entry["asked"], 1):
            by = places[number - 1] if number <= len(places) else {}
            is_wrong = wrong == number - 1
            items.append(part("asked", mark=f"{mark}-{number}", css="no" if is_wrong else "so",
                              question=self.words.question(asked), answer=self.words.answer(asked), place=self.place(by),
                              wrong=part("wrong_step") if is_wrong else ""))
        return part("asked_list", items=joined(items)) if items else Html("")

    def illegal(self, fact):
        """Returns what is wrong with an entry, and the entry that the manager makes of its call."""
        made, number = fact.wrong["made"], fact.entry["n"]
        rows = joined(part("why_row", name=name, text=text) for name, text in self.history.story.why)
        reply = self.words.reply(made) or "done"
        own = self.moved(fact, made, own_outcome(fact), f"m{number}", None) if not fact.wrong["refused"] else ""
        return part("illegal", number=number, rows=rows, reply=reply, own=own)

    # ---- a row as text

    def line(self, row):
        """Returns a row as lines of text."""
        kind, at = row
        if kind == "fault":
            return f"      Fault {self.history.faults[at].number}: {self.history.faults[at].name}"
        at_place = wording.place(self.history.by(row))
        where = f"  [{at_place}]" if at_place else ""
        if kind == "step":
            text, gives = self.words.step(self.history.steps[at])
            return f"      T{self.history.seat_of(row)}  {text}{f' -> {gives}' if gives else ''}{where}"
        entry, fact = self.history.entries[at], self.history.facts[at]
        by, reply = entry["call"].get("by"), self.words.reply(entry)
        who = f"{self.words.party(by)}: " if by is not None else ""
        lines = [f"{at:5} T{entry['seat']}  {who}{self.words.call(entry, bool(self.history.host))}"
                 f"{f' -> {reply}' if reply else ''}{where}"]
        lines += [f"          {n}. {self.words.question(it)}: {self.words.answer(it)}"
                  for n, it in enumerate(entry["asked"], 1)]
        return "\n".join(lines + ([f"          {self.words.end(fact.outcome)}"] if fact.outcome else []))


def wrong_step(wrong):
    """Returns the step that is wrong, from 0; or that all of the entry is."""
    return ALL if wrong["question"] is None else wrong["question"]


def own_outcome(fact):
    """Returns where the manager's own entry leaves its packet, by the state behind it; None where it moves none."""
    made = fact.wrong["made"]
    if made["call"]["do"] not in OUTCOMES or not fact.after:
        return None
    seen, last = fact.after["seen"], (made["asked"] or [{}])[-1]
    if seen["owner"] == "ended":
        return ["completed", seen["status"], seen["information"]]
    if "completion" in last:
        return ["kept", None if seen["owner"] == "o" else seen["owner"], seen["status"], seen["information"]]
    return ["stays"] if "cancel" in last or made["call"]["do"] == "cancel" else ["held", seen["owner"]]
