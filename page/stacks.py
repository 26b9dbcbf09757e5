"""A packet's stack locations at each moment of an entry, as WinDbg's `!irp` shows them at one.

What stands in a location before and behind the entry is the manager's own state, from the story. Meanwhile it is what each
dispatch was shown, and what it set."""

from parts import Html, joined, part
from tables import major, result

WITHOUT = ("look", "free", "reuse", "allocate", "cancel")
MOST_STEPS = 24


class Location:
    """One stack location: its major with the word, its device, and its completion routine with who set it."""

    def __init__(self, state=None):
        state = state or {}
        self.device, self.routine = state.get("device"), state.get("routine")
        is_used = state.get("major") or state.get("word") or self.device is not None
        self.what = (state["major"], state["word"]) if is_used else None


def locations_of(fact):
    """Returns the locations by their numbers, as they were while the entry was made."""
    state = fact.before if fact.moves and fact.before else fact.after
    found = {number: Location(it) for number, it in enumerate(state["locations"], 1)}
    if state["prepared"] == "filled":
        prepared(found, state)
    for asked in fact.entry["asked"]:
        device, _, _, code, at, word = asked["shown"][:6]
        if "dispatch" not in asked or at not in found:
            continue
        found[at].what, found[at].device = (code, word), device
        kind, *rest = asked["plan"]
        if kind in ("forward", "forward_pend") and at - 1 in found:
            found[at - 1].routine = rest[0]
    return found


def prepared(found, state):
    """The next lower location is filled, and nobody was sent it yet: its major may be number 0."""
    at = state["seen"]["current"] - 1
    if at in found:
        it = state["locations"][at - 1]
        found[at].what = (it["major"], it["word"])


def has_table(fact, is_long):
    """Whether an entry has a table of locations."""
    do = fact.entry["call"]["do"]
    if fact.refused or fact.judged != "legal" or do in WITHOUT and not fact.moves:
        return False
    if not fact.after or not fact.after["locations"]:
        return False
    return fact.moves or not is_long


def state_of(words, fact):
    """Returns who has the packet then, and what stands beside its locations."""
    seen = fact.after["seen"]
    owner = seen["owner"]
    has = f"it has ended: {result(seen['status'], seen['information'])}" if owner == "ended" else \
        "the originator has it" if owner == "o" else f"{words.device(owner)} has it"
    more = [text for text, is_so in ((f"its cancel routine is {words.cancel(seen['cancel_routine'])}",
                                      seen["cancel_routine"] is not None),
                                     ("its cancel flag is set", seen["cancel"]), ("it is marked pending", seen["marked"]),
                                     ("PendingReturned is set", seen["pending_returned"]),
                                     ("it stands in a cancel slot", fact.after["slot_held"])) if is_so]
    return "; ".join([has, *more])


class Table:
    """The table of an entry's packet: a row for each location, a column for each step, with a dot where the packet is."""

    def __init__(self, words, fact):
        self.words, self.fact = words, fact
        self.locations, self.current = locations_of(fact), fact.after["seen"]["current"]
        steps = fact.entry["asked"][:MOST_STEPS]
        self.columns = [(str(number), it["shown"][4]) for number, it in enumerate(steps, 1)] + [("end", self.current)]

    def setter(self, number):
        """Returns who set the routine of a location: whoever has the one above."""
        above = self.locations.get(number + 1)
        return self.words.party(above.device if above else None)

    def routine(self, number, location):
        """Returns the completion routine of a location, whose it is, its context, and when it is asked."""
        rule, which, context, flags = location.routine
        name = self.words.routine(rule, which, False)
        return f"{name} of {self.setter(number)}, 0x{context:x}, {flags or 'never'}"

    def row(self, number):
        it = self.locations.get(number)
        if it is None:  # above all of them
            cells = part("stack_above")
        else:
            cells = part("stack_cells", major=major(*it.what) if it.what else "",
                         device=self.words.device(it.device) if it.device is not None else "",
                         routine=self.routine(number, it) if it.routine else "")
        marks = joined(part("stack_mark", step=step, mark="●" if at == number else "") for step, at in self.columns)
        return part("stack_row", css="above" if it is None else "", number=number, cells=cells, marks=marks)

    def html(self, is_open):
        """Returns the table."""
        top = len(self.locations) + (self.current > len(self.locations))
        heads = joined(part("stack_head", step=step, name="then" if step == "end" else step)
                       for step, _ in self.columns)
        rows = joined(self.row(number) for number in range(top, 0, -1))
        use = ".".join(map(str, self.fact.use))
        return part("stack", is_open=Html(" open" if is_open else ""), use=use, heads=heads, rows=rows,
                    then=state_of(self.words, self.fact))
