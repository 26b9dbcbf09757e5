"""Which packets there were, and how each ended: few with their lives, many as a table."""

from collections import defaultdict

import strip
from parts import Html, counted, joined, part
from tables import NO_USE, WINDOWS, is_success, kind_of, major, status

FEW_PACKETS = 12
CSS = {"held": "wait", "stays": "wait", "kept": "keep"}


def name_of(use):
    return f"{use[0]}.{use[1]}"


def uses_of(history):
    """Returns the packets that the history has."""
    return [it for it in history.packets if it[0] != NO_USE]


class Sent:
    """What a packet was sent as, to whom, in which entry, and how it ended."""

    def __init__(self, history, packet):
        calls = [(n, history.entries[n]["call"]) for n in packet.entries if not history.facts[n].refused]
        sent = next(((n, it) for n, it in calls if it["do"] == "call_driver"), (None, None))
        filled = next((it for _, it in calls if it["do"] == "set_next"), None)
        asked = history.entries[sent[0]]["asked"][:1] if sent[0] is not None else []
        self.number, self.target = sent[0], sent[1]["target"] if sent[1] else None
        self.kind = kind_of(filled["major"], filled["word"]) if filled else \
            kind_of(asked[0]["shown"][3], asked[0]["shown"][5]) if asked and "dispatch" in asked[0] else ""
        moves = [history.facts[n].outcome for n in packet.entries if history.facts[n].moves]
        self.is_held = any(it[0] == "held" for it in moves)
        ends = [it for it in moves if it[0] == "completed" or it[0] == "kept" and it[1] is None]
        self.end = status(ends[-1][1 if ends[-1][0] == "completed" else 2], True) if ends else "not ended"

    def text(self, words):
        """Returns a title for it."""
        target = ", never sent" if self.number is None else f" to {words.device(self.target)}"
        return f"{self.kind}{target}"


# ---- lives

def event(history, number):
    """Returns the colour of an entry in its packet's life and its text, which may be empty."""
    fact, words = history.facts[number], history.words
    call = fact.entry["call"]
    do = call["do"]
    if history.is_refused(number):
        return "bad", f"{WINDOWS[do]} refused: {fact.refused}"
    if fact.refused:
        return "plain", f"{WINDOWS[do]} refused, as the test expects: {fact.refused}"
    if fact.moves:
        css = CSS.get(fact.outcome[0]) or ("good" if is_success(fact.outcome[1]) else "plain")
        return css, began(words, call) + ended(words, fact.outcome)
    texts = {"allocate": lambda: f"allocated, {counted(call['size'], 'location')}", "reuse": lambda: "a new use",
             "free": lambda: "freed", "cancel": lambda: "cancel flag set",
             "set_next": lambda: major(call["major"], call["word"])}
    return "plain", texts.get(do, lambda: "")()


def began(words, call):
    do = call["do"]
    if do == "call_driver":
        return f"sent to {words.device(call['target'])}"
    if do == "complete":
        return f"{words.party(call['by'])} completes it"
    return "finished by its token" if do == "finish_taken" else "cancelled"


def ended(words, outcome):
    kind, *rest = outcome
    if kind == "completed":
        return f": completed, {status(rest[0], True)}"
    if kind == "stays":
        return ": left with its device"
    if kind == "held":
        return f": {words.party(rest[0])} holds it"
    return f": {words.party(rest[0])} {'has it again' if rest[0] is None else 'keeps it'}"


def life(history, packet, seats, is_alone):
    """Returns a packet's life: an item for each entry that says something of it."""
    chips = []
    for number in packet.entries:
        css, text = event(history, number)
        if history.facts[number].wrong:
            css, text = "bad", f"{text or WINDOWS[history.entries[number]['call']['do']]}: no manager can have made this"
        if text:
            thread = part("chip_thread", text=f"T{history.entries[number]['seat']}") if len(seats) > 1 else ""
            chips.append(part("chip", css=css, number=number, thread=thread, text=text))
    head = "" if is_alone else part("life_head", use=name_of(packet.use), name=history.words.packet(packet.use))
    return part("life", css="packet alone" if is_alone else "packet", head=head, chips=joined(chips))


# ---- many

def cell(its):
    """Returns a cell of the table: how many packets, with links behind the number."""
    if not its:
        return part("no_cell")
    held, bad = sum(sent.is_held for _, sent, _ in its), any(it[2] for it in its)
    links = joined([part("link_of", mark=f"e{sent.number}", text=name_of(use), css="no" if wrong else "of")
                    for use, sent, wrong in its], " ")
    more = part("held_count", count=held) if held else ""
    return part("cell", css="bad" if bad else "some", count=len(its), held=more, fault=part("cell_fault") if bad else "",
                links=links)


def named_by(history):
    """Returns the packets that faults are about, those of entries with something wrong, and those under whose tags a remove
    lock is still held."""
    found = {it.packet for it in history.faults}
    found |= {it.packet for it in strip.references_of(history) if it.stays}
    return found | {history.facts[n].use for n in range(len(history.entries)) if history.is_bad(("entry", n))}


def table(history, uses):
    """Returns the section of many packets: a row for each major, a column for each status."""
    cells, rows, columns, wrong = defaultdict(list), defaultdict(int), defaultdict(int), named_by(history)
    for use in uses:
        sent = Sent(history, history.packets[use])
        if sent.number is not None:
            kind = sent.kind.partition(" ")[0] or "?"
            cells[kind, sent.end].append((use, sent, use in wrong))
            rows[kind] += 1
            columns[sent.end] += 1
    if not rows:
        return Html("")
    order = sorted(columns, key=lambda it: -columns[it])
    heads = joined(part("column_head", text=it) for it in order)
    body = joined(part("kind", kind=kind, count=rows[kind], cells=joined(cell(cells[kind, end]) for end in order))
                  for kind in sorted(rows, key=lambda it: -rows[it]))
    return part("kinds", heads=heads, rows=body)


def html(history, seats, only=None):
    """Returns the section."""
    uses = [only] if only else uses_of(history)
    if not uses:
        return Html("")
    if len(uses) > FEW_PACKETS:
        return table(history, uses)
    lives = joined(life(history, history.packets[it], seats, only is not None) for it in uses)
    return part("packets", title="Its life" if only else "Packets", lives=lives)
