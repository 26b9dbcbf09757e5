"""One packet's way as a sequence diagram in mermaid's language, for somebody who writes a document."""

from tables import WINDOWS, major, result, status


def safe(text):
    """Returns a text without what mermaid reads as its own."""
    return text.replace(";", ",").replace("#", "").replace("\n", " ")


class Diagram:
    """The diagram of a packet: who is asked is a lifeline, a question is an arrow, an answer that ends it another one."""

    def __init__(self, history, use):
        self.history, self.words, self.use = history, history.words, use
        self.lines = []

    def name(self, party):
        return "O" if party in (None, "o") else f"D{party}"

    def arrow(self, start, end, text, returns=False):
        self.lines.append(f"    {start}{'-->>' if returns else '->>'}{end}: {safe(text)}")

    def participants(self):
        used = {it for n in self.history.packets[self.use].entries for it in self.history.facts[n].devices}
        lines = ["    participant O as originator"]
        return lines + [f"    participant D{it} as {safe(self.words.device(it))}" for it in self.history.order if it in used]

    def question(self, before, asked):
        """Draws one that was asked. Returns who it was."""
        party = self.name(asked["shown"][0])
        if "dispatch" in asked:
            self.arrow(before, party, major(*asked["shown"][3:6:2]))
        elif "completion" in asked:
            name = self.words.routine(*asked["completion"], False)
            self.arrow(before, party, f"{name}: {result(*asked['shown'][6:8], True)}", True)
        else:
            self.arrow(before, party, self.words.cancel(asked["cancel"]))
        self.lines.append(f"    Note over {party}: {safe(self.words.answer(asked))}")
        return party

    def entry(self, number):
        """Draws an entry that moves the packet, or is refused; of another one a note."""
        fact, entry = self.history.facts[number], self.history.entries[number]
        by = self.name(entry["call"].get("by", "o"))
        if fact.refused:
            self.lines.append(f"    Note over {by}: {number} {WINDOWS[entry['call']['do']]} refused: {fact.refused}")
            return
        if not fact.moves:
            self.lines.append(f"    Note over {by}: {number} {safe(self.words.call(entry, bool(self.history.host)))}")
            return
        self.lines.append(f"    Note over {by}: {number} {WINDOWS[entry['call']['do']]}")
        last = by
        for asked in entry["asked"]:
            last = self.question(last, asked)
        kind, *rest = fact.outcome
        if kind == "completed":
            self.arrow(last, "O", f"completed, {status(rest[0], True)}", True)
        else:
            self.lines.append(f"    Note over {last}: {safe(self.words.end(fact.outcome))}")

    def text(self):
        """Returns the diagram."""
        for number in self.history.packets[self.use].entries:
            self.entry(number)
        return "\n".join(["sequenceDiagram", *self.participants(), *self.lines]) + "\n"
