"""A long run in blocks: a stretch of rows of one thread about one packet is a line, which opens."""

import packets
from parts import Html, counted, joined, part
from tables import WINDOWS, kind_of, status

MANY, CHUNK = 500, 50  # from so many blocks on, so many stand behind one line
REPEATS = 3  # from so many on, like blocks become one
CSS = {"held": "held", "stays": "held"}


class Block:
    """Rows of one thread about one packet. `key` has what they are about, and `css` what is to be seen of it."""

    def __init__(self, number, seat, key):
        self.mark, self.seat, self.key, self.rows = f"b{number}", seat, key, []
        self.css, self.use, self.cells = "", "", []

    def entries(self):
        return [at for kind, at in self.rows if kind == "entry"]

    def likeness(self):
        """Returns what makes blocks alike, or None where this one stands by itself."""
        if self.key[0] != "use" or self.css not in ("", "bad"):
            return None
        return (self.seat if self.css != "bad" else "", tuple(map(str, self.cells)))


def key_of(history, row):
    """Returns what a row is about, or None where it goes with the one before."""
    kind, at = row
    if kind != "entry":
        return None
    do, use = history.entries[at]["call"]["do"], history.facts[at].use
    return ("free",) if do == "free" else ("use", use[0]) if use else ("devices",)


def goes_on(block, key, seat):
    """Whether a row goes on in the block."""
    if key is None:
        return seat == block.seat
    return seat == block.seat and key in (block.key, ("free",))


def blocks_of(history, rows):
    """Returns the blocks of these rows, in order."""
    found = []
    for row in rows:
        key, seat = key_of(history, row), history.seat_of(row)
        if not found or not goes_on(found[-1], key, seat):
            found.append(Block(len(found), seat, key or ("steps",)))
        found[-1].rows.append(row)
    for block in found:
        describe(history, block)
    return found


# ---- the line of a block

def describe(history, block):
    """Gives a block what its line says."""
    entries = block.entries()
    described = {"use": of_packet, "free": of_free, "devices": of_devices, "steps": of_steps}[block.key[0]]
    block.cells = described(history, block, entries)
    steps = sum(kind == "step" for kind, _ in block.rows)
    if steps and block.key[0] != "steps":
        block.cells.append(part("block_steps", text=counted(steps, "lock step")))
    refused = sum(history.is_refused(n) for n in entries)
    faults = sum(kind == "fault" for kind, _ in block.rows) + sum(len(history.faults_of[row]) for row in block.rows)
    if refused:
        block.cells.append(part("wrong_text", text=f"{refused} refused"))
    if faults:
        block.cells.append(part("wrong_text", text=counted(faults, "fault")))
    if any(map(history.is_bad, block.rows)):
        block.css = "bad"


def of_packet(history, block, entries):
    """A packet: what it is, to whom it went, and where it is then."""
    uses = [history.facts[n].use for n in entries if history.facts[n].use and history.facts[n].use[0] == block.key[1]]
    filled = [history.entries[n]["call"] for n in entries if history.entries[n]["call"]["do"] == "set_next"]
    moved = [n for n in entries if history.facts[n].moves]
    kind = kind_of(filled[0]["major"], filled[0]["word"]) if filled else \
        packets.Sent(history, history.packets[uses[-1]]).kind
    block.use = history.words.packet(uses[-1])
    cells = [part("block_kind", css="first" if filled else "on", dots="" if filled else ".. ", kind=breakable(kind))]
    if not moved:
        calls = ", ".join(dict.fromkeys(WINDOWS[history.entries[n]["call"]["do"]] for n in entries))
        return [*cells, part("block_calls", text=calls)]
    outcome = history.facts[moved[-1]].outcome
    block.css = CSS.get(outcome[0], "") or ("kept" if outcome[0] == "kept" and outcome[1] is not None else "")
    return [*cells, moved_text(history, history.entries[moved[-1]]["call"], outcome)]


def breakable(text):
    """Returns a long name that a line may break behind an underscore."""
    return joined(text.split("_"), Html("_<wbr>"))


def moved_text(history, call, outcome):
    """Where the last call left the packet."""
    kind, *rest = outcome
    text = status(rest[0], True) if kind == "completed" else history.words.end(outcome)
    if kind == "kept" and rest[0] is None:
        text = f"back to the originator, {status(rest[1], True)}"
    first = f"to {history.words.device(call['target'])}" if "target" in call else WINDOWS[call["do"]]
    return part("block_end", css="waits" if kind in ("held", "stays") else "done", text=f"{first}: {text}")


def of_free(_, __, entries):
    return [part("block_wide", text=f"{counted(len(entries), 'packet')} freed")]


def of_devices(history, _, entries):
    calls = ", ".join(dict.fromkeys(WINDOWS[history.entries[n]["call"]["do"]] for n in entries))
    return [part("block_wide", text=calls)]


def of_steps(_, block, __):
    return [part("block_wide", text=f"{counted(len(block.rows), 'step')} on locks")]


# ---- blocks as HTML

class Blocks:
    """Blocks as a list. `rows_of` makes the rows of one, and `seats` has the lanes."""

    def __init__(self, blocks, seats, rows_of):
        self.blocks, self.seats, self.rows_of = blocks, seats, rows_of

    def html(self):
        """Returns all, with like ones in groups, and fifty behind a line where there are very many."""
        if len(self.blocks) <= MANY:
            return self.grouped(self.blocks)
        return joined(self.chunk(self.blocks[at:at + CHUNK]) for at in range(0, len(self.blocks), CHUNK))

    def grouped(self, blocks):
        pieces, at = [], 0
        while at < len(blocks):
            alike = [blocks[at]]
            while at + len(alike) < len(blocks) and blocks[at].likeness() and \
                    blocks[at + len(alike)].likeness() == blocks[at].likeness():
                alike.append(blocks[at + len(alike)])
            at += len(alike)
            if len(alike) >= REPEATS and alike[0].css == "bad":  # the first of what goes wrong alike stands open
                pieces.append(self.block(alike.pop(0), True))
            pieces.append(self.group(alike) if len(alike) >= REPEATS else joined(self.block(it, True) for it in alike))
        return joined(pieces)

    def line(self, block, cells, numbers):
        """Returns the line of a block, or of a group."""
        lane = part("block_lane", place=self.seats.index(block.seat), seat=block.seat)
        text = f"{numbers[0]}–{numbers[-1]}" if len(numbers) > 1 else numbers[0] if numbers else ""
        return part("block_line", lane=lane, numbers=text, cells=cells)

    def block(self, block, may_open):
        is_open = Html(" open") if block.css == "bad" and may_open else ""
        use = part("block_use", text=block.use) if block.use else ""
        cells = joined([block.cells[0], use, *block.cells[1:]], " ")
        return part("block", css=block.css or "plain", mark=block.mark, is_open=is_open,
                    line=self.line(block, cells, block.entries()), rows=self.rows_of(block.rows, block.css == "bad"))

    def group(self, blocks):
        first = blocks[0]
        cells = joined([first.cells[0], part("block_use", text=f"{len(blocks)} packets"), *first.cells[1:]], " ")
        line = self.line(first, cells, first.entries()[:1] + blocks[-1].entries()[-1:])
        return part("group", css=first.css or "plain", line=line, blocks=joined(self.block(it, False) for it in blocks))

    def chunk(self, blocks):
        """Returns some fifty blocks behind one line. Those with something wrong stand open in it."""
        numbers = [n for it in blocks for n in it.entries()] or [0]
        wrong = sum(it.css == "bad" for it in blocks)
        threads = counted(len({it.seat for it in blocks}), "thread")
        uses = counted(len({it.use for it in blocks}), "packet")
        text = f"{counted(len(numbers), 'entry', 'entries')} about {uses}, by {threads}"
        cells = joined([part("block_wide", text=text), part("wrong_text", text=f"{wrong} wrong") if wrong else ""])
        return part("chunk", css="bad" if wrong else "plain", is_open=Html(" open" if wrong else ""),
                    numbers=f"{numbers[0]}–{numbers[-1]}", cells=cells, blocks=self.grouped(blocks))
