"""A long run as a strip: entries from left to right, a lane for each thread; below, how long packets were held, and remove
locks. All in it are links."""

import verdict
from parts import Html, counted, joined, part

WIDE, LANE, TOP = 1000, 16, 22
MOST_HELD, MOST_LOCKS = 8, 6
FEW = 5  # a reference that was held for no more entries isn't shown
GAP = 3  # entries between two bars of a row


class Rows:
    """Gives each bar the first row in which nothing stands where it begins."""

    def __init__(self):
        self.ends = []

    def place(self, start, end):
        at = next((n for n, last in enumerate(self.ends) if last < start), len(self.ends))
        self.ends[at:at + 1] = [end + GAP]
        return at


class Reference:
    """A reference of a remove lock: from which entry to which, and whether it was never given back."""

    def __init__(self, lock, tag, start, end, packet=None):
        self.lock, self.tag, self.start, self.end, self.packet, self.stays = lock, tag, start, end, packet, end is None


def references_of(history):
    """Returns the references that were held for more than a few entries."""
    held, found, entry = {}, [], 0
    for kind, at in history.rows:
        if kind == "entry":
            entry = at + 1
        elif kind == "step" and "lock" in history.steps[at]:
            step = history.steps[at]
            its = held.setdefault((step["lock"], step.get("tag")), [])
            if step["do"] == "acquire" and step["reply"] == {"status": 0}:
                its.append((entry, history.packet_of_step.get(at)))
            elif step["do"] in ("release", "begin_remove") and step["reply"] == "ok" and its:
                start, packet = its.pop()
                found.append(Reference(step["lock"], step["tag"], start, entry, packet))
    found += [Reference(lock, tag, start, None, packet) for (lock, tag), its in held.items() for start, packet in its]
    return sorted((it for it in found if it.stays or it.end - it.start > FEW), key=lambda it: it.start)


class Strip:
    """The strip of a run whose blocks are known."""

    def __init__(self, history, blocks, seats):
        self.history, self.blocks, self.seats = history, blocks, seats
        self.count = max(len(history.entries), 1)
        self.scale = WIDE / self.count
        self.pieces, self.names, self.labels = [], [], []
        self.low = len(seats) * LANE + TOP

    def bar(self, mark, css, title, start, end, y, tall, least):
        """Puts a bar that links to a mark."""
        wide = max((end - start) * self.scale, least)
        self.pieces.append(part("strip_bar", mark=mark, css=css, title=title, x=f"{start * self.scale:.1f}", y=y,
                                wide=f"{wide:.1f}", tall=tall))

    def lanes(self):
        for place, seat in enumerate(self.seats):
            y = place * LANE + TOP
            self.pieces.append(part("strip_lane", y=y))
            self.names.append(part("strip_name", y=y, text=self.history.words.thread(seat)))
        for mark, seat, css, first, last in self.spans():
            y = self.seats.index(seat) * LANE + TOP
            self.bar(mark, css or "ran", f"entries {first} to {last}", first, last + 1, y, 14, .6)

    def spans(self):
        """Returns what a bar shows: a block; or several, one behind another, where they are too small to be told apart."""
        found = []
        for block in self.blocks:
            numbers = block.entries()
            if not numbers:
                continue
            now = [block.mark, block.seat, block.css, numbers[0], numbers[-1]]
            last = found[-1] if found else None
            if last and last[1:3] == now[1:3] and (numbers[-1] - last[3]) * self.scale < 1:
                last[4] = numbers[-1]
            else:
                found.append(now)
        return found

    def held(self):
        """Puts how long packets were held."""
        rows, history = Rows(), self.history
        self.low += 16
        for packet in history.packets.values():
            moves = [n for n in packet.entries if history.facts[n].moves]
            is_held = any(history.facts[n].outcome[0] in ("held", "kept") for n in moves)
            if len(moves) < 2 or not is_held:
                continue
            row = rows.place(moves[0], moves[-1])
            if row < MOST_HELD:
                title = f"{history.words.packet(packet.use)}: entries {moves[0]} to {moves[-1]}"
                self.bar(f"e{moves[0]}", "held", title, moves[0], moves[-1], self.low + row * 7, 5, 2)
        if rows.ends:
            self.names.append(part("strip_name", y=self.low - 4, text="held"))
        self.low += min(len(rows.ends), MOST_HELD) * 7

    def locks(self):
        """Puts references of remove locks. Returns whether one was never given back, or None where there are none."""
        rows, labelled, references = Rows(), set(), references_of(self.history)
        for it in references:
            last = self.count if it.stays else it.end
            row = rows.place(it.start, last)
            y = self.low + 6 + row * 10
            if row >= MOST_LOCKS:
                continue
            if it.stays and it.lock not in labelled:
                labelled.add(it.lock)
                self.labels.append(part("strip_label", at=f"{it.start / self.count:.4f}", y=y, text=self.device(it.lock)))
            end = "never given back" if it.stays else f"given back before entry {it.end}"
            of = f" ({self.history.words.packet(it.packet)})" if it.packet else ""
            title = f"{self.history.words.lock(it.lock)}, tag {it.tag}{of}: taken before entry {it.start}, {end}"
            self.bar(f"e{min(it.start, self.count - 1)}", "bad" if it.stays else "lock", title, it.start, last, y, 6, 2)
        if references:
            self.names.append(part("strip_name", y=self.low + 3, text="locks"))
        self.low += 8 + min(len(rows.ends), MOST_LOCKS) * 10
        return any(it.stays for it in references) if references else None

    def device(self, lock):
        device = self.history.words.owners.get(lock)
        return f"lock {lock}" if device is None else f"D{device}"

    def flags(self):
        """Puts a flag for each fault, and a line for each other call that was refused."""
        history, tall = self.history, len(self.seats) * LANE
        behind = 0
        for kind, at in history.host.rows if history.host else []:
            behind = at + 1 if kind == "entry" else behind
            if kind == "fault":
                fault = history.faults[at]
                title = f"Fault {fault.number}: {fault.name}"
                x = min(behind * self.scale, WIDE - 8)
                self.pieces.append(part("strip_flag", mark=verdict.mark_of(fault), title=title, x=f"{x:.1f}", tall=tall + 4))
        for number in history.refusals():
            if not history.faults_of[("entry", number)]:
                title = f"entry {number} refused: {history.facts[number].refused}"
                self.pieces.append(part("strip_pole", number=number, title=title, x=f"{number * self.scale:.1f}",
                                        tall=tall + 10))

    def html(self):
        """Returns the section."""
        self.lanes()
        self.held()
        stays = self.locks()
        self.flags()
        locks = "" if stays is None else ", and remove locks"
        locks += ": red where a reference was never given back" if stays else ""
        flags = "Red flags are faults, red lines refused calls. " if self.history.faults else ""
        return part("strip", count=counted(self.count, "entry", "entries"), locks=locks, flags=flags, tall=self.low,
                    names=joined(self.names), pieces=joined(self.pieces), labels=joined(self.labels))


def html(history, blocks, seats):
    """Returns the section, or nothing where the run has no entry."""
    return Strip(history, blocks, seats).html() if history.entries else Html("")
