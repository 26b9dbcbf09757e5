"""The picture of one send: the way down on the left, the way up on the right, a row for each device."""

from parts import Html, joined, part
from tables import CANCELLED, WINDOWS, is_success, result, status

LEFT, RIGHT, WIDE, TALL, ROW, ABOVE = 82, 248, 148, 40, 54, 7
FIRSTS = {"finish": "complete", "hold": "pend and hold", "hold_slot": "pend and hold", "skip": "skip, send on",
          "forward": "copy, send on", "forward_pend": "pend, send on"}
MOST_NAME, MOST_SMALL = 11, 13  # characters of a device's name that stand on one line; and of a driver's below it
ALL = -1  # all of the entry is wrong, and no step of it


def text_at(css, x, y, most, text, room):
    """Returns a text that is squeezed where it has more characters than fit."""
    squeeze = Html(f' textLength="{room}" lengthAdjust="spacingAndGlyphs"') if len(text) > most else ""
    return part("svg_text", css=css, x=x, y=y, squeeze=squeeze, text=text)


def box(x, y, css, mark, title, first, second="", number=0):
    """Returns a box with one or two lines; with a number it is a step."""
    dot = part("svg_dot", x=x + 12, y=y + 13, low=y + 17, number=number) if number else ""
    name = text_at("name", x + (24 if number else 9), y + 17, 14 if number else 15, first, 118 if number else 133)
    under = text_at("small", x + 9, y + 32, 22, second, 133) if second else ""
    return part("svg_box", mark=mark, css=css, title=title, x=x, y=y, wide=WIDE, tall=TALL, words=joined([name, dot, under]))


class Picture:
    """The picture of one entry. `mark` begins the marks of its steps, and `wrong` is the step that is wrong."""

    def __init__(self, words, fact, entry, outcome, mark, wrong=None):
        self.words, self.fact, self.entry, self.outcome, self.mark, self.wrong = words, fact, entry, outcome, mark, wrong
        self.by_party = "by" in entry["call"]
        # Above the originator's own routine there is a row where the packet completes.
        comes_back = outcome[0] == "completed" and any("completion" in it and it["shown"][0] is None for it in entry["asked"])
        self.head = 1 if not self.by_party or comes_back else 0
        self.pieces, self.last = [], None  # last: the top of the last box, and whether it is on the way up

    def top(self, device):
        rows = self.fact.rows
        return (rows.index(device) + self.head if device in rows else 0) * ROW + ABOVE

    def go_down(self, top):
        if self.last:
            x = LEFT + WIDE // 2
            self.pieces.append(part("svg_down", x=x, start=self.last[0] + TALL, end=top - 5, top=top))

    def go_up(self, top):
        x, (start, is_up) = RIGHT + WIDE // 2, self.last
        path = f"M{x} {start}" if is_up else f"M{LEFT + WIDE} {start + TALL // 2}H{x}"
        self.pieces.append(part("svg_up", path=path, x=x, end=top + TALL + 5, top=top + TALL))

    def start(self):
        """Draws the call itself."""
        call, words = self.entry["call"], self.words
        do, title = call["do"], words.call(self.entry)
        if self.by_party:
            top = self.top(None if call["by"] == "o" else call["by"])
            second = f"to {words.device(call['target'])}" if do == "call_driver" else \
                result(call["status"], call["information"], True)
            self.pieces.append(box(LEFT, top, "down", self.mark, title, WINDOWS[do], second))
        else:
            top = self.start_elsewhere(do, title)
        self.last = (top, False)

    def start_elsewhere(self, do, title):
        """Draws a call of somebody who isn't a party of the packet. Returns the top of its box."""
        call, top, taken = self.entry["call"], ABOVE, do == "finish_taken"
        self.pieces.append(text_at("small", 6, 31, 12, f"T{self.entry['seat']}", 72))
        first = f"token {call['token']}" if taken else WINDOWS[do]
        self.pieces.append(box(LEFT, top, "down", self.mark, title, first, "out of its cancel slot" if taken else ""))
        owner = self.fact.before["seen"]["owner"] if self.fact.before else None
        if taken and isinstance(owner, int):
            self.last, top = (top, False), self.top(owner)
            self.go_down(top)
            second = result(call["status"], call["information"], True)
            self.pieces.append(box(LEFT, top, "down", self.mark, title, "IoCompleteRequest", second))
        return top

    def step(self, number, asked):
        """Draws whoever was asked."""
        top, up = self.top(asked["shown"][0]), "completion" in asked
        (self.go_up if up else self.go_down)(top)
        drawn = self.of_dispatch if "dispatch" in asked else self.of_routine if up else self.of_cancel
        first, second, css = drawn(asked)
        css += " wrong" if self.wrong == number - 1 else ""
        title = f"{self.words.question(asked)}: {self.words.answer(asked)}"
        x = RIGHT if up else LEFT
        self.pieces.append(box(x, top, css, f"{self.mark}-{number}", title, first, second, number))
        self.last = (top, up)

    def of_dispatch(self, asked):
        kind, *rest = asked["plan"]
        second = {"finish": lambda: result(*rest, True), "skip": lambda: "same location",
                  "hold": lambda: self.words.cancel(rest[0]) if rest[0] is not None else "",
                  "hold_slot": lambda: "for a cancel slot"}.get(kind, lambda: self.sets(rest[0]))()
        return FIRSTS[kind], second, "wait" if kind in ("hold", "hold_slot", "forward_pend") else "down"

    def sets(self, setting):
        return f"sets {self.words.routine(*setting[:2], False)} ({setting[3] or 'never'})" if setting else ""

    def of_routine(self, asked):
        kind, mark, replaced = asked["answer"]
        now, information, returned = asked["shown"][6:9]
        first = self.words.routine(*asked["completion"], False) + (": keep" if kind == "keep" else ": go on")
        second = f"{status(now, True)} to {status(replaced[0], True)}" if replaced else result(now, information, True)
        second += (", marks" if mark else ", pended") if returned else ""
        return first, second, "up keep" if kind == "keep" else "up"

    def of_cancel(self, asked):
        leaves = asked["answer"][0] == "leave"
        second = "leaves it" if leaves else result(CANCELLED, asked["answer"][1], True)
        return self.words.cancel(asked["cancel"]), second, "wait" if leaves else "down"

    def end(self):
        """Draws where the packet is then."""
        kind, *rest = self.outcome
        if kind == "completed":
            self.go_up(ABOVE)
            css = ("good" if is_success(rest[0]) and self.wrong is None else "end") + (" wrong" if self.wrong == ALL else "")
            self.pieces.append(box(RIGHT, ABOVE, css, self.mark, self.words.end(self.outcome), "completed",
                                   result(*rest, True)))
        elif kind == "held":
            y = self.top(rest[0])
            self.pieces.append(text_at("small", RIGHT + 6, y + 18, 26, f"{self.words.device(rest[0])} holds it,", 136))
            self.pieces.append(text_at("small", RIGHT + 6, y + 33, 26, "marked pending", 136))

    def lane(self, place, row, location):
        """Draws a device's row: its name, and the location in which its dispatch had the packet."""
        top, is_device = self.top(row), row is not None
        band = part("svg_lane", y=top - ABOVE, tall=ROW) if place % 2 == 0 else ""
        texts = [("name" if is_device else "small", self.words.device(row) if is_device else "originator")]
        if is_device and len(texts[0][1]) > MOST_NAME:
            name = self.words.names.devices[row]
            texts = [("name", f"D{row}"), ("small", name if len(name) <= MOST_SMALL else name[:MOST_SMALL - 1] + "…")]
        texts += [] if location is None else [("small soft", f"location {location}")]
        low = top + (24, 18, 12)[len(texts) - 1]
        return joined([band, *[text_at(css, 6, low + 15 * at, 8 if css == "name" else 12, text, 69)
                               for at, (css, text) in enumerate(texts)]])

    def svg(self):
        """Returns the picture."""
        located = {it["shown"][0]: it["shown"][4] for it in self.entry["asked"] if "dispatch" in it}
        self.pieces += [self.lane(place, row, located.get(row)) for place, row in enumerate(self.fact.rows)]
        self.start()
        for number, asked in enumerate(self.entry["asked"], 1):
            self.step(number, asked)
        self.end()
        tall = (len(self.fact.rows) + self.head) * ROW
        return part("svg", tall=tall, number=self.entry["n"], pieces=joined(self.pieces))
