"""The whole page: its sections in the order of a reader's questions. Is it right? What happened, at a glance? Which faults?
Who stood where? Which packets? What exactly?"""

import re

import blocks
import devices
import entries
import lanes
import packets
import parts
import strip
import verdict
from parts import Html, counted, joined, part

FEW = 90      # up to so many entries all stand open, without blocks
MANY = 3000   # above, blocks in which nothing is wrong have text alone


class Chosen:
    """What of a history a page shows: all of it, some entries, or one packet."""

    def __init__(self, span=None, packet=None):
        self.span, self.packet = span, packet

    def rows(self, history):
        """Returns the rows that are shown."""
        rows = [it for it in history.rows if it[0] != "switch"]
        if self.packet:
            return [it for it in rows if self.is_of_packet(history, it)]
        if self.span:
            first, last = self.span
            within = [n for n, (kind, at) in enumerate(rows) if kind == "entry" and first <= at < last]
            return rows[within[0]:within[-1] + 1] if within else []
        return rows

    def is_of_packet(self, history, row):
        """Whether a row is about the packet: an entry, a step under its tag, or a fault that is told of it."""
        kind, at = row
        if kind == "entry":
            return history.facts[at].use == self.packet
        if kind == "step":
            return history.packet_of_step.get(at) == self.packet
        return kind == "fault" and history.faults[at].packet == self.packet


class Page:
    """A page of a history."""

    def __init__(self, history, title, chosen):
        self.history, self.title, self.chosen = history, title, chosen
        self.only = chosen.packet
        self.rows = chosen.rows(history)
        self.seats = sorted({history.seat_of(it) for it in self.rows})
        self.count = sum(kind == "entry" for kind, _ in self.rows)
        self.is_long = self.count > FEW
        self.blocks = blocks.blocks_of(history, self.rows) if self.is_long else []
        self.maker = entries.Rows(history, self.seats, self.is_long, self.only)

    def sections(self):
        """Returns each section with its mark and name; what there is nothing of is empty."""
        history, whole = self.history, not self.only and not self.chosen.span
        threads = lanes.Lanes(history, self.is_long) if whole else None
        faults = [it for it in history.faults if not self.only or it.packet == self.only or self.is_named(it)]
        used = None
        if self.only:
            used = {it for n in history.packets[self.only].entries for it in history.facts[n].devices}
        return [("threads", "The race" if threads and threads.is_race else "Threads", threads.html() if threads else ""),
                ("overview", "The whole run",
                 strip.html(history, self.blocks, self.seats) if self.is_long and whole else ""),
                ("faults", "Faults", verdict.list_of_faults(history, faults)),
                ("devices", "Devices", devices.html(history, used)),
                ("packets", "Packets", packets.html(history, self.seats, self.only)),
                ("entries", "Entries", self.entries()),
                ("key", "How to read this", self.key())]

    def is_named(self, fault):
        """Whether a fault's text names the packet that the page shows alone."""
        return re.search(rf"\bIRP {self.only[0]}\.{self.only[1]}\b", fault.said) is not None

    def entries(self):
        """Returns the section of the entries, and of steps whose place isn't known."""
        history = self.history
        if self.is_long:
            rows_of = self.maker.plain if self.count > MANY else self.maker.list
            body = blocks.Blocks(self.blocks, self.seats, rows_of).html()
        else:
            body = self.maker.list(self.rows)
        apart = Html("")
        if history.apart and not self.only:
            apart = part("apart", rows=joined(self.maker.row(("step", it)) for it in history.apart))
        moves = any(history.facts[at].moves for kind, at in self.rows if kind == "entry")
        lanes_shown = len(self.seats) if len(self.seats) > 1 else 0
        return part("entries", because=part("pictures_read") if moves else "", lanes=lanes_shown,
                    css="long" if self.is_long else "short", body=body, apart=apart)

    def key(self):
        names = self.history.names.from_where
        said = part("named_by", names=names) if names and not self.history.host else ""
        lane = part("key_lane") if len(self.seats) > 1 else ""
        return part("key", lane=lane, names=said, host=part("key_host") if self.history.host else "")

    def counts(self):
        """Returns how much there is."""
        history = self.history
        total = counted(len(history.entries), "entry", "entries")
        if self.only:
            its = history.packets[self.only].entries
            return f"{counted(len(its), 'entry', 'entries')} of {len(history.entries):,}: {its[0]} to {its[-1]}"
        if self.chosen.span:
            return f"{counted(self.count, 'entry', 'entries')} of {len(history.entries):,}"
        return ", ".join([total, counted(len(packets.uses_of(history)), "packet"), counted(len(history.order), "device"),
                          counted(max(len({it["seat"] for it in history.entries}), 1), "thread")])

    def choices(self):
        """Returns what the script's lists offer: packets, threads and devices."""
        history, words = self.history, self.history.words
        uses = [] if self.only else packets.uses_of(history)
        sent = {it: packets.Sent(history, history.packets[it]).kind for it in uses}
        its = {"p": ("packet", [(packets.name_of(it), f"{words.packet(it)} {sent[it]}") for it in uses]),
               "t": ("thread", [(it, words.thread(it)) for it in self.seats]),
               "d": ("device", [(it, words.device(it)) for it in history.order])}
        return joined(part("choice", by=by, name=name,
                           options=joined(part("option", value=value, text=text) for value, text in options))
                      for by, (name, options) in its.items())

    def heading(self):
        if not self.only:
            return self.title
        sent = packets.Sent(self.history, self.history.packets[self.only])
        return f"{self.history.words.packet(self.only)}: {sent.text(self.history.words)} ({self.title})"

    def html(self):
        """Returns the page."""
        sections = self.sections()
        nav = joined(part("nav", mark=mark, name=name) for mark, name, text in sections if text)
        body = joined([text for _, _, text in sections if text], "\n")
        again = self.history.host.run.get("again") if self.history.host else None
        again = part("again", command=again) if again else ""
        whole = part("page", title=self.heading(), style=Html(parts.text_of("page.css")), nav=nav, counts=self.counts(),
                     again=again, verdict=verdict.html(self.history), body=body, choices=self.choices(),
                     script=Html(parts.text_of("page.js")))
        return without_dead_links(whole)


def moments(history, packet):
    """Returns the entries of a packet, or all, each with its number, its call, and what shows it, but not what is wrong with
    it. What shows it has no links."""
    numbers = history.packets[packet].entries if packet else range(len(history.entries))
    maker = entries.Rows(history, [], False, packet or (), False)
    return [(number, call, re.sub(r' href="#[em]\d[^"]*"| id="[^"]*"', "", shown))
            for number, (call, shown) in ((n, maker.moment(n)) for n in numbers)]


def without_dead_links(text):
    """Returns a page without links to entries and blocks that it doesn't show."""
    marks = set(re.findall(r' id="([^"]+)"', text))
    return re.sub(r' href="#([a-z]+[\d-]+)"', lambda it: it[0] if it[1] in marks else "", text)
