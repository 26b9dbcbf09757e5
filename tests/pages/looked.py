"""Looks at pages without a browser: tags are balanced, marks are unique and links have one, headings are in order, cells of
heads have scopes, lists have names, entries are in order, nothing comes from elsewhere, and each pair of colours that words
can have differs by a contrast of 4.5 at least."""

import re
from html.parser import HTMLParser

FORE = ("ink", "soft", "down", "up", "wait", "bad", "keep")
BACK = ("paper", "lane", "waitfill", "badfill", "keepfill", "goodfill")
EMPTY = ("meta", "path", "rect", "use", "circle", "wbr", "input")  # elements without an end
LEAST = 4.5


class Reader(HTMLParser):
    """What a page has."""

    def __init__(self):
        super().__init__()
        self.open, self.marks, self.links, self.heads, self.faults, self.has_language = [], [], [], [], [], False

    def element(self, tag, attributes):
        given = dict(attributes)
        if "id" in given:
            self.marks.append(given["id"])
        if "href" in given:
            self.links.append(given["href"])
        if "src" in given or not given.get("href", "#").startswith("#"):
            self.faults.append(f"{tag} takes something from elsewhere")
        if re.fullmatch("h[1-6]", tag):
            self.heads.append(int(tag[1]))
        if tag == "th" and given.get("scope") not in ("row", "col"):
            self.faults.append("a head of a table has no scope")
        if tag == "select" and not given.get("aria-label") or tag == "svg" and not (
                given.get("aria-label") or given.get("aria-hidden")):
            self.faults.append(f"{tag} has no name")
        self.has_language |= tag == "html" and bool(given.get("lang"))

    def handle_starttag(self, tag, attributes):
        self.element(tag, attributes)
        if tag not in EMPTY:
            self.open.append(tag)

    def handle_startendtag(self, tag, attributes):
        self.element(tag, attributes)

    def handle_endtag(self, tag):
        if not self.open or self.open.pop() != tag:
            self.faults.append(f"the end tag {tag} closes another element")


def light(colour):
    """The relative luminance of a colour (WCAG 2)."""
    digits = colour[1:]
    digits = "".join(2 * x for x in digits) if len(digits) == 3 else digits
    parts = [int(digits[at:at + 2], 16) / 255 for at in (0, 2, 4)]
    red, green, blue = [x / 12.92 if x <= 0.03928 else ((x + 0.055) / 1.055) ** 2.4 for x in parts]
    return 0.2126 * red + 0.7152 * green + 0.0722 * blue


def contrast(one, other):
    low, high = sorted((light(one), light(other)))
    return (high + 0.05) / (low + 0.05)


def faults_of_colours(style):
    """Yields a line for each pair of colours that can't be told apart: on a screen, in the dark, on paper."""
    schemes = re.findall(r":root\{([^}]*)\}", style)
    if len(schemes) != 3:
        yield "there are not three schemes of colours"
    for place, scheme in enumerate(schemes):
        colours = dict(re.findall(r"--(\w+):(#\w+)", scheme))
        pairs = [(x, y) for x in FORE for y in BACK] + [("paper", x) for x in ("ink", "down", "up", "wait", "bad", "keep")]
        for one, other in pairs:
            if contrast(colours[one], colours[other]) < LEAST:
                yield f"{one} on {other} in scheme {place}"


def faults_of(text):
    """Yields a line for each fault of a page."""
    reader = Reader()
    reader.feed(text)
    yield from reader.faults
    yield from (f"{tag} is left open" for tag in reader.open)
    yield from (f"the mark {x} stands twice" for x in set(reader.marks) if reader.marks.count(x) > 1)
    marks = set(reader.marks)
    yield from (f"nothing has the mark of the link {x}" for x in set(reader.links) if x[1:] not in marks)
    if any(after > before + 1 for before, after in zip(reader.heads, reader.heads[1:])):
        yield "a heading is passed over"
    if not reader.has_language:
        yield "the page has no language"
    places = [int(x[1:]) for x in reader.marks if re.fullmatch("e[0-9]+", x)]
    if places != sorted(set(places)):
        yield "entries are out of order"
