"""The page's pieces of HTML, which stand in parts.html: what is put into one is escaped, unless it is one itself."""

import html
import os
import re

HERE = os.path.dirname(os.path.abspath(__file__))


class Html(str):
    """A text that is HTML."""


def text_of(name):
    with open(f"{HERE}/{name}", encoding="utf-8") as it:
        return it.read()


def read_parts():
    """Returns the pieces by their names: each stands behind a comment that has its name alone."""
    found = re.split(r"(?m)^<!-- (\w+) -->\n", text_of("parts.html"))
    return {name: body.rstrip("\n") for name, body in zip(found[1::2], found[2::2])}


PARTS = read_parts()


def escaped(value):
    return value if isinstance(value, Html) else html.escape(str(value))


def part(name, /, **values):
    """Returns a piece with these values."""
    return Html(PARTS[name].format(**{key: escaped(value) for key, value in values.items()}))


def joined(pieces, between=""):
    """Returns pieces, or texts, one behind another."""
    return Html(between.join(map(escaped, pieces)))


def when(is_there, name, /, **values):
    """Returns a piece, or nothing."""
    return part(name, **values) if is_there else Html("")


def span(css, text):
    return part("span", css=css, text=text)


def link(mark, text, css=""):
    return part("link_of", mark=mark, text=text, css=css) if css else part("link", mark=mark, text=text)


def counted(count, one, many=None):
    """Returns a number with its word."""
    return f"{count:,} {one if count == 1 else many or one + 's'}"
