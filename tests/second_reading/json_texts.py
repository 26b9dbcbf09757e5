"""JSON texts, read and written as docs/FORMATS.md tells (Numbers; Reading a transcript).

Of keys that are given twice the last value counts. A number that is no whole one below 2^64 is ODD, and fits nowhere.
"""

import json
import re


class NotJson(Exception):
    """The text is no JSON that the formats take."""


class _Odd:
    """A number that is no whole number from 0 to 2^64 - 1, or is written as a float."""
    def __repr__(self):
        return 'ODD'


ODD = _Odd()
U64 = 2 ** 64 - 1
U32 = 2 ** 32 - 1
_SPACE = re.compile(r'[ \t\n\r]*')
_CHUNK = re.compile(r'[^"\\\x00-\x1f]*')
_NUMBER = re.compile(r'-?(?:0|[1-9][0-9]*)(\.[0-9]+)?([eE][+-]?[0-9]+)?', re.ASCII)
_HEX = re.compile(r'[0-9a-fA-F]{4}', re.ASCII)
_ESCAPES = {'"': '"', '\\': '\\', '/': '/', 'b': '\b', 'f': '\f', 'n': '\n', 'r': '\r', 't': '\t'}


class _Reader:
    """Reads one JSON value from a text, whole."""
    def __init__(self, text):
        self.text = text
        self.at = 0

    def space(self):
        self.at = _SPACE.match(self.text, self.at).end()

    def peek(self):
        return self.text[self.at] if self.at < len(self.text) else ''

    def whole(self):
        self.space()
        value = self.value(127)
        self.space()
        if self.at != len(self.text):
            raise NotJson
        return value

    def value(self, levels):
        c = self.peek()
        if c == '{':
            return self.object(levels)
        if c == '[':
            return self.array(levels)
        if c == '"':
            return self.string()
        for word, value in (('true', True), ('false', False), ('null', None)):
            if self.text.startswith(word, self.at):
                self.at += len(word)
                return value
        return self.number()

    def array(self, levels):
        if levels == 0:
            raise NotJson
        self.at += 1
        items = []
        self.space()
        if self.peek() == ']':
            self.at += 1
            return items
        while True:
            self.space()
            items.append(self.value(levels - 1))
            self.space()
            c = self.peek()
            self.at += 1
            if c == ']':
                return items
            if c != ',':
                raise NotJson

    def object(self, levels):
        if levels == 0:
            raise NotJson
        self.at += 1
        members = {}
        self.space()
        if self.peek() == '}':
            self.at += 1
            return members
        while True:
            self.space()
            if self.peek() != '"':
                raise NotJson
            key = self.string()
            self.space()
            if self.peek() != ':':
                raise NotJson
            self.at += 1
            self.space()
            members[key] = self.value(levels - 1)
            self.space()
            c = self.peek()
            self.at += 1
            if c == '}':
                return members
            if c != ',':
                raise NotJson

    def hex4(self):
        m = _HEX.match(self.text, self.at)
        if not m:
            raise NotJson
        self.at = m.end()
        return int(m.group(), 16)

    def string(self):
        self.at += 1
        parts = []
        while True:
            m = _CHUNK.match(self.text, self.at)
            parts.append(m.group())
            self.at = m.end()
            c = self.peek()
            self.at += 1
            if c == '"':
                return ''.join(parts)
            if c != '\\':
                raise NotJson              # the end of the text, or a control character
            e = self.peek()
            self.at += 1
            if e in _ESCAPES and e:
                parts.append(_ESCAPES[e])
            elif e == 'u':
                one = self.hex4()
                if 0xDC00 <= one <= 0xDFFF:
                    raise NotJson
                if 0xD800 <= one <= 0xDBFF:
                    if self.text[self.at:self.at + 2] != '\\u':
                        raise NotJson
                    self.at += 2
                    two = self.hex4()
                    if not 0xDC00 <= two <= 0xDFFF:
                        raise NotJson
                    one = 0x10000 + ((one - 0xD800) << 10) + (two - 0xDC00)
                parts.append(chr(one))
            else:
                raise NotJson

    def number(self):
        m = _NUMBER.match(self.text, self.at)
        if not m:
            raise NotJson
        self.at = m.end()
        token = m.group()
        if m.group(1) is None and m.group(2) is None and not token.startswith('-'):
            if len(token) <= 20 and int(token) <= U64:
                return int(token)
        if float(token) in (float('inf'), float('-inf')):
            raise NotJson
        return ODD


def read_json(data):
    """Returns the one value of these bytes. Raises NotJson where they are none."""
    try:
        text = data.decode('utf-8')
    except UnicodeDecodeError:
        raise NotJson
    return _Reader(text).whole()


def compact(value):
    """Returns the compact text of a value: sorted keys, no white space."""
    return json.dumps(value, sort_keys=True, separators=(',', ':'), ensure_ascii=False).encode()
