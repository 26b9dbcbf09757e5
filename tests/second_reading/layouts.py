"""Texts of values, in any layout, with faults where a value asks for them."""

import json


class Raw:
    """Text that is written as it is."""
    def __init__(self, text):
        self.text = text


class Pairs:
    """An object's members in this order, keys given twice included."""
    def __init__(self, pairs):
        self.pairs = pairs


def text_of(value, rng=None, wild=False):
    """Returns a text of this value: where it is wild, with white space, escapes and keys in any order."""
    if not wild:
        return plain(value)
    def space():
        return ''.join(rng.choice(' \t\n\r') for _ in range(rng.choice([0, 0, 0, 1, 2])))
    def show(v):
        if isinstance(v, Raw):
            return v.text
        if isinstance(v, (dict, Pairs)):
            pairs = list(v.items()) if isinstance(v, dict) else list(v.pairs)
            if isinstance(v, dict):
                rng.shuffle(pairs)
            return '{' + space() + ','.join(space() + string(k) + space() + ':' + space() + show(x) + space()
                                            for k, x in pairs) + '}'
        if isinstance(v, list):
            return '[' + space() + ','.join(space() + show(x) + space() for x in v) + ']'
        if isinstance(v, str):
            return string(v)
        return json.dumps(v)
    def string(s):
        out = json.dumps(s)[1:-1]
        if rng.random() < 0.1 and s and s.isascii() and '\\' not in out:
            k = rng.randrange(len(s))
            out = s[:k] + '\\u%04x' % ord(s[k]) + s[k + 1:]
        return '"' + out + '"'
    return space() + show(value) + space()


def plain(v):
    """Returns the plain text of this value."""
    if isinstance(v, Raw):
        return v.text
    if isinstance(v, (dict, Pairs)):
        pairs = v.items() if isinstance(v, dict) else v.pairs
        return '{' + ','.join(json.dumps(k) + ':' + plain(x) for k, x in pairs) + '}'
    if isinstance(v, list):
        return '[' + ','.join(map(plain, v)) + ']'
    return json.dumps(v)


def encode(text):
    """Returns the bytes of a text."""
    return text.encode('utf-8', 'surrogatepass')
