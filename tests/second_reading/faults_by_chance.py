"""Changes of values, scripts and texts, made by chance."""

import copy

from heads_by_chance import FLAGS
from json_texts import U32, U64
from layouts import Pairs, Raw
from scripts import CALLS, LOCK_STEPS
from small_forms import CANCEL_RULES, RULES

ODD_VALUES = [0, 1, 2, 16, 17, 27, 28, 32, 33, 63, 64, 65, 255, 256, 257, 259, 3221225494, 3221225760, U32, U32 + 1,
              U64, -1, True, False, None, '', 'o', '0', '1', 'a', 'ended', 'x' * 33, 'a-b', '\u00e4', [], {}, [0],
              [0, 1], [0, 1, 2], ['o'], {'irp': [0, 1]}]
ODD_TEXTS = ['-0', '1.0', '0.0', '1e0', '1E2', '18446744073709551616', '18446744073709551615', '1e400', '-1e400',
             '0e400', '00', '01', '+1', '1.', '.5', 'NaN', 'Infinity', '-Infinity', 'nul', '"\\ud800"', '"\\udc00"',
             '"\\ud83d\\ude00"', '"\\u0000"', '"\x01"', '"\t"', '"\\x"', '[1,]', '{"a":1,}', '[' * 130 + ']' * 130,
             '1 1', "'a'", '-', '1e', '9' * 400, '1e-400', '"\u00e9"', '/*x*/1', '0x10', '1_0']
KEYS = ['seat', 'do', 'irp', 'by', 'lock', 'tag', 'to', 'slot', 'slots', 'as', 'device', 'status', 'information',
        'size',
        'major', 'word', 'set', 'cancel', 'target', 'driver', 'lower', 'form', 'seats', 'locks', 'steps', 'setup', 'x',
        '',
        'drained', 'token', 'if', 'reply', 'call', 'n', 'asked', 'step', 'Seat', 'seat ', 'cancels', 'drivers']


def places(v, path=()):
    """Returns every place in a value, as paths."""
    out = [path]
    if isinstance(v, dict):
        for k in v:
            out += places(v[k], path + (k,))
    elif isinstance(v, list):
        for k in range(len(v)):
            out += places(v[k], path + (k,))
    return out


def look(v, path):
    """Returns what stands at this place in a value."""
    for k in path:
        v = v[k]
    return v


def near(rng, v):
    """Returns another value that is near."""
    if type(v) is int:
        return rng.choice([v + 1, max(v - 1, 0), 0, 1, v + 2, -v, rng.choice([15, 16, 17, 27, 28, 31, 32, 33, 63, 64,
            65]),
                           255, 256, U32, U32 + 1, U64, str(v), [v], None, v == 1, Raw(str(v) + '.0'),
                           Raw(str(v) + 'e0'),
                           Raw('-0'), Raw(str(U64 + 1)), Raw('1e400'), -1])
    if type(v) is bool:
        return rng.choice([not v, not v, int(v), None, str(v).lower()])
    if type(v) is str:
        return rng.choice([v + 'x', v[:-1], v.upper(), '', 0, None, [v], rng.choice(list(CALLS) + list(LOCK_STEPS)
                           + ['hand', 'publish', 'withdraw', 'request', 'finish_taken']), rng.choice(RULES),
                           rng.choice(CANCEL_RULES), rng.choice(FLAGS),
                           rng.choice(['continue', 'keep', 'skip', 'hold_slot',
                           'hold', 'finish', 'forward', 'leave', 'o', 'ended', 'done', 'ok', 'a', 'b'])])
    if isinstance(v, list):
        w = copy.deepcopy(v)
        if w and rng.random() < .7:
            k = rng.randrange(len(w))
            kind = rng.choice(['drop', 'double', 'swap'])
            if kind == 'drop':
                del w[k]
            elif kind == 'double':
                w.insert(k, copy.deepcopy(w[k]))
            else:
                m = rng.randrange(len(w))
                w[k], w[m] = w[m], w[k]
            return w
        return rng.choice([w + [0], w + [None], {}, None, 0, 'a', {str(k): x for k, x in enumerate(w)}])
    if isinstance(v, dict):
        return rng.choice([list(v.values()), list(v), None, 0, '', {}])
    return rng.choice([0, 1, False, '', [], 'null'])


def mutate(rng, value, path=None):
    """Returns a value with one change, at a place or anywhere."""
    value = copy.deepcopy(value)
    path = path if path is not None else rng.choice(places(value))
    if not path:
        if not isinstance(value, dict):
            return value
        kind = rng.choice(['drop', 'add', 'rename', 'twice'])
        return of_object(rng, value, kind)
    there = look(value, path)
    x = rng.random()
    if isinstance(there, dict) and x < .75:
        new = of_object(rng, there, rng.choice(['drop', 'add', 'rename', 'twice', 'do', 'do']))
    elif x < .55:
        new = near(rng, there)
    elif x < .85:
        new = copy.deepcopy(rng.choice(ODD_VALUES))
    elif x < .95:
        new = Raw(rng.choice(ODD_TEXTS))
    else:
        new = Pairs([]) if isinstance(there, dict) else []
    parent = look(value, path[:-1])
    parent[path[-1]] = new
    return value


def of_object(rng, v, kind):
    """Returns an object with a change of this kind."""
    w = dict(v)
    keys = list(w)
    if kind == 'do' and 'do' in w:
        w['do'] = rng.choice(list(CALLS) + list(LOCK_STEPS) + ['hand', 'publish', 'withdraw', 'request',
                             'finish_taken', 'Look', ''])
        return w
    if kind == 'drop' and keys:
        del w[rng.choice(keys)]
        return w
    if kind == 'rename' and keys:
        old = rng.choice(keys)
        return {(rng.choice(KEYS) if k == old else k): x for k, x in w.items()}
    if kind == 'twice' and keys:
        k = rng.choice(keys)
        pairs = list(w.items()) + [(k, w[k])]
        other = copy.deepcopy(rng.choice(ODD_VALUES)) if rng.random() < .7 else near(rng, w[k])
        which = rng.choice([keys.index(k), len(pairs) - 1])
        pairs[which] = (k, other)
        return Pairs(pairs)
    w[rng.choice(KEYS)] = copy.deepcopy(rng.choice(ODD_VALUES))
    return w


def form2_step(rng, s):
    """Returns a step of form 2, as it may stand anywhere."""
    seats = s['seats'] if type(s.get('seats')) is int and 0 < s['seats'] < 65 else 2
    slots = s.get('slots', 2)
    slots = slots if type(slots) is int and slots >= 0 else 2
    seat = rng.randrange(seats)
    slot = rng.choice([0, 1, 2, 3, max(slots - 1, 0), slots, seat, seat + seats, 63, 64, U32])
    irp = rng.choice(['a', 'b', [0, 1]])
    return rng.choice([
        {'seat': seat, 'do': 'hand', 'lock': 0, 'tag': 1, 'to': rng.choice([seat, (seat + 1) % seats, seats, U32])},
        {'seat': seat, 'do': 'publish', 'slot': slot, 'irp': irp}, {'seat': seat, 'do': 'withdraw', 'slot': slot},
        {'seat': seat, 'do': 'request', 'slot': slot},
        {'seat': seat, 'do': 'finish_taken', 'irp': irp, 'slot': slot, 'status': rng.choice([0, 259]),
         'information': 3}])


def near_script(rng, s):
    """Returns a script with one or two changes."""
    s = copy.deepcopy(s)
    for _ in range(rng.choice([1, 1, 2])):
        kind = rng.randrange(12)
        if kind == 0:
            section = rng.choice(['setup', 'steps', 'steps'])
            if isinstance(s.get(section), list):
                s[section].insert(rng.randint(0, len(s[section])), form2_step(rng, s))
        elif kind == 1:
            if rng.random() < .4:
                s.pop('slots', None)
            else:
                s['slots'] = rng.choice([0, 1, 4, 63, 64, 65, -1, '1', None, True, [1], Raw('1.0'), Raw('-0'), U64])
        elif kind == 2:
            s['form'] = rng.choice([1, 2, 1, 2, 0, 3, '1', '2', None, Raw('1.0'), Raw('2.0'), Raw('2e0'), True, [2]])
        elif kind == 3 and isinstance(s.get('dispatches'), list):
            s['dispatches'].insert(rng.randint(0, len(s['dispatches'])), rng.choice([
                ['hold_slot'], ['hold_slot', None], ['finish', 259, 0], ['finish', 3221225494, 1], ['hold', 0],
                ['hold', 9],
                ['hold'], ['forward', ['keeper', 0, 0, 's']], ['forward', ['watch', 99, 0, '']], ['forward'],
                ['skip', None],
                ['forward_pend', ['free', 7, 0, 'sec']], ['forward_pend', ['watch', 0, 0, 'ce']], 'skip', [],
                [['skip']]]))
        elif kind == 4 and isinstance(s.get('completions'), list):
            s['completions'].insert(rng.randint(0, len(s['completions'])), rng.choice([
                ['watch', 'keep', 'continue'], ['watch', 'continue', ['replace', 0, 0]], ['change', 'keep', 'continue'],
                ['change', ['replace', 259, 0], 'continue'], ['keeper', 'keep', 'continue'],
                ['keep_on_error', 'keep', 'keep'],
                ['keep_on_error', 'continue', 'continue'], ['free', ['replace', 3221225494, 0], 'keep'],
                ['free', 'keep'],
                ['free', 'keep', 'keep', 'keep'], ['none', 'keep', 'keep'], ['free', ['replace', 0], 'keep'],
                ['free', ['continue'], 'keep'], ['free', 'replace', 'keep'], ['watch', 'Continue', 'continue']]))
        elif kind == 5 and isinstance(s.get('drivers'), list):
            s['drivers'].insert(rng.randint(0, len(s['drivers'])), rng.choice([
                [[28, 0]], [[255, 0]], [[256, 0]], [[3, 0], [3, 0]], [[3, 99]], [[27, 0], [0, 0]], [[3]], [[3, 0, 0]],
                [3, 0],
                {}, [[3, None]], [[28, 0], [3]]]))
        elif kind == 6:
            s[rng.choice(['seats', 'locks'])] = rng.choice([0, 1, 2, 4, 64, 65, -1, None, '1', Raw('1.0')])
        elif kind in (7, 8, 9) and isinstance(s.get('steps'), list) and s['steps']:
            k = rng.randrange(len(s['steps']))
            s['steps'][k] = mutate(rng, s['steps'][k], rng.choice(places(s['steps'][k])))
        else:
            s = mutate(rng, s) if isinstance(s, dict) else s
            if not isinstance(s, dict):
                return s
    return s


def broken_text(rng, data):
    """Returns these bytes with one or two changes of the text itself."""
    data = bytearray(data)
    if not data:
        return bytes(data)
    for _ in range(rng.choice([1, 1, 2])):
        k = rng.randrange(len(data))
        kind = rng.randrange(7)
        if kind == 0:
            del data[k]
        elif kind == 1:
            data[k:k] = rng.choice([b' ', b'\x0b', b'\x0c', b'\xc2\xa0', b'\n', b'\r', b'\t', b',', b'"', b'0', b'-',
                                    b'\xff', b'\x00',
                                    b'\xef\xbb\xbf', b'\xed\xa0\x80', b'e', b'.', b'}', b']', b'\\'])
        elif kind == 2:
            data[k] = rng.randrange(256)
        elif kind == 3:
            data = data[:k]
        elif kind == 4:
            data += rng.choice([b'x', b'{}', b' ', b'\n', b'\x00', b'\xef\xbb\xbf'])
        elif kind == 5:
            data[:0] = rng.choice([b'\xef\xbb\xbf', b' ', b'\n', b'\x00', b'['])
        else:
            data[k] = ord(rng.choice('0123456789'))
        if not data:
            break
    return bytes(data)
