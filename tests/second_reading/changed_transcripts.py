"""Transcripts with a change, made by chance."""

import copy

from faults_by_chance import look, mutate, places
from json_texts import U32, U64
from layouts import Raw, encode, text_of
from scripts import LOCK_STEPS
from small_forms import REFUSALS


def other_reply(rng):
    """Returns a reply of a call, whether it fits or not."""
    return rng.choice(['done', {'device': 0}, {'irp': [0, 1]}, {'status': 0}, {'status': 259}, {'previous': None},
                       {'previous': 0}, {'cancelled': True}, {'cancelled': False},
                       {'seen': ['o', 2, 0, 0, False, None, False, False]},
                       {'seen': ['ended', 2, 0, 0, False, None, False, False]},
                       {'seen': [0, 1, 0, 0, False, 0, False, True]},
                       {'seen': ['x', 1, 0, 0, False, 0, False, True]}, {'seen': []}, 'Done', 'ok', {'taken': 1},
                       {'refused': rng.choice(REFUSALS)}, {'refused': rng.choice(REFUSALS)},
                       {'refused': 'Nope'}, {'done': None}, None, {}, [], {'status': 0, 'device': 0}])


def word_line(rng, form, h):
    """A word line of this form, mostly right in form."""
    seats, slots = h.get('seats', 1), h.get('slots', 1)
    seats = seats if type(seats) is int and seats > 0 else 1
    seat = rng.randrange(seats) if rng.random() < .9 else rng.choice([seats, U32])
    reply = rng.choice(['ok', 'seat_full', 'not_held', 'already_removing', 'no_lock', 'yes', {'busy': 3}, {'busy': U64},
                        {'status': 0}, {'status': 3221225558}, {'status': 1}, 'done', {'busy': U64 + 1}, {'busy': -1},
                        'Ok'] +
                       ['standing', {'taken': 1}, {'taken': U64}, 'lost', 'nothing', 'used', 'not_standing', 'no_slot',
                        'no_token', {'taken': '1'}] * (2 if form == 2 else 1))
    base = {'reply': reply, 'seat': seat, 'step': rng.choice([0, 1, 99, U32, U32 + 1 if rng.random() < .1 else 2])}
    do = rng.choice(list(LOCK_STEPS) + ['hand', 'publish', 'withdraw', 'request', 'finish_taken'] * (2 if form == 2
        else 1))
    base['do'] = do
    if do in LOCK_STEPS or do == 'hand':
        base['lock'] = rng.choice([0, 1, 64, U32])
        if do != 'drained':
            base['tag'] = rng.choice([0, 1, U32])
        if do == 'hand':
            base['to'] = rng.randrange(seats) if rng.random() < .8 else rng.choice([seats, U32, -1])
    else:
        base['slot'] = rng.choice([0, 1, 63, 64, U32])
    return base


def form2_entry(rng, n):
    """Returns an entry that finishes a packet that was taken from a slot."""
    call = {'do': 'finish_taken', 'information': 0, 'irp': [rng.choice([0, 1]), rng.choice([1, 2])],
            'status': rng.choice([0, 259]), 'token': rng.choice([1, 2])}
    return {'asked': [], 'call': call, 'n': n, 'reply': rng.choice(['done', {'refused': 'NoIrp'}, {'refused': 'Stale'},
            {'refused': 'Ended'}, {'refused': 'NotSlotHeld'}, {'refused': 'BadStatus'}, {'refused': 'SlotHeld'}]),
            'seat': 0}


def renamed_slot(lines, rng):
    """Slots renamed throughout (stays legal where the new name isn't another packet's)."""
    uses = {}
    for e in lines:
        if isinstance(e, dict) and 'call' in e and isinstance(e.get('reply'), dict) and 'irp' in e['reply']:
            uses[e['reply']['irp'][1]] = e['reply']['irp'][0]
    if not uses:
        return lines
    old = rng.choice(sorted(set(uses.values())))
    new = rng.choice([5, 77, U32, U32 - 1])
    change = {u for u, s in uses.items() if s == old}
    lines = copy.deepcopy(lines)

    def walk(v):
        if isinstance(v, dict):
            for k, x in v.items():
                if k == 'irp' and isinstance(x, list) and len(x) == 2 and x[0] == old and x[1] in change:
                    x[0] = new
                elif k == 'shown' and x[1] == old and x[2] in change:
                    x[1] = new
                else:
                    walk(x)
        elif isinstance(v, list):
            for x in v:
                walk(x)
    walk(lines)
    return lines


def near_transcript(rng, lines):
    """Returns the bytes of a transcript with one or two changes."""
    lines = copy.deepcopy(lines)
    h = lines[0] if isinstance(lines[0], dict) else {}
    form = h.get('form', 1)
    tail = b'\n'
    sep = {}
    for _ in range(rng.choice([1, 1, 1, 2])):
        if not lines:
            break
        kind = rng.randrange(21)
        k = rng.randrange(len(lines))
        entries = [i for i, l in enumerate(lines) if isinstance(l, dict) and 'call' in l]
        e = rng.choice(entries) if entries else None
        if kind == 0:
            del lines[k]
        elif kind == 1:
            lines.insert(k, copy.deepcopy(lines[k]))
        elif kind == 2:
            m = rng.randrange(len(lines))
            lines[k], lines[m] = lines[m], lines[k]
        elif kind in (3, 4, 5) and isinstance(lines[k], dict):
            lines[k] = mutate(rng, lines[k], rng.choice(places(lines[k])))
        elif kind in (6, 7) and e is not None:
            numbers = [p for p in places(lines[e]) if type(look(lines[e], p)) in (int, bool)]
            if numbers:
                p = rng.choice(numbers)
                old = look(lines[e], p)
                new = (not old) if type(old) is bool else rng.choice([old + 1, max(old - 1, 0), 0, 1, 2, 259, U32])
                look(lines[e], p[:-1])[p[-1]] = new
        elif kind == 8 and e is not None:
            lines[e]['reply'] = other_reply(rng)
        elif kind == 9 and e is not None and lines[e].get('asked'):
            a = lines[e]['asked']
            m = rng.randrange(len(a))
            what = rng.randrange(4)
            if what == 0:
                del a[m]
            elif what == 1:
                a.insert(m, copy.deepcopy(a[m]))
            elif what == 2 and len(a) > 1:
                a[m], a[m - 1] = a[m - 1], a[m]
            elif isinstance(a[m], dict):
                key = 'plan' if 'plan' in a[m] else 'answer'
                a[m][key] = rng.choice([['finish', 0, 0], ['hold', None], ['hold', 0], ['hold_slot'], ['skip'],
                                        ['leave'],
                                        ['forward', None], ['forward_pend', None], ['finish', 5],
                                        ['continue', False, None],
                                        ['continue', True, None], ['keep', False, None], ['keep', False, [1, 2]],
                                        ['continue', False, [0, 9]], ['keep', True, None], ['finish', 259, 0]])
        elif kind == 10:
            lines.insert(rng.randint(0, len(lines)), word_line(rng, rng.choice([1, 2]), h))
        elif kind == 11:
            lines.append(word_line(rng, rng.choice([form if form in (1, 2) else 1, 1, 2]), h))
        elif kind == 12:
            at = (entries[-1] + 1) if entries else 1
            at = min(at, len(lines))
            lines.insert(at, form2_entry(rng, len(entries)))
        elif kind == 13 and isinstance(lines[0], dict):
            if rng.random() < .5:
                lines[0]['form'] = rng.choice([1, 2, 1, 2, 3, 0, '1', Raw('1.0'), None])
            elif rng.random() < .5:
                lines[0]['slots'] = rng.choice([0, 1, 64, 65, -1, None, '1', Raw('1.0')])
            else:
                lines[0].pop('slots', None)
        elif kind == 14 and isinstance(lines[0], dict):
            lines[0] = mutate(rng, lines[0], rng.choice(places(lines[0])))
        elif kind == 15:
            lines = renamed_slot(lines, rng) if all(isinstance(l, dict) for l in lines) else lines
        elif kind == 16:
            tail = rng.choice([b'', b'', b'\n\n', b'\n \n', b'\r\n', b'\n{}\n', b' \n', b'\nnull\n'])
        elif kind == 17 and e is not None and isinstance(lines[e].get('call'),
                                                         dict) and lines[e]['call'].get('do') == 'delete':
            c = lines[e]['call']
            c[rng.choice(['drained', 'lock'])] = rng.choice([True, False, None, 0, 1])
        elif kind == 18:
            sep[k] = rng.choice([b'', b'\r\n', b'\n\n', b'\t\n', b'\n\t'])
        elif kind == 19 and isinstance(lines[0], dict):
            h2 = lines[0]
            for key, v in rng.choice([[('form', 2), ('slots', 1)], [('form', 1), ('slots', None)]]):
                if v is None:
                    h2.pop(key, None)
                else:
                    h2[key] = v
        elif kind == 20 and e is not None:
            lines[e]['call'] = mutate(rng, lines[e]['call'], rng.choice(places(lines[e]['call']))) \
                if isinstance(lines[e].get('call'), dict) else lines[e].get('call')
    wild = rng.random() < .3
    out = []
    for i, l in enumerate(lines):
        text = encode(text_of(l, rng, wild and rng.random() < .5))
        if wild:
            text = text.replace(b'\n', b' ')
        out.append(text + (sep.get(i, b'\n') if i < len(lines) - 1 else tail))
    return b''.join(out)
