"""Heads of scripts, made by chance: all but the steps."""

from json_texts import U32, U64
from layouts import encode, plain
from scripts import read_script
from small_forms import RULES

STATUSES = [0, 0, 0, 1, 0x104, 0x7fffffff, 0x80000000, 3221225473, 3221225488, 3221225760, U32]
BAD_STATUSES = [259, 3221225494]
MAJORS = [3, 3, 3, 4, 14, 22, 27, 0]
INFOS = [0, 1, 4, 5, 7, 255, 2 ** 53 + 1, U64]
FLAGS = ['', 's', 'e', 'c', 'se', 'sc', 'ec', 'sec', 'sec']
LABELS = ['a', 'b', 'c', 'd', 'e', 'f_1', 'Z', 'x' * 32]


def behaviours(rng, rule):
    """Returns two behaviours that obey the rule."""
    def replace():
        return ['replace', rng.choice(STATUSES), rng.choice(INFOS)]
    if rule == 'watch':
        return ['continue', 'continue']
    if rule == 'change':
        return [rng.choice(['continue', replace()]) for _ in range(2)]
    if rule == 'keeper':
        return ['keep', 'keep']
    if rule == 'keep_on_error':
        return ['continue', 'keep']
    return [rng.choice(['continue', 'keep', replace()]) for _ in range(2)]


def setting(rng, counts, only=None):
    """Returns a setting of a completion routine, or None where there is none."""
    able = [r for r in RULES if counts[r] and (only is None or r == only)]
    if not able:
        return None
    r = rng.choice(able)
    return [r, rng.randrange(counts[r]), rng.choice([0, 1, 9, U64]), rng.choice(FLAGS)]


def plan(rng, form, counts, cancels):
    """Returns a plan of a dispatch."""
    kind = rng.choice(['finish', 'finish', 'hold', 'hold', 'hold', 'hold', 'skip', 'forward', 'forward', 'forward_pend',
                       'forward_pend']
                      + (['hold_slot'] * 4 if form != 1 else []))
    if kind == 'finish':
        return ['finish', rng.choice(STATUSES), rng.choice(INFOS)]
    if kind == 'hold':
        return ['hold', rng.randrange(cancels) if cancels and rng.random() < 0.5 else None]
    if kind == 'forward':
        return ['forward', setting(rng, counts, 'watch') if rng.random() < 0.7 else None]
    if kind == 'forward_pend':
        return ['forward_pend', setting(rng, counts) if rng.random() < 0.8 else None]
    return [kind]


def head(rng, form):
    """Returns a script without steps."""
    s = {'form': form, 'seats': rng.choice([1, 2, 2, 3, 4]), 'locks': rng.choice([1, 1, 2, 3])}
    if form != 1:
        s['slots'] = rng.choice([0, 1, 2, 3, 4, 4])
    rules = [rng.choice(RULES) for _ in range(rng.choice([0, 1, 3, 5, 8]))]
    s['completions'] = [[r] + behaviours(rng, r) for r in rules]
    counts = {r: rules.count(r) for r in RULES}
    s['cancels'] = [rng.choice([['finish', rng.choice(INFOS)], ['leave']]) for _ in range(rng.choice([0, 1, 2]))]
    s['dispatches'] = [plan(rng, form, counts, len(s['cancels'])) for _ in range(rng.choice([1, 3, 4, 5, 6]))]
    s['drivers'] = []
    for _ in range(rng.choice([1, 2, 3, 3, 4])):
        majors = sorted(set(rng.choice(MAJORS) for _ in range(rng.choice([0, 1, 3, 4])))
                        | ({3} if rng.random() < .9 else set()))
        rng.shuffle(majors)
        s['drivers'].append([[m, rng.randrange(len(s['dispatches']))] for m in majors])
    s['setup'], s['steps'] = [], []
    return s


def read_head(s):
    """Returns what a script without its steps is read as."""
    return read_script(encode(plain(dict(s, setup=[], steps=[]))))
