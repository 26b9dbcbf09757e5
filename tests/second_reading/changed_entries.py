"""Transcripts in which one entry is changed by chance, and still has the form of one: mostly an entry of a call that
asks. Most changes make it wrong, in each part that may differ."""

import copy

from faults_by_chance import look, places
from small_forms import REFUSALS, RULES

FLAGS = ['', 's', 'e', 'c', 'se', 'sc', 'ec', 'sec']
PLANS = [['finish', 0, 0], ['finish', 259, 0], ['finish', 3221225473, 1], ['hold', None], ['hold', 0], ['hold', 1],
         ['skip'], ['forward', None], ['forward', ['watch', 0, 1, 'sec']], ['forward', ['keeper', 0, 1, 's']],
         ['forward', ['watch', 200, 1, 'sec']], ['forward_pend', None], ['forward_pend', ['free', 0, 1, 'sec']]]
ANSWERS = [['continue', False, None], ['continue', True, None], ['keep', False, None], ['keep', True, None],
           ['continue', False, [0, 9]], ['continue', True, [259, 9]], ['keep', False, [3221225473, 9]]]


def other_leaf(rng, it):
    """Returns another value of this one's kind."""
    if isinstance(it, bool):
        return not it
    if isinstance(it, int):
        return rng.choice([it + 1, max(it - 1, 0), 0, 1, 2, 27])
    for words in (RULES, FLAGS, REFUSALS):
        if it in words:
            return rng.choice(words)
    return {'o': 0, 'continue': 'keep', 'keep': 'continue'}.get(it, it) if it is not None else rng.choice([0, 1])


def change_leaf(rng, entry, part):
    """Changes a value somewhere in a part of an entry."""
    found = [at for at in places(entry[part]) if at and not isinstance(look(entry[part], at), (dict, list))]
    if found:
        at = rng.choice(found)
        look(entry[part], at[:-1])[at[-1]] = other_leaf(rng, look(entry[part], at))


def change_asked(rng, entry):
    """Changes who is asked, or what is answered."""
    asked = entry['asked']
    at, how = rng.randrange(len(asked)), rng.randrange(5)
    if how == 0:
        del asked[at]
    elif how == 1:
        asked.insert(rng.randint(0, len(asked)), copy.deepcopy(asked[at]))
    elif how == 2:
        asked[at], asked[at - 1] = asked[at - 1], asked[at]
    elif 'plan' in asked[at]:
        asked[at]['plan'] = copy.deepcopy(rng.choice(PLANS))
    else:
        asked[at]['answer'] = rng.choice([['leave'], ['finish', 5]] if 'cancel' in asked[at] else ANSWERS)


def change_reply(rng, entry, entries):
    """Gives an entry another reply."""
    if rng.random() < .5:
        entry['reply'] = {'refused': rng.choice([it for it in REFUSALS if it != 'HistoryFull'])}
    else:
        entry['reply'] = copy.deepcopy(rng.choice(entries)['reply'])


def near_entry(rng, lines):
    """Returns the lines of a transcript in which one entry is changed."""
    lines = copy.deepcopy(lines)
    entries = [it for it in lines if 'call' in it]
    asking = [it for it in entries if it['asked']]
    if not entries:
        return lines
    entry, how = rng.choice(asking if asking and rng.random() < .7 else entries), rng.randrange(10)
    if entry['asked'] and how < 3:
        change_leaf(rng, entry, 'asked')
    elif entry['asked'] and how < 6:
        change_asked(rng, entry)
    elif how < 8:
        change_leaf(rng, entry, 'call' if rng.random() < .5 else 'reply') if isinstance(entry['reply'], dict) else \
            change_leaf(rng, entry, 'call')
    else:
        change_reply(rng, entry, entries)
    return lines
