#!/usr/bin/env python3
"""Writes script.schema.json beside this file (JSON Schema, draft 2020-12), for editors: `bin/irp words tables |
schema/make_schema.py`. Names and keys are those of the tables that it reads; the form of each value stands here, as in
docs/FORMATS.md. With the word --check it writes nothing, and ends with 1 where the file isn't what it would write, or
words.tmLanguage.json has other words.
"""
import json
import os
import re
import sys

USAGE = ('usage: irp words tables | make_schema.py writes script.schema.json beside it; make_schema.py --check tells '
         'whether that and words.tmLanguage.json are of these tables')
if sys.argv[1:] not in ([], ['--check']):
    is_help = sys.argv[1] in ('-h', '--help')
    print(USAGE, file=sys.stdout if is_help else sys.stderr)
    sys.exit(0 if is_help else 4)
try:
    TABLES = json.load(sys.stdin)
except ValueError:
    sys.exit('make_schema.py: standard input is no JSON; give it what bin/irp words tables prints')
U8, U32, U64 = 255, 4294967295, 18446744073709551615


def ref(name):
    return {'$ref': '#/$defs/' + name}


def whole(most, least=0, title=None):
    out = {'type': 'integer', 'minimum': least, 'maximum': most}
    return dict(out, description=title) if title else out


def row(*items, description=None):
    out = {'type': 'array', 'prefixItems': list(items), 'items': False, 'minItems': len(items)}
    return dict(out, description=description) if description else out


def step(act):
    """Returns the form of a step. Two keys of the name `to` have different forms."""
    do, keys = act['word'], act['keys']
    forms = {key: KEYS[do, key] if (do, key) in KEYS else KEYS[key] for key in keys}
    return {'title': do, 'description': TOLD.get(do, act['windows'] + MORE.get(do, '')), 'type': 'object',
            'additionalProperties': False, 'required': ['seat', 'do'] + keys,
            'properties': dict({'seat': ref('seat'), 'do': {'const': do}}, **forms, **{'if': ref('condition')})}


u32, u64 = ref('u32'), ref('u64')
STATUS_NOT_FINAL = [259, 3221225494]
# What stands under a key of a step.
KEYS = {
    'driver': u32, 'lock': u32, 'device': u32, 'to': u32, ('hand', 'to'): ref('seat'), 'lower': u32, 'target': u32,
    'tag': u32, 'slot': u32, 'size': ref('u8'), 'major': ref('u8'), 'word': u64, 'information': u64, 'as': ref('label'),
    'irp': ref('packet'), 'by': ref('party'), 'status': ref('status'), 'set': ref('setting'),
    'cancel': {'anyOf': [u32, {'type': 'null'}]},
}
# What a step does: what stands behind the name in Windows, or in place of it.
MORE = {'detach': '; names the lower device', 'allocate': '; binds the label', 'set_next': ', and filling it',
        'finish_taken': ' with the token from that slot'}
TOLD = {
    'look': 'shows the packet',
    'begin_remove': 'the first half of IoReleaseRemoveLockAndWait',
    'drained': 'the second half: asks, and does not wait',
    'hand': 'hands a reference of a remove lock to another seat',
    'publish': 'puts the packet into a cancel slot of this seat',
    'withdraw': 'takes it out again',
    'request': 'takes the use out of any slot',
}
# The steps of `setup`, those on remove locks, and those of forms 2 and 4 alone.
STEPS = [step(act) for act in TABLES['acts']]
LOCK, HAND = ([act['word'] for act in TABLES['acts']].index(first) for first in ('acquire', 'hand'))
CALLS, LOCKS, SLOTS = STEPS[:LOCK], STEPS[LOCK:HAND], STEPS[HAND:]


def by_do(steps, **more):
    """A step is of the form that its `do` names: so a message names the key that is wrong, and not 17 forms. Only the steps
    of form 4 may have a condition."""
    return {'type': 'object', 'required': ['seat', 'do'],
            'properties': dict({'do': {'enum': [s['title'] for s in steps]}}, **more),
            'allOf': [{'if': {'properties': {'do': {'const': s['title']}}, 'required': ['do']},
                       'then': ref('step_' + s['title'])} for s in steps]}


def by_first(rows):
    return {'type': 'array', 'minItems': 1, 'prefixItems': [{'enum': list(rows)}],
            'allOf': [{'if': {'prefixItems': [{'const': k}]}, 'then': v} for k, v in rows.items()]}


def or_null(form):
    return {'anyOf': [form, {'type': 'null'}]}


PLANS = {
    'finish': row({'const': 'finish'}, ref('final_status'), u64,
                  description='IoCompleteRequest in the dispatch: status, information'),
    'hold': row({'const': 'hold'}, or_null(u32), description='pends and keeps; a cancel routine or null'),
    'skip': row({'const': 'skip'}, description='IoSkipCurrentIrpStackLocation, IoCallDriver'),
    'forward': row({'const': 'forward'}, or_null(ref('watch_setting')),
                   description='copies, sets a routine of rule watch, sends on'),
    'forward_pend': row({'const': 'forward_pend'}, or_null(ref('setting')),
                        description='pends, copies, sets a routine, sends on'),
}
PLANS_2 = dict(PLANS, hold_slot=row({'const': 'hold_slot'}, description='pends and keeps, for a cancel slot'))
NO_CONDITION = {'if': False}
# The answers that a condition names by a word: kinds of replies, then words of word lines.
ANSWERS = ['refused', 'success', 'routine', 'done', 'yes', 'busy', 'standing', 'taken', 'lost', 'nothing', 'seat_full',
           'not_held', 'already_removing', 'no_lock', 'used', 'not_standing', 'no_slot', 'no_token']
REFUSALS = [it['name'] for it in TABLES['refusals']]
BEHAVIOURS = {
    'watch': [{'const': 'continue'}] * 2, 'change': [ref('goes_on')] * 2, 'keeper': [{'const': 'keep'}] * 2,
    'keep_on_error': [{'const': 'continue'}, {'const': 'keep'}], 'free': [ref('behaviour')] * 2,
}

schema = {
    '$schema': 'https://json-schema.org/draft/2020-12/schema',
    'title': 'A script of irpx',
    'description': 'Which routines, dispatches and drivers there are, and which calls each seat makes '
                   '(docs/FORMATS.md, Scripts).',
    'type': 'object',
    'required': ['form', 'seats', 'locks', 'completions', 'cancels', 'dispatches', 'drivers', 'setup', 'steps'],
    'properties': {
        'form': {'enum': [1, 2, 4],
                 'description': '1: packets and stacks up to 16; 2: up to 32, cancel slots, references handed over; '
                                '4: as 2, and steps on conditions'},
        'seats': whole(64, 1, 'the callers, numbered from 0'),
        'locks': whole(64, 1, 'the remove locks, numbered from 0'),
        'completions': {'type': 'array', 'maxItems': 1280, 'items': ref('completion')},
        'cancels': {'type': 'array', 'maxItems': 256, 'items': ref('cancel')},
        'dispatches': {'type': 'array', 'maxItems': 256},
        'drivers': {'type': 'array', 'maxItems': 64, 'items': ref('driver')},
        'setup': {'type': 'array', 'items': ref('call')},
        'steps': {'type': 'array'},
        'slots': whole(64, 0, 'forms 2 and 4: the cancel slots; slot k belongs to seat k modulo seats'),
    },
    'additionalProperties': False,
    'if': {'properties': {'form': {'enum': [2, 4]}}, 'required': ['form']},
    'then': {'required': ['slots'], 'properties': {'dispatches': {'items': ref('plan_2')}},
             'if': {'properties': {'form': {'const': 4}}},
             'then': {'properties': {'steps': {'items': ref('step_3')}}},
             'else': {'properties': {'steps': {'items': ref('step_2')}}}},
    'else': {'properties': {'slots': False, 'dispatches': {'items': ref('plan_1')}, 'steps': {'items': ref('step_1')}}},
    '$defs': dict({
        'u8': whole(U8), 'u32': whole(U32), 'u64': whole(U64),
        'seat': whole(63, 0, 'a seat, below seats'),
        'status': whole(U32, 0, 'an NTSTATUS in decimal: 0 STATUS_SUCCESS, 259 STATUS_PENDING, '
                                '3221225473 STATUS_UNSUCCESSFUL, 3221225760 STATUS_CANCELLED'),
        'final_status': {'allOf': [ref('status'), {'not': {'enum': STATUS_NOT_FINAL}}],
                         'description': 'a status that may complete a packet: '
                                        'neither STATUS_PENDING nor STATUS_MORE_PROCESSING_REQUIRED'},
        'label': {'type': 'string', 'pattern': '^[A-Za-z0-9_]{1,32}$', 'description': 'a label of a packet'},
        'packet': {'description': 'a label, or [slot,use]', 'if': {'type': 'string'}, 'then': ref('label'),
                   'else': row(u32, u64)},
        'party': {'description': '"o", the originator, or a device', 'if': {'type': 'string'}, 'then': {'const': 'o'},
                  'else': u32},
        'rule': {'enum': TABLES['rules']},
        'flags': {'enum': ['', 's', 'e', 'c', 'se', 'sc', 'ec', 'sec'],
                  'description': 's on success, e on error, c on cancel'},
        'setting': row(ref('rule'), u32, u64, ref('flags'),
                       description='[rule, number within the rule, context, flags]'),
        'watch_setting': row({'const': 'watch'}, u32, u64, ref('flags'), description='as a setting, of rule watch'),
        'replace': row({'const': 'replace'}, ref('final_status'), u64),
        'goes_on': {'if': {'type': 'string'}, 'then': {'const': 'continue'}, 'else': ref('replace')},
        'behaviour': {'if': {'type': 'string'}, 'then': {'enum': ['continue', 'keep']}, 'else': ref('replace')},
        'completion': by_first({
            rule: row({'const': rule}, *BEHAVIOURS[rule], description='[rule, on a success, on another status]')
            for rule in TABLES['rules']}),
        'cancel': by_first({'finish': row({'const': 'finish'}, u64), 'leave': row({'const': 'leave'})}),
        'plan_1': by_first(PLANS), 'plan_2': by_first(PLANS_2),
        'driver': {'type': 'array', 'maxItems': 28, 'items': row(whole(27), u32, description='[major, dispatch]')},
        'condition': row({'enum': ['is', 'is_not']}, u32, ref('answer'),
                         description='the step is made only where an earlier step of its seat, by its place in steps, '
                                     'was answered so, or was made and answered otherwise'),
        'answer': {'if': {'type': 'string'}, 'then': {'enum': ANSWERS}, 'else': {
            'type': 'object', 'minProperties': 1, 'maxProperties': 1, 'additionalProperties': False,
            'properties': {'refused': {'enum': REFUSALS}, 'status': ref('status'), 'previous': or_null(u32),
                           'cancelled': {'type': 'boolean'}}}},
        'call': by_do(CALLS, **NO_CONDITION), 'step_1': by_do(CALLS + LOCKS, **NO_CONDITION),
        'step_2': by_do(CALLS + LOCKS + SLOTS, **NO_CONDITION), 'step_3': by_do(CALLS + LOCKS + SLOTS),
    }, **{'step_' + s['title']: s for s in CALLS + LOCKS + SLOTS}),
}
TEXT = json.dumps(schema, indent=1) + '\n'
FOLDER = os.path.dirname(os.path.realpath(__file__))
SCHEMA, COLOURS = (os.path.join(FOLDER, name) for name in ('script.schema.json', 'words.tmLanguage.json'))
# What the lists of the colours have beside the tables' words; `as` has a colour of its own.
MORE_WORDS = {'stack', 'seat', 'leave', 'continue', 'keep', 'replace', 'nothing', 'none', 'o', 'originator'}


def coloured():
    """Returns the words of the lists of words.tmLanguage.json."""
    with open(COLOURS, encoding='utf-8') as file:
        patterns = [it['match'] for it in json.load(file)['patterns']]
    lists = [re.fullmatch(r'\(\?<=\^\|\\s\)\(([a-z_|]+)\)\(\?=\\s\|\$\)', it) for it in patterns]
    return {word for it in lists if it for word in it[1].split('|')}


def check():
    """Returns what is wrong with the files, or None."""
    words = {act['word'] for act in TABLES['acts']} | {key for act in TABLES['acts'] for key in act['keys']}
    other = coloured() ^ (words | set(TABLES['plans']) | set(TABLES['rules']) | MORE_WORDS) - {'as'}
    if other:
        return f'schema/words.tmLanguage.json: {", ".join(sorted(other))}: in a table or in a list, and not in both'
    if set(PLANS_2) != set(TABLES['plans']):
        return 'schema/make_schema.py has other plans'
    with open(SCHEMA, encoding='utf-8') as file:
        return None if file.read() == TEXT else 'schema/script.schema.json is not what make_schema.py writes'


if '--check' in sys.argv[1:]:
    sys.exit(check())
with open(SCHEMA, 'w', encoding='utf-8') as file:
    file.write(TEXT)
