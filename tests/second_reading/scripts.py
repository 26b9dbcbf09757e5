"""Reads scripts, and tells the first fault of one (docs/FORMATS.md, Scripts; Which scripts are refused)."""

import re

from conditions_of_steps import condition, names_earlier
from json_texts import NotJson, read_json
from small_forms import (RULES, Shape, cancel_answer, completable, list_of, need, object_of, or_null, pair,
                         party, plan, rule, setting, tagged, tuple_of, u32, u64, u8)

CALLS = {
    'create_device': {'driver': u32, 'lock': u32},
    'attach': {'device': u32, 'to': u32},
    'detach': {'lower': u32},
    'delete': {'device': u32},
    'allocate': {'size': u8},
    'free': {'irp': pair}, 'cancel': {'irp': pair}, 'look': {'irp': pair},
    'reuse': {'irp': pair, 'status': u32},
    'set_next': {'by': party, 'irp': pair, 'major': u8, 'word': u64},
    'copy_to_next': {'by': party, 'irp': pair}, 'skip': {'by': party, 'irp': pair},
    'mark_pending': {'by': party, 'irp': pair},
    'set_routine': {'by': party, 'irp': pair, 'set': setting},
    'call_driver': {'by': party, 'irp': pair, 'target': u32},
    'complete': {'by': party, 'irp': pair, 'status': u32, 'information': u64},
    'set_cancel_routine': {'by': party, 'irp': pair, 'cancel': or_null(u32)},
}
LOCK_STEPS = {
    'acquire': {'lock': u32, 'tag': u32}, 'release': {'lock': u32, 'tag': u32},
    'begin_remove': {'lock': u32, 'tag': u32}, 'drained': {'lock': u32},
}
HAND = {'lock': u32, 'tag': u32, 'to': u32}
FINISH_TAKEN = {'irp': pair, 'slot': u32, 'status': u32, 'information': u64}
# The forms of scripts that are read. `compare` leaves out form 4 where the program refuses it.
FORMS = [1, 2, 4]
_LABEL = re.compile(r'[A-Za-z0-9_]{1,32}\Z', re.ASCII)


def label(v):
    """Takes a label."""
    need(type(v) is str and _LABEL.match(v) is not None)
    return v


def label_or_pair(v):
    """Takes a packet of a step: a label, or a slot and a use number."""
    return label(v) if type(v) is str else pair(v)


def step_keys(do, form, setup):
    """The keys of a step beside seat and do, or None where there is no such step here."""
    if do in CALLS:
        reads = dict(CALLS[do])
        if do == 'allocate':
            reads['as'] = label
    elif setup:
        return None
    elif do in LOCK_STEPS:
        return LOCK_STEPS[do]
    elif form == 1:
        return None
    else:
        new = {'hand': HAND, 'publish': {'slot': u32, 'irp': pair}, 'withdraw': {'slot': u32},
               'request': {'slot': u32}, 'finish_taken': FINISH_TAKEN}
        if do not in new:
            return None
        reads = dict(new[do])
    if 'irp' in reads:
        reads['irp'] = label_or_pair
    return reads


class Refused(Exception):
    """The script is refused; the argument is what the program tells."""


class Script:
    """A script that was read."""


def behaviour(v):
    """Takes what a completion routine does on success or on an error."""
    return v if type(v) is str and v in ('continue', 'keep') else tagged(v, {'replace': (u32, u64)})


def kind(b):
    """Returns the word of a behaviour."""
    return b if type(b) is str else 'replace'


def obeys(rule_name, on_ok, on_err):
    """Returns whether two behaviours obey the rule of their completion routine."""
    a, b = kind(on_ok), kind(on_err)
    if any(kind(x) == 'replace' and not completable(x[1]) for x in (on_ok, on_err)):
        return False
    if rule_name == 'watch':
        return a == b == 'continue'
    if rule_name == 'change':
        return a in ('continue', 'replace') and b in ('continue', 'replace')
    if rule_name == 'keeper':
        return a == b == 'keep'
    if rule_name == 'keep_on_error':
        return (a, b) == ('continue', 'keep')
    return True


def read_script(text, workers=1):
    """Returns the script of a text. Raises Refused with its first fault, then that of a hand between workers."""
    if len(text) > 1048576:
        raise Refused('S1')
    try:
        top = read_json(text)
    except NotJson:
        raise Refused('S2')
    if type(top) is not dict or type(top.get('form')) is not int or top['form'] not in FORMS:
        raise Refused('S3')
    s = Script()
    s.form = top['form']
    keys = {'form', 'seats', 'locks', 'completions', 'cancels', 'dispatches', 'drivers', 'setup', 'steps'}
    if s.form != 1:
        keys.add('slots')
    if set(top) != keys:
        raise Refused('S4 top 0')
    for key, least in (('seats', 1), ('locks', 1), ('slots', 0)):
        if key in keys and not (type(top[key]) is int and least <= top[key] <= 64):
            raise Refused('S4 %s 0' % key)
    s.seats, s.locks, s.slots = top['seats'], top['locks'], top.get('slots', 0)

    def members(section):
        if type(top[section]) is not list:
            raise Refused('S4 %s 0' % section)
        return enumerate(top[section])

    def read(section, i, form, value):
        try:
            return form(value)
        except Shape:
            raise Refused('S4 %s %d' % (section, i))

    def judge(number, section, i, holds):
        if not holds:
            raise Refused('%s %s %d' % (number, section, i))

    s.completions = {r: [] for r in RULES}
    for i, v in members('completions'):
        name, on_ok, on_err = read('completions', i, tuple_of(rule, behaviour, behaviour), v)
        judge('S5', 'completions', i, obeys(name, on_ok, on_err))
        judge('S8', 'completions', i, len(s.completions[name]) < 256)
        s.completions[name].append((on_ok, on_err))
    s.cancels = []
    for i, v in members('cancels'):
        s.cancels.append(read('cancels', i, cancel_answer, v))
        judge('S8', 'cancels', i, i < 256)
    s.dispatches = []
    for i, v in members('dispatches'):
        p = read('dispatches', i, plan(s.form), v)
        judge('S5', 'dispatches', i, not (p[0] == 'finish' and not completable(p[1])))
        judge('S5', 'dispatches', i, not (p[0] == 'forward' and p[1] is not None and p[1][0] != 'watch'))
        if p[0] == 'hold' and p[1] is not None:
            judge('S6', 'dispatches', i, p[1] < len(s.cancels))
        if p[0] in ('forward', 'forward_pend') and p[1] is not None:
            judge('S6', 'dispatches', i, p[1][1] < len(s.completions[p[1][0]]))
        judge('S8', 'dispatches', i, i < 256)
        s.dispatches.append(p)
    s.drivers = []
    for i, v in members('drivers'):
        table = read('drivers', i, list_of(tuple_of(u8, u32)), v)
        majors = [m for m, d in table]
        judge('S7', 'drivers', i, all(d < len(s.dispatches) and m <= 27 for m, d in table)
              and len(set(majors)) == len(majors))
        judge('S8', 'drivers', i, i < 64)
        s.drivers.append(sorted(table))
    labels = set()

    def read_step(setup, before):
        def form(v):
            need(type(v) is dict and 'do' in v and type(v['do']) is str)
            reads = step_keys(v['do'], s.form, setup)
            need(reads is not None)
            reads = dict(reads)
            reads['seat'] = u32
            reads['do'] = lambda x: x
            if 'if' in v and s.form == 4 and not setup:
                reads['if'] = condition
            step = object_of(v, reads)
            need(step['seat'] < s.seats)
            if 'if' in step:
                names_earlier(step['if'], step['seat'], before)
            if step['do'] == 'hand':
                need(step['to'] < s.seats and step['to'] != step['seat'])
            if step['do'] in ('publish', 'withdraw'):
                need(step['slot'] < s.slots and step['slot'] % s.seats == step['seat'])
            return step
        return form

    for section in ('setup', 'steps'):
        steps = []
        for i, v in members(section):
            step = read(section, i, read_step(section == 'setup', steps), v)
            name = step.get('as', step.get('irp'))
            if type(name) is str and name not in labels:
                judge('S8', section, i, len(labels) < 4096)
                labels.add(name)
            steps.append(step)
        setattr(s, section, steps)
    for k, step in enumerate(s.steps):
        if step['do'] == 'hand' and step['seat'] % workers != step['to'] % workers:
            raise Refused('S4 steps %d' % k)
    return s
