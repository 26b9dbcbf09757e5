"""Reads a transcript and judges it (docs/FORMATS.md, Reading a transcript; Checking a transcript)."""

from json_texts import NotJson, compact, read_json
from manager import Manager, Tables
from scripts import CALLS, HAND, LOCK_STEPS
from small_forms import (FORMS, RULES, Shape, asked_form, boolean, cancel_rule, completable, is_success, list_of, nat,
                         need, object_of, or_null, pair, reply_form, tuple_of, u32, u64, u8)

WORD_REPLIES_1 = ('ok', 'seat_full', 'not_held', 'already_removing', 'no_lock', 'yes')
WORD_REPLIES_2 = WORD_REPLIES_1 + ('standing', 'lost', 'nothing', 'used', 'not_standing', 'no_slot', 'no_token')


def word_reply(form):
    """Returns the form of the reply in a word line, in form 1 or 2."""
    def read(v):
        if type(v) is str:
            need(v in (WORD_REPLIES_2 if form == 2 else WORD_REPLIES_1))
            return v
        need(type(v) is dict and len(v) == 1)
        (key,) = v
        need(key in ('status', 'busy') or (form == 2 and key == 'taken'))
        if key == 'status':
            need(u32(v[key]) in (0, 3221225558))
        else:
            u64(v[key])
        return v
    return read


def read_header(v):
    """Takes a header whose tables agree with each other."""
    need(type(v) is dict and type(v.get('form')) is int and v['form'] in FORMS)
    reads = {'cancels': list_of(cancel_rule, 256), 'completions': tuple_of(*[nat(256)] * 5),
             'dispatches': list_of(tuple_of(*[nat(256)] * 6), 256), 'drivers': list_of(list_of(tuple_of(u8, u32)), 64),
             'form': u32, 'locks': nat(64), 'seats': nat(64)}
    if v['form'] == 2:
        reads['slots'] = nat(64)
    h = object_of(v, reads)
    need(h['locks'] > 0 and h['seats'] > 0)
    for known in h['dispatches']:
        need(all(k <= c for k, c in zip(known, h['completions'] + [len(h['cancels'])])))
    for table in h['drivers']:
        majors = [m for m, d in table]
        need(all(m <= 27 and d < len(h['dispatches']) for m, d in table))
        need(all(a < b for a, b in zip(majors, majors[1:])))
    return h


def read_call(form):
    """Returns the form of the call in an entry, in form 1 or 2."""
    def read(v):
        need(type(v) is dict and type(v.get('do')) is str)
        do = v['do']
        if do == 'finish_taken' and form == 2:
            reads = {'information': u64, 'irp': pair, 'status': u32, 'token': u64}
        else:
            need(do in CALLS)
            reads = dict(CALLS[do])
            if do == 'delete':
                reads['lock'] = or_null(u32)
                reads['drained'] = boolean
        return object_of(v, dict(reads, do=lambda x: x))
    return read


def read_line(v, h):
    """Returns whether a line is an entry or a word line under the header h, and the line itself."""
    form = h['form']
    need(type(v) is dict)
    if 'call' in v:
        entry = object_of(v, {'asked': list_of(asked_form(form)), 'call': read_call(form), 'n': u64,
                              'reply': reply_form, 'seat': u32})
        need(entry['seat'] < h['seats'])
        return 'entry', entry
    need(type(v.get('do')) is str)
    do = v['do']
    if do in LOCK_STEPS:
        reads = dict(LOCK_STEPS[do])
    else:
        need(form == 2)
        if do == 'hand':
            reads = dict(HAND)
        else:
            need(do in ('publish', 'withdraw', 'request', 'finish_taken'))
            reads = {'slot': u32}
    reads.update(do=lambda x: x, reply=word_reply(form), seat=u32, step=u32)
    word = object_of(v, reads)
    need(word['seat'] < h['seats'] and (do != 'hand' or word['to'] < h['seats']))
    return 'word', word


class BadLine(Exception):
    """The transcript is refused; the argument is the number of the line."""


def read_transcript(text):
    """Returns the header, or None, and the entries of a text. Raises BadLine with the first line that has a fault."""
    header, entries, in_words = None, [], False
    lines = text.split(b'\n')
    last = lines.pop()
    whole = len(lines)
    if last:
        lines.append(last)
    for number, line in enumerate(lines, 1):
        try:
            need(number <= whole and len(line) <= 65536)
            value = read_json(line)
            if header is None:
                header = read_header(value)
                continue
            what, it = read_line(value, header)
            if what == 'word':
                in_words = True
            else:
                need(not in_words and len(entries) < 1000000)
                entries.append(it)
        except (Shape, NotJson):
            raise BadLine(number)
    return header, entries


class Illegal(Exception):
    """The entry is no step of the manager."""


def hold(holds):
    """Raises Illegal where this does not hold."""
    if not holds:
        raise Illegal


class Replay:
    """Gives the answers of an entry, in order, each to the question that was asked and where its rule allows it."""
    def __init__(self, tables):
        self.tables = tables

    def begin(self, asked):
        self.left = list(asked)

    def next(self, head, shown, answer_key):
        hold(self.left)
        item = self.left.pop(0)
        hold(all(k in item and item[k] == v for k, v in head.items()) and item['shown'] == shown)
        return item[answer_key]

    def plan(self, dispatch, shown):
        p = self.next({'dispatch': dispatch}, shown, 'plan')
        hold(plan_allows(self.tables.known[dispatch], shown, p))
        return p

    def answer(self, routine, shown):
        a = self.next({'completion': list(routine)}, shown, 'answer')
        hold(allows(routine[0], shown, a))
        return a

    def cancel_answer(self, routine, shown):
        a = self.next({'cancel': routine}, shown, 'answer')
        hold(cancel_allows(self.tables.cancels[routine], a))
        return a


def allows(rule_name, shown, a):
    """Returns whether a rule allows this answer of a completion routine that was shown this."""
    keeps = a[0] == 'keep'
    if a[1] != (not keeps and shown[8] and shown[0] is not None):
        return False
    if a[2] is not None and not completable(a[2][0]):
        return False
    if rule_name == 'watch':
        return not keeps and a[2] is None
    if rule_name == 'change':
        return not keeps
    if rule_name == 'keeper':
        return keeps and a[2] is None
    if rule_name == 'keep_on_error':
        return a[2] is None and keeps == (not is_success(shown[6]))
    return True


def cancel_allows(rule_name, a):
    """Returns whether a rule allows this answer of a cancel routine."""
    return rule_name == 'either' or (a[0] == 'finish') == (rule_name == 'must_finish')


def plan_allows(known, shown, p):
    """Returns whether a dispatch that knows so many routines and was shown this may plan so."""
    if p[0] == 'finish':
        return completable(p[1])
    if p[0] == 'hold':
        return p[1] is None or (not shown[9] and p[1] < known['cancel'])
    if p[0] == 'hold_slot':
        return True
    if not shown[11]:
        return False
    if p[0] == 'skip' or p[1] is None:
        return True
    if p[0] == 'forward' and p[1][0] != 'watch':
        return False
    return p[1][1] < known[p[1][0]]


class Wish:
    """Gives a new packet the slot that the entry says, where that is free."""
    def __init__(self):
        self.wish = None

    def take(self, live):
        hold(self.wish is not None and self.wish not in live)
        return self.wish

    def give(self, slot):
        pass


def check(text):
    """Returns what the program says of a transcript: legal N, illegal N or refused line N."""
    try:
        header, entries = read_transcript(text)
    except BadLine as b:
        return 'refused line %d' % b.args[0]
    if header is None:
        return 'legal 0'
    tables = Tables(dict(zip(RULES, header['completions'])), header['cancels'],
                    [dict(zip(RULES + ('cancel',), k)) for k in header['dispatches']], header['drivers'])
    replay, wish = Replay(tables), Wish()
    manager = Manager(tables, header['locks'], 16 if header['form'] == 1 else 32, replay, wish)
    for number, entry in enumerate(entries):
        try:
            hold(entry['n'] == number)
            call = dict(entry['call'])
            claimed_lock, claimed_drained = call.pop('lock', None), call.pop('drained', False)
            if call['do'] != 'delete':
                call, claimed_lock, claimed_drained = entry['call'], None, False
            reply = entry['reply']
            wish.wish = reply['irp'][0] if type(reply) is dict and 'irp' in reply else None
            replay.begin(entry['asked'])
            lock, drained, asked, made = manager.apply(call, lambda k: claimed_drained)
            hold(not replay.left and same(asked, entry['asked']) and same(made, reply))
            hold(lock == claimed_lock and drained == claimed_drained)
        except Illegal:
            return 'illegal %d' % number
    return 'legal %d' % len(entries)


def same(a, b):
    """Returns whether two values have the same text."""
    return compact(a) == compact(b)
