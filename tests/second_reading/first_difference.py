"""What is wrong with a transcript: the first entry that isn't legal, and the first part in which it differs from the
one that the manager makes of its call."""

import json
from typing import NamedTuple

from manager import Manager, Tables
from small_forms import RULES
from transcripts import allows, cancel_allows, plan_allows, read_transcript

INVALID = ['finish', 0xC0000010, 0]
FIELDS = ['device', 'slot', 'use number', 'major', 'location', 'word', 'status', 'information', 'PendingReturned',
          'cancel flag', 'context', 'has_lower']


class Recorded:
    """Closures that answer what the entry says first of them, where that is allowed, and else something fixed."""
    def __init__(self, tables):
        self.tables = tables
        self.asked = []

    def begin(self, asked):
        self.asked = asked

    def plan(self, dispatch, shown):
        told = [it['plan'] for it in self.asked if 'dispatch' in it and it['shown'][0] == shown[0]]
        plan = told[0] if told else INVALID
        return plan if plan_allows(self.tables.known[dispatch], shown, plan) else INVALID

    def answer(self, routine, shown):
        told = [it['answer'] for it in self.asked if 'completion' in it and it['shown'][4] == shown[4]]
        mark = shown[8] and shown[0] is not None
        for answer in told[:1] + [['continue', mark, None], ['keep', False, None]]:
            if allows(routine[0], shown, answer):
                return answer

    def cancel_answer(self, routine, shown):
        told = [it['answer'] for it in self.asked if 'cancel' in it]
        for answer in told[:1] + [['leave'], ['finish', 0]]:
            if cancel_allows(self.tables.cancels[routine], answer):
                return answer


class Wish:
    """Slots: the one that the reply names, where it isn't live."""
    wish = None

    def take(self, live):
        if self.wish is not None and self.wish not in live:
            return self.wish
        return next(it for it in range(len(live) + 1) if it not in live)

    def give(self, slot):
        pass


def closure(question):
    """Returns which closure a question is put to."""
    for kind in ('dispatch', 'completion', 'cancel'):
        if kind in question:
            return kind, question[kind]


def refusal(reply):
    """Returns the name of the refusal that a reply is, or None."""
    return reply.get('refused') if isinstance(reply, dict) else None


def question_difference(at, given, made):
    """Returns in which part two questions differ, as `irp_view why` names it, or None."""
    if closure(given) != closure(made):
        return f'asked {at}'
    for place, (one, other) in enumerate(zip(given['shown'], made['shown'])):
        if one != other or type(one) is not type(other):
            return f'asked {at}, shown: {FIELDS[place]} (place {place + 1})'
    if given.get('plan') != made.get('plan') or given.get('answer') != made.get('answer'):
        return f'asked {at}, answer of'
    return None


def first_difference(given, made):
    """Returns in which part two entries differ first, or None."""
    for key in ('n', 'lock', 'drained'):
        if given[key] != made[key]:
            return key
    if refusal(given['reply']) != refusal(made['reply']):
        return 'reply'
    for at, (one, other) in enumerate(zip(given['asked'], made['asked'])):
        found = question_difference(at, one, other)
        if found:
            return found
    if len(given['asked']) != len(made['asked']):
        return f"asked {min(len(given['asked']), len(made['asked']))}"
    return None if given['reply'] == made['reply'] else 'reply'


class Wrong(NamedTuple):
    """The first entry that isn't legal: its place, itself, what the manager makes of its call, the part in which they
    differ first, the manager after it, and the header."""

    place: int
    given: dict
    made: dict
    part: str
    manager: Manager
    header: dict


def made_again(text):
    """Yields of each entry of a transcript what `Wrong` has, up to the first that differs; `part` is None where none does."""
    header, entries = read_transcript(text)
    if header is None:
        return
    tables = Tables(dict(zip(RULES, header['completions'])), header['cancels'],
                    [dict(zip(RULES + ('cancel',), it)) for it in header['dispatches']], header['drivers'])
    ask, wish = Recorded(tables), Wish()
    manager = Manager(tables, header['locks'], 16 if header['form'] == 1 else 32, ask, wish)
    for place, entry in enumerate(entries):
        call = dict(entry['call'])
        lock, drained = (call.pop('lock'), call.pop('drained')) if call['do'] == 'delete' else (None, False)
        given = {**entry, 'lock': lock, 'drained': drained}
        wish.wish = given['reply']['irp'][0] if isinstance(given['reply'], dict) and 'irp' in given['reply'] else None
        ask.begin(entry['asked'])
        lock, drained, asked, reply = manager.apply(call, lambda _lock: given['drained'])
        made = json.loads(json.dumps({'n': place, 'lock': lock, 'drained': drained, 'asked': asked, 'reply': reply}))
        found = first_difference(given, made)
        yield Wrong(place, given, made, found, manager, header)
        if found:
            return


def explain(text):
    """Returns None where nothing is wrong with a transcript, else what is wrong."""
    return next((it for it in made_again(text) if it.part), None)
