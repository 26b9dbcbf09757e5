"""Scripts of form 4, made by chance: scripts of form 2 whose steps get conditions."""

import copy

from conditions_of_steps import PLAIN_ANSWERS, REFUSED_WORDS
from heads_by_chance import STATUSES, read_head
from json_texts import U32, U64
from layouts import Raw
from running import Runner
from small_forms import REFUSALS

# What the steps of each kind may be answered by, beside a refusal. Others are only refused or not.
OF_LOCKS, OF_SLOTS = ('done', *REFUSED_WORDS[:4]), ('taken', *REFUSED_WORDS[4:])
MAY_GIVE = {
    'call_driver': ('success', {'status': 0}, {'status': 259}, {'status': 3221225488}),
    'set_cancel_routine': ('routine', {'previous': None}, {'previous': 0}, {'previous': 1}),
    'cancel': ({'cancelled': True}, {'cancelled': False}),
    'acquire': ('success', {'status': 0}, {'status': 3221225558}, *OF_LOCKS),
    'release': OF_LOCKS, 'begin_remove': OF_LOCKS, 'hand': OF_LOCKS,
    'drained': ('yes', 'busy', 'no_lock'),
    'publish': ('standing', 'lost', *OF_SLOTS), 'withdraw': ('lost', *OF_SLOTS), 'request': ('nothing', *OF_SLOTS),
    'finish_taken': ('done', 'no_token'),
}


def answer_to(rng, reply):
    """Returns an answer that this reply is one of, where there is any."""
    fits = ['refused' if reply in REFUSED_WORDS or 'refused' in reply else 'done']
    if type(reply) is str:
        fits += [reply] * (reply in PLAIN_ANSWERS)
    else:
        (word,) = reply
        fits += [word] * (word in PLAIN_ANSWERS) + [reply] * (word in ('refused', 'status', 'previous', 'cancelled'))
        fits += ['success'] * (word == 'status') + ['routine'] * (word == 'previous')
    return rng.choice(fits)


def any_answer(rng, do):
    """Returns an answer, mostly one that a step of this kind may give."""
    if do in MAY_GIVE and rng.random() < .6:
        return rng.choice(MAY_GIVE[do])
    return rng.choice([*PLAIN_ANSWERS, {'refused': rng.choice(REFUSALS)}, {'status': rng.choice(STATUSES)},
                       {'previous': rng.choice([None, 0, 1, U32])}, {'cancelled': rng.random() < .5}])


def condition_on(rng, steps, heard, seat):
    """Returns a condition of this seat's next step behind these, or None where the seat has no step."""
    own = [k for k, step in enumerate(steps) if step['seat'] == seat]
    if not own:
        return None
    made = [k for k in own if k in heard]
    if made and rng.random() < .8:
        own = made
    place = rng.choice(own[-3:] if rng.random() < .7 else own)
    test = rng.choice(['is', 'is', 'is_not'])
    if place in heard and rng.random() < .7:
        return [test, place, answer_to(rng, heard[place])]
    return [test, place, any_answer(rng, steps[place]['do'])]


def with_conditions(rng, s, share=None):
    """Returns this script of form 2 as one of form 4: a share of its steps has conditions, some of which hold."""
    share = rng.choice([.1, .4, .4, .8]) if share is None else share
    s = dict(copy.deepcopy(s), form=4)
    runner = Runner(read_head(s))
    for step in s['setup']:
        runner.step(step)
    for place, step in enumerate(s['steps']):
        made = condition_on(rng, s['steps'][:place], runner.heard, step['seat']) if rng.random() < share else None
        if made is not None:
            step['if'] = made
        runner.step(step, place)
    return s


def race_steps(rng, kind, seat, seats):
    """Returns the steps of a race of one kind, of which a seat may make any: its own slot has its number."""
    slot, tag = rng.randrange(seats), rng.choice([seat, seat, 9])
    whole = {'irp': 'a', 'status': 0, 'information': 4}
    return {
        'lock': [{'do': 'acquire', 'lock': 0, 'tag': tag}, {'do': 'acquire', 'lock': 0, 'tag': tag},
                 {'do': 'release', 'lock': 0, 'tag': tag}, {'do': 'begin_remove', 'lock': 0, 'tag': tag},
                 {'do': 'drained', 'lock': 0}, {'do': 'delete', 'device': 0},
                 {'do': 'call_driver', 'by': 'o', 'irp': 'b', 'target': 0}],
        'slot': [{'do': 'publish', 'slot': seat, 'irp': 'a'}, {'do': 'withdraw', 'slot': seat}, {'do': 'request', 'slot': slot},
                 {'do': 'request', 'slot': 0}, {'do': 'finish_taken', 'slot': slot, **whole},
                 {'do': 'finish_taken', 'slot': seat, **whole}],
        'cancel': [{'do': 'set_cancel_routine', 'by': 0, 'irp': 'a', 'cancel': rng.choice([None, None, 0])},
                   {'do': 'complete', 'by': 0, **whole}, {'do': 'cancel', 'irp': 'a'}, {'do': 'look', 'irp': 'a'}],
        'label': [{'do': 'free', 'irp': 'b'}, {'do': 'reuse', 'irp': 'b', 'status': 0}, {'do': 'look', 'irp': 'b'},
                  {'do': 'allocate', 'size': 1, 'as': rng.choice('bc')}, {'do': 'free', 'irp': 'c'}],
    }[kind]


def racing_script(rng):
    """Returns a small script of form 4 whose seats race for a packet, a lock, a slot or a label."""
    seats, major = rng.choice([2, 2, 3]), rng.choice([3, 4, 14])
    kinds = [rng.choice(['lock', 'slot', 'cancel', 'label']), 'slot' if major == 14 else 'cancel']
    keeps = [{'do': 'set_routine', 'by': 'o', 'irp': 'a', 'set': ['keeper', 0, 0, 'sec']}] * rng.choice([0, 1])
    setup = [{'do': 'create_device', 'driver': 0, 'lock': 0}, {'do': 'allocate', 'size': 1, 'as': 'a'},
             {'do': 'set_next', 'by': 'o', 'irp': 'a', 'major': major, 'word': 7}, *keeps,
             {'do': 'call_driver', 'by': 'o', 'irp': 'a', 'target': 0}, {'do': 'allocate', 'size': 1, 'as': 'b'},
             {'do': 'set_next', 'by': 'o', 'irp': 'b', 'major': 27, 'word': 7}]
    steps = []
    for _ in range(rng.choice([4, 5, 6, 7])):
        seat = rng.randrange(seats)
        steps.append({'seat': seat, **rng.choice(race_steps(rng, rng.choice(kinds), seat, seats))})
    made = {'form': 2, 'seats': seats, 'locks': 1, 'slots': seats, 'completions': [['keeper', 'keep', 'keep']],
            'cancels': [['finish', 0], ['leave']], 'dispatches': [['hold', 0], ['hold', 1], ['hold_slot'], ['finish', 0, 5]],
            'drivers': [[[3, 0], [4, 1], [14, 2], [27, 3]]], 'setup': [{'seat': 0, **step} for step in setup], 'steps': steps}
    return with_conditions(rng, made, .7)


def wrong_condition(rng, s):
    """Returns this script with one condition that is wrong, or that stands where none may."""
    s = copy.deepcopy(s)
    if not s['steps']:
        return s
    place = rng.randrange(len(s['steps']))
    seat = s['steps'][place]['seat']
    own = [k for k, step in enumerate(s['steps'][:place]) if step['seat'] == seat]
    others = [k for k, step in enumerate(s['steps'][:place]) if step['seat'] != seat]
    later = [place, place + 1, len(s['steps']), U32, U32 + 1, U64, -1, None, '0', Raw('0.0'), Raw('-0'), [0], True]
    good = rng.choice(own or [0])
    s['steps'][place]['if'] = rng.choice([
        ['is', rng.choice(later), 'done'], ['is_not', rng.choice(others or later), 'done'], ['is', good],
        ['is', good, 'done', 0], [], None, {}, 'is', [good, 'is', 'done'], ['Is', good, 'done'], ['not', good, 'done'],
        ['is', good, rng.choice(['Done', '', 'ok ', 'status', 'previous', 'cancelled', 'Ended', 'device', None, 0, [], {}])],
        ['is', good, rng.choice([{'refused': 'ended'}, {'refused': None}, {'status': U32 + 1}, {'status': '0'},
                                 {'previous': -1}, {'previous': U32 + 1}, {'cancelled': 1}, {'cancelled': None},
                                 {'taken': 1}, {'busy': 3}, {'device': 0}, {'status': 0, 'refused': 'Ended'}])],
        ['is', good, 'done']])
    kind = rng.random()
    if kind < .1:
        s['form'] = 2
    elif kind < .15:
        s['form'] = 1
    elif kind < .3 and s['setup']:
        rng.choice(s['setup'])['if'] = ['is', 0, 'done']
    return s
