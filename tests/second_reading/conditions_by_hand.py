"""Scripts of form 4 that were written by hand: each answer against each reply that a step can have, conditions on steps that
weren't made, and conditions of a wrong form or in a wrong place."""

from conditions_of_steps import PLAIN_ANSWERS
from json_texts import U32, U64
from layouts import encode, plain

DELETE_PENDING, CANCELLED = 3221225558, 3221225760
HEAD = {'form': 4, 'seats': 2, 'locks': 2, 'slots': 6, 'completions': [], 'cancels': [['finish', 0], ['leave']],
        'dispatches': [['hold', 0], ['hold', 1], ['hold_slot'], ['finish', 3221225473, 0]],
        'drivers': [[[3, 0], [4, 1], [14, 2], [27, 3]]]}
ANSWERS = [*PLAIN_ANSWERS, *({'refused': name} for name in ('Ended', 'NotOwner', 'NoDriver', 'NoLock', 'NoIrp')),
           *({'status': n} for n in (0, 1, 259, 3221225473, DELETE_PENDING, U32)),
           *({'previous': k} for k in (None, 0, 1, U32)), {'cancelled': True}, {'cancelled': False}]


def step(do, **keys):
    """Returns a step of seat 0."""
    return dict({'seat': 0, 'do': do}, **keys)


def sent(label, major):
    """Returns the steps of a packet that is sent to D0 with this major."""
    return [step('allocate', size=1, **{'as': label}), step('set_next', by='o', irp=label, major=major, word=0),
            step('call_driver', by='o', irp=label, target=0)]


def taken_out(label, cancel=None):
    return step('set_cancel_routine', by=0, irp=label, cancel=cancel)


def finished(label, slot):
    return step('finish_taken', irp=label, slot=slot, status=0, information=0)


def lock(do, tag, number=0):
    return step(do, lock=number, tag=tag)


DONE = {'by': 0, 'status': 0, 'information': 0}
# Between them, each kind of reply but `seat_full`.
STEPS = [
    step('create_device', driver=0, lock=0), step('create_device', driver=9, lock=0), *sent('a', 3), taken_out('a'),
    taken_out('a'), step('cancel', irp='a'), step('complete', irp='a', **DONE), step('complete', irp='a', **DONE),
    *sent('b', 3), step('cancel', irp='b'), *sent('c', 4), taken_out('c', 0), taken_out('c', 9),
    *sent('d', 27), step('look', irp='d'), step('look', irp='nobody'), *sent('e', 5),
    *sent('f', 14), step('publish', slot=0, irp='f'), step('publish', slot=0, irp='f'), step('withdraw', slot=0),
    step('withdraw', slot=0), step('withdraw', slot=2), finished('f', 0), finished('f', 0), step('request', slot=9),
    step('request', slot=2), step('publish', slot=2, irp='nobody'), step('request', slot=2),
    *sent('g', 14), step('request', slot=4), step('publish', slot=4, irp='g'), finished('b', 4), finished('g', 4),
    lock('acquire', 1), lock('acquire', 1, 9), lock('acquire', 2), lock('release', 5), lock('release', 5, 9),
    lock('begin_remove', 2), lock('acquire', 3), lock('begin_remove', 1), lock('begin_remove', 7), step('drained', lock=0),
    lock('release', 1), step('drained', lock=0), step('drained', lock=9), lock('acquire', 4, 1),
    step('hand', lock=1, tag=4, to=1), step('hand', lock=1, tag=4, to=1), step('hand', lock=9, tag=4, to=1),
    step('free', irp='a'), step('reuse', irp='b', status=0), step('delete', device=0), step('detach', lower=0),
]


def run_of(steps, **change):
    """Returns the words for the program, and the text of a script with these steps."""
    return ['run'], encode(plain({**HEAD, 'setup': [], 'steps': steps, **change}))


def tested(place, test, answer, **more):
    """Returns a step on a condition, which shows whether it was made."""
    return step('allocate', size=1, **{'as': 'z', 'if': [test, place, answer], **more})


def each_answer():
    """Yields scripts in which each answer is compared with a reply, one script for each reply."""
    for place in range(len(STEPS)):
        tests = [tested(place, test, answer) for answer in ANSWERS for test in ('is', 'is_not')]
        yield run_of(STEPS[:place + 1] + tests)
    full = [lock('acquire', 1) for _ in range(65)]
    yield run_of(full + [tested(64, test, answer) for answer in ANSWERS for test in ('is', 'is_not')])


def not_made():
    """Yields scripts with conditions on steps that weren't made, and on steps that stand on conditions themselves."""
    for first in ('is', 'is_not'):
        for second in ('is', 'is_not'):
            for third in ('is', 'is_not'):
                yield run_of([lock('acquire', 1), dict(lock('acquire', 2), **{'if': [first, 0, 'success']}),
                              dict(lock('release', 2), **{'if': [second, 1, 'success']}),
                              dict(lock('release', 1), **{'if': [third, 2, 'done']}), step('drained', lock=0)])


def wrong_forms():
    """Yields scripts whose last step's condition is wrong."""
    first = [lock('acquire', 1), dict(lock('acquire', 1), seat=1), lock('release', 1)]
    for place in (0, 1, 2, 3, 4, 64, U32, U32 + 1, U64, U64 + 1, -1, None, '0', True, 0.5, [0]):
        yield run_of([*first, tested(place, 'is', 'success')])
        yield run_of([*first, tested(place, 'is_not', 'success', seat=1)])
    for whole in (None, {}, [], 'is', 0, True, ['is'], ['is', 0], ['is', 0, 'done', 0], [0, 'is', 'done'], ['is', 'done', 0],
                  ['Is', 0, 'done'], ['isnt', 0, 'done'], ['not', 0, 'done'], [None, 0, 'done'], [['is', 0, 'done']]):
        yield run_of([*first, dict(tested(0, 'is', 'done'), **{'if': whole})])
    odd = ['Done', 'ok', '', 'status', 'refuse', 'Ended', 'previous', 'none', 'true', 'device', 'irp', 'seen', 'cancelled',
           None, 0, True, [], {}, ['done'], {'done': 0}, {'refused': 'refused'}, {'refused': 'ended'}, {'refused': ''},
           {'refused': 'Memory'}, {'refused': None}, {'status': U32 + 1}, {'status': -1}, {'status': '0'}, {'status': None},
           {'previous': U32 + 1}, {'previous': -1}, {'previous': False}, {'cancelled': 1}, {'cancelled': 'true'},
           {'cancelled': None}, {'success': 0}, {'taken': 1}, {'busy': 3}, {'device': 0}, {'irp': [0, 1]},
           {'status': 0, 'cancelled': True}]
    for answer in odd:
        yield run_of([*first, tested(0, 'is', answer)])
    for name in ('HistoryFull', 'SlotHeld', 'NotSlotHeld', 'Stale'):
        yield run_of([*first, tested(0, 'is_not', {'refused': name})])


def wrong_places():
    """Yields scripts with a condition where none may stand: in `setup`, and in forms 1 and 2."""
    look = step('look', irp='a', **{'if': ['is', 0, 'done']})
    yield run_of([step('look', irp='a')], setup=[step('look', irp='a'), look])
    yield run_of([look], setup=[step('look', irp='a')])
    one = {key: value for key, value in HEAD.items() if key != 'slots'}
    one.update(dispatches=one['dispatches'][:2], drivers=[[[3, 0], [4, 1]]])
    for head in (dict(HEAD, form=2), dict(one, form=1)):
        for steps in ([step('look', irp='a'), look], [look], [step('look', irp='a', **{'if': None})]):
            yield ['run'], encode(plain(dict(head, setup=[], steps=steps)))
    yield ['run'], encode(plain(dict(one, setup=[], steps=[])))
    for change in ({'slots': 65}, {'slots': -1}, {'slots': None}, {'form': 3}, {'form': 5}, {'form': '4'}, {'form': 4.0}, {'if': 0}):
        yield run_of([step('look', irp='a')], **change)


def cases():
    """Yields the words for the program and its input, for each text."""
    for made in (each_answer, not_made, wrong_forms, wrong_places):
        yield from made()
