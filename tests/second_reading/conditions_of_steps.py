"""Conditions of steps: their form, when one holds, and which steps a seat makes (docs/FORMATS.md, Steps on conditions)."""

from small_forms import REFUSALS, Shape, boolean, is_success, need, one_of, or_null, tuple_of, u32

# The words of word lines: those of a step that was refused, and the others.
REFUSED_WORDS = ('seat_full', 'not_held', 'already_removing', 'no_lock', 'used', 'not_standing', 'no_slot', 'no_token')
WORDS = ('yes', 'busy', 'standing', 'taken', 'lost', 'nothing', *REFUSED_WORDS)
PLAIN_ANSWERS = ('refused', 'success', 'routine', 'done', *WORDS)
ANSWERS = {'refused': one_of(*REFUSALS), 'status': u32, 'previous': or_null(u32), 'cancelled': boolean}


def expected(v):
    """Takes the answer that a condition names."""
    if type(v) is str:
        return one_of(*PLAIN_ANSWERS)(v)
    need(type(v) is dict and len(v) == 1)
    (key,) = v
    need(key in ANSWERS)
    return {key: ANSWERS[key](v[key])}


condition = tuple_of(one_of('is', 'is_not'), u32, expected)


def names_earlier(test, seat, before):
    """Checks that a condition of this seat's step names a step of its own among those before."""
    need(test[1] < len(before) and before[test[1]]['seat'] == seat)


def key_of(reply):
    """Returns the word of a reply, and what stands with it."""
    return (reply, None) if type(reply) is str else next(iter(reply.items()))


def answers(answer, reply):
    """Returns whether a reply is such an answer."""
    if type(answer) is dict:
        return reply == answer
    word, with_it = key_of(reply)
    if answer == 'refused':
        return word == 'refused' or word in REFUSED_WORDS
    if answer == 'success':
        return word == 'status' and is_success(with_it)
    if answer == 'routine':
        return word == 'previous' and with_it is not None
    if answer == 'done':
        return word in ('done', 'ok')
    return word == answer


def holds(step, heard):
    """Returns whether a step is made, where its seat heard these answers, each under the place of its step. A test of a step
    that wasn't made fails, whichever it is."""
    if 'if' not in step:
        return True
    test, place, answer = step['if']
    return place in heard and answers(answer, heard[place]) == (test == 'is')


def heard_in(script, lines):
    """Returns what each step of a script was answered, under its place, as the lines of a transcript tell it: entries, of
    which those of `setup` are the first, and word lines. Of a seat's steps that were made, those without a word line have
    its entries, in order. Raises Shape where the lines are those of other steps."""
    calls = [line for line in lines if 'call' in line][len(script.setup):]
    words = {line['step']: line for line in lines if 'step' in line}
    left = {seat: [call for call in calls if call['seat'] == seat] for seat in range(script.seats)}
    heard = {}
    for place, step in enumerate(script.steps):
        if not holds(step, heard):
            continue
        if place in words:
            line = words.pop(place)
            need((line['seat'], line['do']) == (step['seat'], step['do']))
        else:
            need(left[step['seat']])
            line = left[step['seat']].pop(0)
            need(line['call']['do'] == step['do'])
        heard[place] = line['reply']
    if words or any(left.values()):
        raise Shape
    return heard
