"""Transcripts that are wrong in one entry, so that each reason is told once at least: each field of each kind of
closure, each way in which asking ends, each refusal that an example shows, each call's reply."""

import copy

from json_texts import compact

# Their entries ask in each of the ways in which asking ends.
ENDS = ('sending/one_device_finishes_one_packet', 'sending/a_major_without_a_dispatch_below',
        'sending/a_major_without_a_dispatch_asks_nothing', 'practice/routine_marks_above', 'practice/completed_twice',
        'completing/a_keeper_keeps_a_packet', 'cancelling/each_cancel_routine_answers_its_own',
        'practice/cancelled_before_sending', 'slots/a_packet_in_a_slot_is_completed_by_its_token_alone')
# Its entries have a dispatch, a cancel routine and a completion routine.
FIELDS = 'cancelling/a_cancel_routine_finishes_a_packet'
QUESTION = {'dispatch': 0, 'plan': ['skip'], 'shown': [0, 0, 1, 3, 1, 7, 0, 0, False, False, 0, False]}


def changed(lines, at, change):
    """Returns the bytes of a transcript up to a line, which is changed."""
    lines = copy.deepcopy(lines[:at + 1])
    change(lines[at])
    return b''.join(compact(it) + b'\n' for it in lines)


def entries(lines):
    """Returns the entries of a transcript, each behind the place of its line."""
    return [(at, it) for at, it in enumerate(lines) if 'call' in it]


def each_field(lines):
    """Yields texts in which one field differs of what a closure was shown."""
    for at, entry in entries(lines):
        for asked in range(len(entry['asked'])):
            for place in range(12):
                def change(it, asked=asked, place=place):
                    shown = it['asked'][asked]['shown']
                    old = shown[place]
                    shown[place] = not old if isinstance(old, bool) else 0 if old is None else old + 1
                yield changed(lines, at, change)


def each_end(lines):
    """Yields texts in which one question is too many behind the last of an entry, or the last is left out."""
    for at, entry in entries(lines):
        yield changed(lines, at, lambda it: it['asked'].append(copy.deepcopy(QUESTION)))
        if entry['asked']:
            yield changed(lines, at, lambda it: it['asked'].pop())


def is_refused(entry):
    return isinstance(entry['reply'], dict) and 'refused' in entry['reply']


def other_reply(it):
    """Returns a reply that differs from this one, and isn't a refusal."""
    if it == 'done':
        return {'device': 0}
    (key, value), = it.items()
    if key == 'irp':
        return {key: [value[0], value[1] + 1]}
    if key == 'seen':
        return {key: [*value[:7], not value[7]]}
    if isinstance(value, bool):
        return {key: not value}
    return {key: 0 if value is None else value + 1}


def each_refusal(sources):
    """Yields texts in which a call is done that is refused."""
    for lines in sources:
        for at, entry in entries(lines):
            if is_refused(entry):
                yield changed(lines, at, lambda it: it.update(reply='done'))


def each_reply(sources):
    """Yields texts in which a call is answered otherwise, or refused: each call once."""
    seen = set()
    for lines in sources:
        for at, entry in entries(lines):
            if not is_refused(entry) and entry['call']['do'] not in seen:
                seen.add(entry['call']['do'])
                yield changed(lines, at, lambda it: it.update(reply=other_reply(it['reply'])))
                yield changed(lines, at, lambda it: it.update(reply={'refused': 'NoIrp'}))


def texts(named):
    """Returns the texts; `named` has the lines of each example by its name."""
    found = [*each_field(named[FIELDS]), *each_refusal(named.values()), *each_reply(named.values())]
    for name in ENDS:
        found += each_end(named[name])
    return found
