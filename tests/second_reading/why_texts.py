"""What `irp_view why` has to print of a transcript, as the model has it. The checks of a call are read from the table
of docs/RULES.md."""

import functools
import os
import re

from first_difference import FIELDS, closure, explain, refusal
from names_in_windows import call_words, cancel_routine, major, owner, packet, plan, reply_words, result, status
from small_forms import completable
from transcripts import BadLine, read_transcript

PAGE = os.path.join(os.path.dirname(os.path.realpath(__file__)), '..', '..', 'docs', 'RULES.md')
# P of the table of calls.
PARTY = 'NoIrp, Stale, Ended, NotOwner, SlotHeld'
MEANINGS = {
    'NoIrp': 'no live packet is under this slot', 'Stale': 'the packet is in another use by now',
    'NoDevice': 'no such device was created', 'DeviceGone': 'the device was deleted',
    'NotOwner': "the caller doesn't own the packet", 'NoLocation': 'the originator has no location of its own',
    'NotPrepared': "the next location wasn't filled, and the own one wasn't skipped",
    'AfterSkip': 'after a skip the owner may only send', 'TooShort': 'too few locations are left',
    'WrongTarget': 'a device sends to the device just below it alone', 'NoRoutine': 'there is no such routine',
    'BadStatus': 'no packet is completed with this status',
    'CancelRoutineSet': 'the packet still has a cancel routine',
    'AlreadyCancelled': 'the packet was cancelled before', 'InFlight': 'a device still has the packet',
    'StillAttached': 'the device has a neighbour in its stack', 'SameStack': 'both devices are in one stack',
    'TooDeep': 'the stack would be too deep', 'Full': 'a limit is reached',
    'NothingAttached': 'nothing stands above this device',
    'NotDrained': "the caller doesn't know the remove lock drained",
    'BadSize': 'no packet has so many locations', 'BadMajor': 'there is no such major function code',
    'NoDriver': 'there is no such driver', 'Ended': 'this use has completed', 'NoLock': 'there is no such remove lock',
    'SlotHeld': 'the packet is kept for a cancel slot', 'NotSlotHeld': 'the packet is kept for no cancel slot',
}
IN_WINDOWS = {
    ('call_driver', 'TooShort'): 'bug check 0x35, NO_MORE_IRP_STACK_LOCATIONS',
    ('reuse', 'InFlight'): 'rule IoReuseIrp', ('delete', 'NotDrained'): 'the RemoveLock rules',
    ('complete', 'Ended'): 'bug check 0x44, MULTIPLE_IRP_COMPLETE_REQUESTS; rule DoubleCompletion',
    ('complete', 'BadStatus'): 'Driver Verifier 0xC9, code 6; rule CompleteRequestStatusCheck',
    ('complete', 'CancelRoutineSet'): 'bug check 0x48, CANCEL_STATE_IN_COMPLETED_IRP; Driver Verifier 0xC9, code 7',
}
KINDS = {'dispatch': 'a dispatch', 'completion': 'a completion routine', 'cancel': 'a cancel routine'}
# What a dispatch, a completion routine and a cancel routine are shown, place by place of FIELDS.
SHOWN = (
    ('its own', 'the device of the location above, none at the top', 'the owner'),
    ('that of the packet',) * 3, ('that of the packet',) * 3,
    ('that of its location', 'that of its location', 'that of the current location'),
    ('the location entered', 'the location whose routine it is', "the packet's current one"),
    ('that of its location', 'that of its location', 'that of the current location'),
    ("the packet's", 'the one in force', "the packet's"), ("the packet's", 'the one in force', "the packet's"),
    ('false', 'PendingReturned, as just read at its location', 'false'),
    ("the packet's cancel flag", "the packet's cancel flag", 'true'),
    ('0', 'the one set with the routine', '0'), ('whether a device stands below', 'false', 'false'),
)
ASKS = {
    'dispatch': ("the dispatch of the device's driver for the major is asked", 'Sending a packet down'),
    'completion': ('a routine with a flag that is met is asked, from the current location up', 'Unwinding'),
    'cancel': ('the cancel routine is taken out and asked', 'Cancelling'),
}
UNMET = 'no routine on the way up has a flag that is met'
RULES_OF_CLOSURES = {
    'watch': 'rule Watch: Continue, no replacement', 'change': 'rule Change: Continue, with or without a replacement',
    'keeper': 'rule Keeper: Keep, no replacement',
    'keep_on_error': 'rule KeepOnError: Keep exactly where the shown status is not a success, else Continue; '
                     'no replacement',
    'must_finish': 'rule MustFinish: answers Finish', 'must_leave': 'rule MustLeave: answers Leave',
}
CALLS = 'The eighteen calls'
REPLIES = {
    'create_device': ('answers the next number', CALLS), 'attach': ('answers the former top of the stack', CALLS),
    'detach': ('answers the device that stood just above', CALLS),
    'allocate': ('answers a slot that is not live, and the next use number', CALLS),
    'reuse': ('answers the same slot, and the next use number', CALLS),
    'set_cancel_routine': ('answers the routine that was set, or none', CALLS),
    'cancel': ('answers whether there was a cancel routine', 'Cancelling'),
    'look': ('answers what the packet holds', CALLS),
}


@functools.lru_cache(None)
def calls_of_page():
    """Returns the rows of the table of calls: the name that RULES has for a call, and its checks in order."""
    with open(PAGE, encoding='utf-8') as it:
        part = it.read().split(f'## {CALLS}\n')[1].split('\n## ')[0]
    found = {}
    for name, checks in re.findall(r'^\| (\w+)\{[^|]*\| [^|]* \| ([^|]*) \|', part, re.M):
        plain = re.sub(r' \([^)]*\)', '', checks).replace(' of `device`', '')
        plain = plain.replace('both of `to`', 'NoDevice, DeviceGone').replace(';', ',')
        found[re.sub(r'(?<!^)(?=[A-Z])', '_', name).lower()] = name, re.sub(r'^P\b', PARTY, plain)
    return found


def room(manager, call):
    """Returns how many locations a call needs below the packet's current one."""
    if call['do'] != 'call_driver':
        return 1
    return manager.stack[call['target']].index(call['target']) + 1


def packet_cause(manager, call, name):
    """Returns what of the packet that a call names a refusal comes from, in words, or None."""
    it = manager.live.get(call['irp'][0]) if 'irp' in call else None
    if it is None:
        return None
    place = f'current location {it.current}, size {it.size}'
    if name == 'Stale':
        return f"the slot's packet is in use {it.use}"
    if name in ('NotOwner', 'SlotHeld', 'NotSlotHeld', 'InFlight'):
        return owner(it.owner)
    if name in ('NoLocation', 'NotPrepared', 'AfterSkip'):
        return place
    if name == 'TooShort':
        return f'{place}, needed below it {room(manager, call)}'
    return f'{cancel_routine(it.cancel_routine)} is set' if name == 'CancelRoutineSet' else None


def device_words(number):
    return 'none' if number is None else f'D{number}'


def cause(manager, call, name):
    """Returns what of the manager's state a refusal comes from, in words, or None."""
    do = call['do']
    if name == 'NoDevice' or (name == 'Full' and do == 'create_device'):
        return f'devices created: {len(manager.devices)}'
    if name == 'Full':
        return f'live packets: {len(manager.live)}, next use number {manager.next_use}'
    if name == 'WrongTarget':
        below = manager.lower(call['by'])
        return 'nothing stands below the sender' if below is None else f'just below the sender stands D{below}'
    if name == 'StillAttached':
        stack, device = manager.stack[call['device']], call['device']
        above = stack[stack.index(device) + 1:]
        return f'below it {device_words(manager.lower(device))}, above it {device_words(above[0] if above else None)}'
    if name == 'TooDeep':
        return f"devices in the stack: {len(manager.stack[call['to']])}"
    if name == 'NotDrained':
        return f"remove lock {manager.devices[call['device']][1]}"
    return packet_cause(manager, call, name)


def why_refused(wrong, name):
    """Returns why the manager refuses the call of an entry."""
    call = wrong.given['call']
    do = 'complete' if call['do'] == 'finish_taken' else call['do']
    windows = IN_WINDOWS.get((do, name))
    found = cause(wrong.manager, call, name)
    meaning = MEANINGS[name]
    if name == 'Stale' and call['do'] == 'finish_taken' and wrong.manager.live[call['irp'][0]].use == call['irp'][1]:
        meaning = 'the token is of another use'
    if name == 'InFlight' and call['do'] == 'delete':
        meaning = 'the device still has a packet'
    return f'{meaning}{f": {found}" if found else ""}{f" (in Windows: {windows})" if windows else ""}'


def rows_of_refusal(wrong):
    """Returns the rows where the entry is refused and the manager's isn't, or the other way round, or otherwise."""
    call, name = wrong.given['call'], refusal(wrong.made['reply'])
    title, checks = calls_of_page()[call['do']]
    manager = reply_words(call, wrong.made['reply']) if name else "doesn't refuse it"
    rows = [('says', reply_words(call, wrong.given['reply'])), ('manager', manager),
            ('rule', f"{title}'s checks are {checks}: {f'the first that fails is {name}' if name else 'none fails'}")]
    return rows + ([('why', why_refused(wrong, name))] if name else []) + [('see', CALLS)]


def rows_of_reply(wrong):
    """Returns the rows where the reply alone differs."""
    call = wrong.given['call']
    title = calls_of_page()[call['do']][0]
    told, section = REPLIES.get(call['do'], (None, CALLS))
    rule = f'{title} {told}' if told else 'the call answers done'
    if call['do'] == 'call_driver':
        rule = 'PENDING where a dispatch held or pended, else the status of the finish that ended the descent'
        section = 'Sending a packet down'
    return [('says', reply_words(call, wrong.given['reply'])), ('manager', reply_words(call, wrong.made['reply'])),
            ('rule', rule), ('see', section)]


def asked_words(question):
    kind, name = closure(question)
    closure_words = {'dispatch': f'dispatch {name}', 'cancel': f'cancel routine {name}'}.get(kind)
    device = question['shown'][0]
    return f"{closure_words or f'{name[0]} {name[1]}'} for {'the originator' if device is None else f'D{device}'}"


def rule_of_no_question(wrong):
    """Returns why nobody is asked by a call, and the section."""
    do = wrong.given['call']['do']
    if refusal(wrong.made['reply']):
        return 'a refused call asks nobody', 'Histories'
    if do == 'call_driver':
        return f'the driver has no dispatch for the major, and {UNMET}', 'Sending a packet down'
    if do in ('complete', 'finish_taken'):
        return UNMET, 'Unwinding'
    if do == 'cancel':
        return 'a packet without a cancel routine: nobody is asked', 'Cancelling'
    return 'this call asks nobody', CALLS


def rule_after(question):
    """Returns why nobody is asked after a question, and the section."""
    if 'plan' in question:
        kind = question['plan'][0]
        if kind == 'finish':
            return UNMET, 'Unwinding'
        if kind in ('hold', 'hold_slot'):
            return f"{'Hold' if kind == 'hold' else 'HoldSlot'} ends the descent", 'Sending a packet down'
        return f'the driver below has no dispatch for the major, and {UNMET}', 'Sending a packet down'
    if 'completion' in question:
        kept = question['answer'][0] == 'keep'
        return 'Keep: unwinding stops' if kept else 'no routine further up has a flag that is met', 'Unwinding'
    return (UNMET, 'Unwinding') if question['answer'][0] == 'finish' else ('Leave does no more', 'Cancelling')


def rows_of_closure(wrong, at):
    """Returns the rows where another closure is asked, or one too many or too few."""
    nobody = 'asks nobody any more' if at else 'asks nobody'
    given, made = (it['asked'][at] if at < len(it['asked']) else None for it in (wrong.given, wrong.made))
    rule = ASKS[closure(made)[0]] if made else rule_after(wrong.made['asked'][at - 1]) if at else \
        rule_of_no_question(wrong)
    return [('says', f'asks {asked_words(given)}' if given else nobody),
            ('manager', f'asks {asked_words(made)}' if made else nobody), ('rule', rule[0]), ('see', rule[1])]


def value(place, it):
    """Returns what stands at a place of what is shown, in words."""
    if place == 0:
        return device_words(it)
    if isinstance(it, bool):
        return str(it).lower()
    return {3: major, 5: hex, 6: status, 7: hex, 10: hex}.get(place, str)(it)


def rows_of_shown(wrong, at, place):
    """Returns the rows where a closure is shown something else."""
    given, made = wrong.given['asked'][at], wrong.made['asked'][at]
    kind = closure(made)[0]
    told = SHOWN[place][tuple(KINDS).index(kind)]
    return [('says', value(place, given['shown'][place])), ('manager', value(place, made['shown'][place])),
            ('rule', f'{FIELDS[place]} of {KINDS[kind]}: {told}'), ('see', 'What each closure is shown')]


def answer_words(question):
    """Returns what a closure answers, in words."""
    if 'plan' in question:
        return plan(question['plan'])
    answer = question['answer']
    if 'cancel' in question:
        return f'finish, information {answer[1]:#x}' if answer[0] == 'finish' else 'leave'
    return f"{answer[0]}, {'mark' if answer[1] else 'no mark'}{f', sets {result(*answer[2])}' if answer[2] else ''}"


def broken_by_plan(shown, it):
    """Returns the first rule of dispatches that a plan breaks."""
    if it[0] == 'finish':
        return 'Finish has a completable status'
    if it[0] in ('skip', 'forward', 'forward_pend') and not shown[11]:
        return 'Skip, Forward and ForwardPend come only where has_lower is shown'
    if it[0] == 'hold' and shown[9]:
        return 'Hold names a cancel routine only where cancel is not shown'
    if it[0] == 'forward' and it[1][0] != 'watch':
        return 'Forward sets only a routine of rule Watch'
    return "each routine named is within the dispatch's counts"


def broken_rule(header, question):
    """Returns the first rule of closures that an answer breaks."""
    shown = question['shown']
    if 'plan' in question:
        return f"Dispatches: {broken_by_plan(shown, question['plan'])}"
    if 'cancel' in question:
        return RULES_OF_CLOSURES[header['cancels'][question['cancel']]]
    kept, mark, put = question['answer']
    if mark != (kept == 'continue' and shown[8] and shown[0] is not None):
        return ('Completion routines: mark is true exactly where the routine continues, PendingReturned is shown and '
                'a device is shown')
    if put is not None and not completable(put[0]):
        return 'Completion routines: a replacement has a completable status'
    return RULES_OF_CLOSURES[question['completion'][0]]


def rows_of_answer(wrong, at):
    """Returns the rows where a closure answers what its rule doesn't allow."""
    given, made = wrong.given['asked'][at], wrong.made['asked'][at]
    return [('says', answer_words(given)), ('manager', f'an answer that is allowed, such as: {answer_words(made)}'),
            ('rule', broken_rule(wrong.header, given)), ('see', 'Rules of closures')]


def lock_words(number):
    return 'none' if number is None else f'remove lock {number}'


def rows_of_book(wrong):
    """Returns the rows where the number, the lock or what is known of it differs."""
    given, made = wrong.given[wrong.part], wrong.made[wrong.part]
    words = {'n': str, 'lock': lock_words, 'drained': lambda it: str(it).lower()}[wrong.part]
    rule = {'n': "an entry's number is its place in the history, from 0",
            'lock': 'the remove lock that the device was created with, and none where there was no such device',
            'drained': 'without a remove lock nothing is known drained'}[wrong.part]
    return [('says', words(given)), ('manager', words(made)), ('rule', rule), ('see', 'Histories')]


def rows_of(wrong):
    """Returns the rows that tell what is wrong with an entry, behind the one that tells in what it differs."""
    if wrong.part == 'reply':
        differs = refusal(wrong.given['reply']) != refusal(wrong.made['reply'])
        return rows_of_refusal(wrong) if differs else rows_of_reply(wrong)
    if not wrong.part.startswith('asked'):
        return rows_of_book(wrong)
    at = int(re.match(r'asked (\d+)', wrong.part).group(1))
    if ', shown' in wrong.part:
        return rows_of_shown(wrong, at, int(re.search(r'place (\d+)', wrong.part).group(1)) - 1)
    return rows_of_answer(wrong, at) if wrong.part.endswith('answer of') else rows_of_closure(wrong, at)


def block_of(wrong):
    """Returns the lines that tell what is wrong."""
    part = wrong.part
    if part.endswith('answer of'):
        part += ' ' + asked_words(wrong.given['asked'][int(part.split()[1].rstrip(','))])
    rows = [('differs in', part), *rows_of(wrong)]
    head = f"entry {wrong.place} (line {wrong.place + 2}): {call_words(wrong.given['call'])}"
    return [head] + [f"  {name:12}{'docs/RULES.md, ' if name == 'see' else ''}{words}" for name, words in rows]


def refused_line(entries):
    """Returns the line for the refused calls of a legal history, as a list; an empty one where none is refused."""
    named = [(place, refusal(entry['reply'])) for place, entry in enumerate(entries)]
    refused = [(place, name) for place, name in named if name]
    told = ''.join(f', entry {place} {name}' for place, name in refused[:10])
    more = f', and {len(refused) - 10} more' if len(refused) > 10 else ''
    return [f'refused calls: {len(refused)}{told}{more}'] if refused else []


def why(text):
    """Returns the exit status and what is printed: on standard output, and where the text is refused, on standard
    error."""
    try:
        header, entries = read_transcript(text)
    except BadLine as bad:
        return 1, f'irp: transcript refused: line {bad.args[0]}\n'
    wrong = explain(text)
    count = len(entries)
    lines = block_of(wrong) if wrong else [f"nothing is wrong: {count} {'entry' if count == 1 else 'entries'}, legal"]
    if not wrong:
        lines += refused_line(entries)
    words = text.count(b'\n') - count - 1 if header else 0
    if words:
        lines.append(f'word lines: {words}, read for their form, not judged')
    return 2 if wrong else 0, '\n'.join(lines) + '\n'
