"""The small forms that scripts and transcripts share (docs/FORMATS.md, Small forms).

Each form is a function that takes a value and answers it, or raises Shape where the value is none of that form.
"""

from json_texts import U32, U64

# The forms of transcripts. A script of form 4 leaves a transcript of form 2.
FORMS = (1, 2)


class Shape(Exception):
    """A value has none of the forms that it may have here."""


def need(holds):
    """Raises Shape where this does not hold."""
    if not holds:
        raise Shape


def nat(limit):
    """Returns the form of a whole number from 0 to the limit."""
    def read(v):
        need(type(v) is int and v <= limit)
        return v
    return read


u8, u32, u64 = nat(255), nat(U32), nat(U64)


def boolean(v):
    """Takes true and false."""
    need(type(v) is bool)
    return v


def or_null(read):
    """Returns the form of a value that may be null instead."""
    return lambda v: None if v is None else read(v)


def one_of(*words):
    """Returns the form of a text that is one of these words."""
    def read(v):
        need(type(v) is str and v in words)
        return v
    return read


def tuple_of(*reads):
    """Returns the form of a list with these members, no more and no fewer."""
    def read(v):
        need(type(v) is list and len(v) == len(reads))
        return [r(x) for r, x in zip(reads, v)]
    return read


def list_of(read_one, most=None):
    """Returns the form of a list of members of one form, as many as `most` at most."""
    def read(v):
        need(type(v) is list and (most is None or len(v) <= most))
        return [read_one(x) for x in v]
    return read


def party(v):
    """Takes a party: the originator or a device number."""
    return v if v == 'o' and type(v) is str else u32(v)


pair = tuple_of(u32, u64)
RULES = ('watch', 'change', 'keeper', 'keep_on_error', 'free')
CANCEL_RULES = ('must_finish', 'must_leave', 'either')
rule = one_of(*RULES)
cancel_rule = one_of(*CANCEL_RULES)
flags = one_of('', 's', 'e', 'c', 'se', 'sc', 'ec', 'sec')
setting = tuple_of(rule, u32, u64, flags)


def tagged(v, table):
    """A list whose first item is a word of the table, which has the reads of the other items."""
    need(type(v) is list and v and type(v[0]) is str and v[0] in table)
    return [v[0]] + tuple_of(*table[v[0]])(v[1:])


def plan(form):
    """Returns the form of a plan of a dispatch, in form 1, or in a later one."""
    table = {'finish': (u32, u64), 'hold': (or_null(u32),), 'skip': (), 'forward': (or_null(setting),),
             'forward_pend': (or_null(setting),)}
    if form != 1:
        table['hold_slot'] = ()
    return lambda v: tagged(v, table)


replacement = or_null(tuple_of(u32, u64))


def answer(v):
    """Takes the answer of a completion routine."""
    return tagged(v, {'continue': (boolean, replacement), 'keep': (boolean, replacement)})


def cancel_answer(v):
    """Takes the answer of a cancel routine."""
    return tagged(v, {'finish': (u64,), 'leave': ()})


shown_form = tuple_of(or_null(u32), u32, u64, u8, u32, u64, u32, u64, boolean, boolean, u64, boolean)


def object_of(v, reads):
    """Takes an object with exactly these keys, each of its form."""
    need(type(v) is dict and set(v) == set(reads))
    return {k: reads[k](v[k]) for k in reads}


def asked_form(form):
    """Returns the form of one closure that was asked, in form 1 or 2."""
    forms = [{'dispatch': u32, 'plan': plan(form), 'shown': shown_form},
             {'answer': answer, 'completion': tuple_of(rule, u32), 'shown': shown_form},
             {'answer': cancel_answer, 'cancel': u32, 'shown': shown_form}]

    def read(v):
        need(type(v) is dict)
        for reads in forms:
            if set(v) == set(reads):
                return object_of(v, reads)
        raise Shape
    return read


REFUSALS = ['NoIrp', 'Stale', 'NoDevice', 'DeviceGone', 'NotOwner', 'NoLocation', 'NotPrepared', 'AfterSkip',
            'TooShort', 'WrongTarget', 'NoRoutine', 'BadStatus', 'CancelRoutineSet', 'AlreadyCancelled', 'InFlight',
            'StillAttached', 'SameStack', 'TooDeep', 'Full', 'NothingAttached', 'NotDrained', 'BadSize', 'BadMajor',
            'NoDriver', 'Ended', 'HistoryFull', 'NoLock', 'SlotHeld', 'NotSlotHeld']


def owner_form(v):
    """Takes the owner that Look shows: a party, or that the packet ended."""
    return v if type(v) is str and v in ('o', 'ended') else u32(v)


seen_form = tuple_of(owner_form, u32, u32, u64, boolean, or_null(u32), boolean, boolean)
REPLIES = {'device': u32, 'irp': pair, 'status': u32, 'previous': or_null(u32), 'cancelled': boolean,
           'seen': seen_form, 'refused': one_of(*REFUSALS)}


def reply_form(v):
    """Takes the reply of a call."""
    if type(v) is str:
        need(v == 'done')
        return v
    need(type(v) is dict and len(v) == 1)
    (key,) = v
    need(key in REPLIES)
    return {key: REPLIES[key](v[key])}


def completable(status):
    """Returns whether a packet may end with this status."""
    return status not in (0x103, 0xC0000016)


def is_success(status):
    """Returns whether a status tells success."""
    return status < 0x80000000
