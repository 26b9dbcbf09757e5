"""Sorts what a manager did with a script: as the model, by known differences, or newly."""

import itertools

from comparing import Differs, compare, significant
from conditions import is_refused
from running import LEFT_OUT
from simulated import KINDS, Manager, word_of

EQUAL, NEW = "equal", "NEW"


def first_difference(expected, lines, script, with_seats=False):
    """Returns None, or how the record differs."""
    try:
        compare(expected, lines, script, with_seats)
    except Differs as it:
        return it
    return None


def simulated(script, ops, switches, made, answered=()):
    """Returns the entries of a simulation. `answered` has what the manager's remove locks answered, at their steps' places."""
    it = Manager(script, frozenset(switches), answered)
    it.run(ops[:made])
    return it.entries


def explained(script, ops, record, with_seats=False):
    """Returns the smallest set of known differences that explains a record: EQUAL where none is needed, names joined by
    ` + `, or NEW."""
    for n in range(len(KINDS) + 1):
        for some in itertools.combinations(KINDS, n):
            entries = simulated(script, ops, some, record.made, record.replies)
            if not first_difference(entries, record.lines, script, with_seats):
                return " + ".join(some) or EQUAL
    return NEW


def kind_of(playable, record, with_seats=False):
    """Returns the kind, and the first difference from the model, or None. A record that is equal has every step's reply,
    and the whole of irpx's own transcript."""
    if record is None:
        return NEW, "nothing came back"
    difference = first_difference(playable.expected[:record.made], record.lines, playable.script, with_seats)
    kind = explained(playable.script, playable.ops, record, with_seats)
    if kind == EQUAL and not difference:
        difference = "it ended early: " + record.how if record.how != "done" else wrong_reply(playable, record)
        return (NEW, difference) if difference else (EQUAL, None)
    if kind == EQUAL:  # the simulation and irpx disagree
        return NEW, difference
    return kind, difference


def kind_of_made(made, record, with_seats=False):
    """As `kind_of`, of a script made by chance, which has no transcript of irpx: the simulation stands for it."""
    if record is None:
        return NEW, "nothing came back"
    first = first_difference(simulated(made.script, made.ops, (), record.made, record.replies), record.lines, made.script, with_seats)
    kind = explained(made.script, made.ops, record, with_seats)
    return (NEW, f"it ended early: {record.how}") if kind == EQUAL and record.how != "done" else (kind, first)


def wrong_reply(playable, record):
    """Returns what a step was answered otherwise by the player's own account, which looks at no transcript; or None."""
    for k, (made, got) in enumerate(zip(playable.expected, record.replies)):
        if (got == LEFT_OUT) != (made is None):
            return f"step {k}: its condition is met otherwise than in the model"
        if made and not is_refused(made["reply"]) and word_of(made["reply"]) != got:
            return f"step {k}: {made['reply']} wanted, the player was answered {got}"
    return None


def by_seat(entries):
    """Returns the entries about packets, by their seats."""
    found = {}
    for entry in significant(entries):
        if "irp" in entry["call"] or entry["call"]["do"] == "allocate":
            found.setdefault(entry["seat"], []).append(entry)
    return found


def seats_differ(entries, lines, script):
    """Returns None where some pairing of seats makes each seat's entries the same, else the first difference of the one
    that comes furthest. Each seat is compared alone: what use numbers it got is chance."""
    wanted, got = by_seat(entries), by_seat(lines[1:])
    if len(wanted) != len(got):
        return f"{len(wanted)} seats are wanted, {len(got)} are recorded"
    left = sorted(got)
    for entries_of_seat in wanted.values():
        found = [(first_difference(entries_of_seat, [lines[0], *got[other]], script), other) for other in left]
        good = [other for difference, other in found if difference is None]
        if not good:
            return max((it for it, _ in found), key=lambda it: it.place)
        left.remove(good[0])
    return None


def kind_at_once(made, record):
    """As `kind_of`, of a script made by chance whose seats ran at once, each with packets of its own."""
    first = seats_differ(simulated(made.script, made.ops, (), len(made.ops)), record.lines, made.script)
    if first is None:
        return (EQUAL, None) if record.how == "done" else (NEW, f"it ended early: {record.how}")
    for n in range(1, len(KINDS) + 1):
        for some in itertools.combinations(KINDS, n):
            entries = simulated(made.script, made.ops, some, len(made.ops))
            if seats_differ(entries, record.lines, made.script) is None:
                return " + ".join(some), first
    return NEW, first
