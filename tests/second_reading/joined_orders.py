"""Counts the orders of a script's atomic steps, and joins those that lead to equal states: for scripts with too many orders
to make each one from the beginning (orders_of_steps.py)."""

import collections

from conditions_of_steps import REFUSED_WORDS
from json_texts import compact
from orders_of_steps import Stepper, location_of, outcome_of


def whole_packet(p):
    """Returns everything of a live packet."""
    return [p.slot, p.use, p.size, p.owner, p.current, p.status, p.information, p.pending_returned, p.cancel,
            p.cancel_routine, p.prepared, p.slot_held, [location_of(p.at[n]) for n in sorted(p.at)]]


def state_of(stepper, made):
    """Returns all that a stepper's later steps may depend on, and all that its outcome tells of the earlier ones; `made`
    has the number of atomic steps that each seat made."""
    m, locks, slots = stepper.manager, stepper.locks, stepper.slots
    packets = [whole_packet(m.live[slot]) for slot in sorted(m.live)]
    devices = [m.devices, [m.lower(d) for d in range(len(m.devices))], m.next_use, m.slots.free, m.slots.next]
    held = [locks.removed, locks.count, [sorted(held) for held in locks.held], [sorted(k) for k in locks.known],
            [sorted(seen) for seen in stepper.removed]]
    seats = [made, stepper.read, sorted(stepper.tokens.items()), sorted(stepper.labels.items())]
    heard = sorted((place, reply) for place, reply in stepper.heard.items() if place is not None)
    return compact([packets, devices, held, [slots.flag, slots.content, slots.owner], seats, heard])


def after(script, path, *more):
    """Returns a stepper that has made the atomic steps of these seats, or None where the last of them has none to make."""
    stepper, able = Stepper(script), True
    for seat in (*path, *more):
        able = stepper.makes(seat)
    return stepper if able else None


def longer(paths, seat):
    """Returns these paths with one atomic step more: for each path its changes of seat, under the last seat."""
    changes, path = min((changes + (last not in (seat, None)), path) for last, (changes, path) in paths.items())
    return changes, (*path, seat)


def counted(script):
    """Returns how many orders have which outcome, and for each outcome the seats of an order that ends so and changes its seat
    least often. An outcome is as in `orders_of`."""
    found, fewest = collections.Counter(), {}
    # Of each state how many orders lead to it, and for each seat an order whose last step is this seat's.
    layer = {b'': (1, {None: (0, ())})}
    while layer:
        following = {}
        for count, paths in layer.values():
            path, ends = min(paths.values())[1], True
            for seat in range(script.seats):
                stepper = after(script, path, seat)
                if stepper is None:
                    continue
                ends = False
                state = state_of(stepper, [(*path, seat).count(k) for k in range(script.seats)])
                orders, its = following.setdefault(state, (0, {}))
                its[seat] = min(its.get(seat, longer(paths, seat)), longer(paths, seat))
                following[state] = orders + count, its
            if ends:
                outcome, best = outcome_of(after(script, path)), min(paths.values())
                found[outcome] += count
                fewest[outcome] = min(fewest.get(outcome, best), best)
        layer = following
    return found, {outcome: path for outcome, (_, path) in fewest.items()}


def is_refused(reply):
    """Returns whether this answer is a refusal: not those that a right driver gets, as STATUS_DELETE_PENDING, busy, lost,
    nothing, FALSE or no cancel routine."""
    return reply in REFUSED_WORDS if type(reply) is str else 'refused' in reply


def wrongs(stepper):
    """Returns what is not right at an order's end, each as a row: a step (None in `setup`) and its refusal, a device and the
    packet that it has, a remove lock that is held or waited for, a cancel slot with its content."""
    setup = [(None, e['reply']) for e in stepper.entries[:len(stepper.script.setup)]]
    steps = sorted((place, reply) for place, reply in stepper.heard.items() if place is not None)
    wrong = [('refused', place, reply) for place, reply in setup + steps if is_refused(reply)]
    wrong += [('has', p.owner, p.slot) for _, p in sorted(stepper.manager.live.items()) if type(p.owner) is int]
    wrong += [('held', lock, count) for lock, count in enumerate(stepper.locks.count) if count]
    return wrong + [('full', slot, use) for slot, use in enumerate(stepper.slots.content) if use]
