"""Every order of the atomic steps of a script's seats, one after another: how each ends, and how many end so.

Nothing is joined and nothing left out: each order is made from the beginning. What an atomic step is stands in
docs/ORDERS.md; what a step on a remove lock or on a cancel slot does is read from docs/RULES.md and
docs/CANCEL_SLOTS.md.
"""

import collections
import math

from conditions_of_steps import REFUSED_WORDS, heard_in, holds
from json_texts import compact
from running import UNBOUND, Runner

DELETE_PENDING = {'status': 3221225558}


class Stepper(Runner):
    """A runner whose seats make their steps in atomic steps: what stands between two `yield`s is one of them."""
    def __init__(self, script):
        super().__init__(script)
        for step in script.setup:
            self.step(step)
        # The locks whose removal a seat's own begin_remove found or set.
        self.removed = [set() for _ in range(script.seats)]
        # What each seat read a label as, until it makes the call that names it.
        self.read = [None] * script.seats
        # The seats whose steps bind each label, and those whose steps read it or bind it.
        self.binders, self.namers = collections.defaultdict(set), collections.defaultdict(set)
        for step in script.steps:
            bound = bound_by(step)
            if bound is not None:
                self.binders[bound].add(step['seat'])
            for label in (bound, step.get('irp')):
                if isinstance(label, str):
                    self.namers[label].add(step['seat'])
        self.seats = [self.seat(n) for n in range(script.seats)]

    def seat(self, number):
        for place, step in enumerate(self.script.steps):
            if step['seat'] == number and holds(step, self.heard):
                yield from self.act(step, place)

    def read_apart(self, step):
        """Returns whether reading the label of a step is a step of its own: another seat binds it."""
        irp = step.get('irp')
        return isinstance(irp, str) and bool(self.binders[irp] - {step['seat']})

    def act(self, step, place):
        """The atomic steps of a step."""
        do, seat = step['do'], step['seat']
        if do in ('acquire', 'begin_remove'):
            yield from getattr(self, do)(step, place)
        elif do == 'publish':
            yield from self.publish(step, place)
        elif do == 'request':
            yield from self.request(step, place)
        elif do == 'finish_taken' and (seat, step['slot']) not in self.tokens:
            self.word(step, place, 'no_token')
            yield
        else:
            yield from self.calls(step, place)

    def calls(self, step, place):
        """The atomic steps of a call: it reads its label, is made, and binds its label. Reading is one of its own where
        another seat binds the label, binding where another seat reads it or binds it."""
        bound, apart = bound_by(step), self.read_apart(step)
        binds_apart = bound is not None and bool(self.namers[bound] - {step['seat']})
        if apart:
            step = dict(step, irp=list(self.labels.get(step['irp'], UNBOUND)))
            self.read[step['seat']] = step['irp']
            yield
            self.read[step['seat']] = None
        before = self.labels.get(bound)
        self.step(step, place)
        reply = self.entries[-1]['reply'] if bound is not None else None
        if type(reply) is dict and 'irp' in reply:
            if binds_apart:
                self.labels.pop(bound, None)
                if before is not None:
                    self.labels[bound] = before
                yield
            self.labels[bound] = reply['irp']
        yield

    def acquire(self, step, place):
        locks, seat, lock = self.locks, step['seat'], step['lock']
        if lock >= len(locks.count) or len(locks.held[seat]) >= 64 or not locks.removed[lock]:
            self.step(step, place)
        elif lock in self.removed[seat]:
            self.word(step, place, DELETE_PENDING)
        else:
            locks.count[lock] += 1
            yield
            locks.count[lock] -= 1
            self.word(step, place, DELETE_PENDING)
        yield

    def begin_remove(self, step, place):
        locks, seat, lock = self.locks, step['seat'], step['lock']
        if lock < len(locks.count) and (lock, step['tag']) in locks.held[seat]:
            self.removed[seat].add(lock)
            if not locks.removed[lock]:
                locks.removed[lock] = True
                yield
                self.word(step, place, locks.release(seat, lock, step['tag']))
                yield
                return
        self.step(step, place)
        yield

    def publish(self, step, place):
        slots, slot = self.slots, step['slot']
        irp = step['irp']
        if isinstance(irp, str):
            label, irp = irp, self.labels.get(irp, UNBOUND)
            if self.binders[label] - {step['seat']}:
                self.read[step['seat']] = irp
                yield
                self.read[step['seat']] = None
        if slots.owner[slot] != 'idle':
            self.word(step, place, 'used')
            yield
            return
        slots.content[slot] = irp[1]
        slots.owner[slot] = 'published'
        yield
        if not slots.flag[slot]:
            slots.owner[slot] = 'standing'
            self.word(step, place, 'standing')
            yield
            return
        slots.owner[slot] = 'done'
        yield
        self.took(step, place, slots.swap_out(slot), 'lost')
        yield

    def request(self, step, place):
        slots, slot = self.slots, step['slot']
        if slot >= len(slots.flag):
            self.word(step, place, 'no_slot')
        else:
            slots.flag[slot] = True
            yield
            self.took(step, place, slots.swap_out(slot), 'nothing')
        yield

    def took(self, step, place, use, otherwise):
        """Notes what a seat took from a slot: a use, or nothing."""
        if use:
            self.tokens[step['seat'], step['slot']] = use
        self.word(step, place, {'taken': use} if use else otherwise)

    def makes(self, seat):
        """Makes the next atomic step of a seat. Returns whether it had one."""
        return next(self.seats[seat], self) is not self


def bound_by(step):
    """Returns the label that a step binds where it succeeds, or None."""
    label = step.get('as') or (step['do'] == 'reuse' and step['irp'])
    return label if isinstance(label, str) else None


def location_of(at):
    return [at.device, at.major, at.word, at.routine and list(at.routine), at.context, at.flags, at.pending]


def packet_of(p):
    """Returns all of a live packet that a look, a send or another call could come to: its locations from the prepared one
    or the current one up; none where it was completed."""
    lowest = p.current if p.prepared == 'nothing' else p.current - 1
    locations = [] if p.owner == 'ended' else [location_of(p.at[n]) for n in range(lowest, p.size + 1)]
    return [p.slot, p.use, p.owner, p.current, p.status, p.information, p.pending_returned, p.cancel, p.cancel_routine,
            p.prepared, p.slot_held, locations]


def manager_end(manager):
    """Returns what is left in a manager: its packets, and its devices with what each is attached to."""
    devices = [list(facts) + [manager.lower(number)] for number, facts in enumerate(manager.devices)]
    return compact([[packet_of(manager.live[slot]) for slot in sorted(manager.live)], devices])


def other_end(stepper):
    """Returns what else is left: labels, remove locks with who holds them, and cancel slots."""
    locks, slots = stepper.locks, stepper.slots
    holders = [[(seat, tag) for seat, held in enumerate(locks.held) for lock, tag in sorted(held) if lock == number]
               for number in range(len(locks.count))]
    labels = sorted((label, list(irp)) for label, irp in stepper.labels.items())
    return compact([labels, locks.count, locks.removed, holders, slots.flag, slots.content])


def replies_of(script, lines):
    """Returns what the steps behind `setup` were answered, each by its place, as these lines of a transcript tell it."""
    return compact(sorted(heard_in(script, lines).items()))


def outcome_of(stepper):
    """Returns the outcome of an order that was made: the replies, what is left in the manager, and what else is left."""
    return replies_of(stepper.script, stepper.lines()[1:]), manager_end(stepper.manager), other_end(stepper)


def is_refused(reply):
    """Returns whether a call, or a step on a remove lock or on a cancel slot, was refused by this reply."""
    return reply in REFUSED_WORDS if isinstance(reply, str) else isinstance(reply, dict) and 'refused' in reply


def is_right(stepper):
    """Returns whether an order ends right: no step was refused, no device has a packet, no remove lock is held, no cancel
    slot is full, and no packet has a cancel routine."""
    replies = [line['reply'] for line in stepper.lines()[1:]]
    packets = stepper.manager.live.values()
    return not (
        any(is_refused(reply) for reply in replies)
        or any(type(p.owner) is int or p.cancel_routine is not None for p in packets)
        or any(stepper.locks.count)
        or any(stepper.slots.content)
    )


def changes_of(seats):
    """Returns how often the seat changes from one step to the next."""
    return sum(one != other for one, other in zip(seats, seats[1:]))


def orders_of(script, most):
    """Returns how many orders have which outcome, the fewest changes of seat among these, and how many orders end right; or
    None where there are more orders than `most`. An outcome is the replies, what is left in the manager, and what else is
    left."""
    lengths = collections.Counter(step['seat'] for step in script.steps if 'if' not in step)
    least = math.factorial(sum(lengths.values())) // math.prod(map(math.factorial, lengths.values()))
    if least > most:
        return None
    found, fewest, right = collections.Counter(), {}, [0]

    def follow(path):
        """Follows all orders that begin so."""
        gone_on = False
        for seat in range(script.seats):
            stepper = Stepper(script)
            for before in path:
                stepper.makes(before)
            if not stepper.makes(seat):
                continue
            gone_on = True
            follow(path + [seat])
            if sum(found.values()) > most:
                return
        if not gone_on:
            ended = Stepper(script)
            for seat in path:
                ended.makes(seat)
            outcome = outcome_of(ended)
            found[outcome] += 1
            right[0] += is_right(ended)
            fewest[outcome] = min(fewest.get(outcome, len(path)), changes_of(path))

    follow([])
    return None if sum(found.values()) > most else (found, fewest, right[0])
