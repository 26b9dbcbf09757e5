"""The manager: devices, packets and the eighteen calls (docs/RULES.md). One call after the other."""

from small_forms import completable, is_success


class Location:
    """One stack location of a packet."""
    def __init__(self, major=0, word=0):
        self.device = None
        self.major = major
        self.word = word
        self.routine = None            # (rule, number)
        self.context = 0
        self.flags = ''
        self.pending = False

    def set(self, s):
        self.routine = (s[0], s[1])
        self.context = s[2]
        self.flags = s[3]


class Packet:
    """A packet: its locations from 1 up, its status, its owner and its use."""
    def __init__(self, slot, size, use, status=0):
        self.slot = slot
        self.size = size
        self.current = size + 1
        self.at = {i: Location() for i in range(1, size + 1)}
        self.status = status
        self.information = 0
        self.pending_returned = False
        self.cancel = False
        self.cancel_routine = None
        self.owner = 'o'
        self.prepared = 'nothing'
        self.use = use
        self.slot_held = False


class Tables:
    """What is fixed: counts of routines by rule, cancel rules, what each dispatch knows, drivers' tables."""
    def __init__(self, counts, cancels, known, drivers):
        self.counts = counts          # dict rule -> count
        self.cancels = cancels        # list of cancel rules
        self.known = known            # list of dicts rule -> count, and 'cancel'
        self.drivers = [dict(map(tuple, t)) for t in drivers]

    def has(self, routine):
        return routine[1] < self.counts[routine[0]]


class Refusal(Exception):
    """A call is refused; the argument is the refusal."""


def check_that(holds, name):
    """Refuses the call with this name where this does not hold."""
    if not holds:
        raise Refusal(name)


class Manager:
    """All devices and live packets. Each `do_` method is the call of that name: its checks in their order, then what it
    does. It returns the reply. `ask` answers for the closures; `slots` tells which slot a new packet takes."""
    def __init__(self, tables, locks, limit, ask, slots):
        self.tables = tables
        self.locks = locks
        self.limit = limit
        self.ask = ask
        self.slots = slots            # has take(live) and give(slot)
        self.live = {}
        self.devices = []             # [driver, lock, live]
        self.stack = []               # for each device its stack, a list that the members share
        self.next_use = 1

    # -- helpers
    def lower(self, d):
        """Returns the device below this one, or None."""
        place = self.stack[d].index(d)
        return self.stack[d][place - 1] if place else None

    def device(self, d):
        """Checks that there is such a device, and that it is not deleted."""
        check_that(d < len(self.devices), 'NoDevice')
        check_that(self.devices[d][2], 'DeviceGone')

    def packet(self, ref):
        """Returns the packet that a reference names."""
        p = self.live.get(ref[0])
        check_that(p is not None, 'NoIrp')
        check_that(p.use == ref[1], 'Stale')
        return p

    def owned(self, call):
        """Returns the packet of a call, checked to be its party's and in no cancel slot."""
        p = self.packet(call['irp'])
        check_that(p.owner != 'ended', 'Ended')
        check_that(p.owner == call['by'], 'NotOwner')
        check_that(not p.slot_held, 'SlotHeld')
        return p

    def placed(self, call):
        """Returns the packet of a call, checked as `owned` does, and to stand at a location of its party."""
        p = self.owned(call)
        check_that(not (p.current == p.size + 1 and p.prepared != 'skipped'), 'NoLocation')
        return p

    def not_skipped(self, p):
        """Checks that the packet's party has not skipped its location."""
        check_that(p.prepared != 'skipped', 'AfterSkip')

    # -- one call
    def apply(self, call, knows):
        """Answers (lock, drained, asked, reply); knows(lock) is the note."""
        lock, drained = None, False
        if call['do'] == 'delete' and call['device'] < len(self.devices):
            lock = self.devices[call['device']][1]
            drained = knows(lock)
        self.asked = []
        try:
            reply = getattr(self, 'do_' + call['do'])(call, drained)
        except Refusal as r:
            reply = {'refused': r.args[0]}
        return lock, drained, self.asked, reply

    # -- devices
    def do_create_device(self, c, drained):
        check_that(c['driver'] < len(self.tables.drivers), 'NoDriver')
        check_that(c['lock'] < self.locks, 'NoLock')
        check_that(len(self.devices) < 64, 'Full')
        self.devices.append([c['driver'], c['lock'], True])
        self.stack.append([len(self.devices) - 1])
        return {'device': len(self.devices) - 1}

    def do_attach(self, c, drained):
        d, to = c['device'], c['to']
        self.device(d)
        self.device(to)
        check_that(self.stack[d] is not self.stack[to], 'SameStack')
        check_that(len(self.stack[d]) == 1, 'StillAttached')
        check_that(len(self.stack[to]) < self.limit, 'TooDeep')
        top = self.stack[to][-1]
        self.stack[to].append(d)
        self.stack[d] = self.stack[to]
        return {'device': top}

    def do_detach(self, c, drained):
        d = c['lower']
        self.device(d)
        whole = self.stack[d]
        place = whole.index(d)
        check_that(place + 1 < len(whole), 'NothingAttached')
        below, above = whole[:place + 1], whole[place + 1:]
        for part in (below, above):
            for member in part:
                self.stack[member] = part
        return {'device': above[0]}

    def do_delete(self, c, drained):
        d = c['device']
        self.device(d)
        check_that(len(self.stack[d]) == 1, 'StillAttached')
        for p in self.live.values():
            check_that(p.owner != d or type(p.owner) is not int, 'InFlight')
            check_that(all(p.at[i].device != d for i in range(p.current, p.size + 1)), 'InFlight')
        check_that(drained, 'NotDrained')
        self.devices[d][2] = False
        return 'done'

    # -- packets as wholes
    def do_allocate(self, c, drained):
        check_that(1 <= c['size'] <= self.limit, 'BadSize')
        check_that(len(self.live) < 4096 and self.next_use < 2 ** 63, 'Full')
        slot = self.slots.take(self.live)
        self.live[slot] = Packet(slot, c['size'], self.next_use)
        self.next_use += 1
        return {'irp': [slot, self.next_use - 1]}

    def do_free(self, c, drained):
        p = self.packet(c['irp'])
        check_that(type(p.owner) is not int, 'InFlight')
        del self.live[p.slot]
        self.slots.give(p.slot)
        return 'done'

    def do_reuse(self, c, drained):
        p = self.packet(c['irp'])
        check_that(type(p.owner) is not int, 'InFlight')
        check_that(self.next_use < 2 ** 63, 'Full')
        self.live[p.slot] = Packet(p.slot, p.size, self.next_use, c['status'])
        self.next_use += 1
        return {'irp': [p.slot, self.next_use - 1]}

    # -- preparing
    def do_set_next(self, c, drained):
        p = self.owned(c)
        self.not_skipped(p)
        check_that(p.current > 1, 'TooShort')
        check_that(c['major'] <= 27, 'BadMajor')
        p.at[p.current - 1] = Location(c['major'], c['word'])
        p.prepared = 'filled'
        return 'done'

    def do_copy_to_next(self, c, drained):
        p = self.placed(c)
        self.not_skipped(p)
        check_that(p.current > 1, 'TooShort')
        own = p.at[p.current]
        p.at[p.current - 1] = Location(own.major, own.word)
        p.prepared = 'filled'
        return 'done'

    def do_skip(self, c, drained):
        p = self.placed(c)
        self.not_skipped(p)
        check_that(p.cancel_routine is None, 'CancelRoutineSet')
        if p.prepared == 'filled':
            p.at[p.current - 1] = Location()
        p.current += 1
        p.prepared = 'skipped'
        return 'done'

    def do_set_routine(self, c, drained):
        p = self.owned(c)
        self.not_skipped(p)
        check_that(p.prepared == 'filled', 'NotPrepared')
        check_that(self.tables.has(c['set']), 'NoRoutine')
        p.at[p.current - 1].set(c['set'])
        return 'done'

    def do_mark_pending(self, c, drained):
        p = self.placed(c)
        self.not_skipped(p)
        p.at[p.current].pending = True
        return 'done'

    def do_set_cancel_routine(self, c, drained):
        p = self.placed(c)
        self.not_skipped(p)
        check_that(c['cancel'] is None or c['cancel'] < len(self.tables.cancels), 'NoRoutine')
        check_that(c['cancel'] is None or not p.cancel, 'AlreadyCancelled')
        before = p.cancel_routine
        p.cancel_routine = c['cancel']
        return {'previous': before}

    # -- sending and finishing
    def do_call_driver(self, c, drained):
        p = self.owned(c)
        target = c['target']
        self.device(target)
        check_that(c['by'] == 'o' or self.lower(c['by']) == target, 'WrongTarget')
        check_that(p.prepared != 'nothing', 'NotPrepared')
        check_that(p.current - 1 >= self.stack[target].index(target) + 1, 'TooShort')
        check_that(p.cancel_routine is None, 'CancelRoutineSet')
        return {'status': self.descend(p, target)}

    def do_complete(self, c, drained):
        p = self.placed(c)
        self.not_skipped(p)
        check_that(completable(c['status']), 'BadStatus')
        check_that(p.cancel_routine is None, 'CancelRoutineSet')
        p.status, p.information = c['status'], c['information']
        self.unwind(p)
        return 'done'

    def do_finish_taken(self, c, drained):
        p = self.packet(c['irp'])
        check_that(p.use == c['token'], 'Stale')
        check_that(p.owner != 'ended', 'Ended')
        check_that(p.slot_held, 'NotSlotHeld')
        check_that(completable(c['status']), 'BadStatus')
        p.slot_held = False
        p.status, p.information = c['status'], c['information']
        self.unwind(p)
        return 'done'

    def do_cancel(self, c, drained):
        p = self.packet(c['irp'])
        check_that(p.owner != 'ended', 'Ended')
        p.cancel = True
        routine, p.cancel_routine = p.cancel_routine, None
        if routine is None:
            return {'cancelled': False}
        own = p.at[p.current]
        shown = [p.owner, p.slot, p.use, own.major, p.current, own.word, p.status, p.information, False, True, 0, False]
        said = self.ask.cancel_answer(routine, shown)
        self.asked.append({'answer': said, 'cancel': routine, 'shown': shown})
        if said[0] == 'finish':
            p.status, p.information = 3221225760, said[1]
            self.unwind(p)
        return {'cancelled': True}

    def do_look(self, c, drained):
        p = self.packet(c['irp'])
        marked = p.current <= p.size and p.at[p.current].pending
        return {'seen': [p.owner, p.current, p.status, p.information, p.cancel, p.cancel_routine, p.pending_returned,
                         marked]}

    # -- going down and up: Sending a packet down, and Unwinding
    def descend(self, p, device):
        """Sends a packet down from this device on. Returns the status that the sender gets."""
        pended = False
        p.current -= 1
        p.prepared = 'nothing'
        while True:
            own = p.at[p.current]
            own.device = device
            dispatch = self.tables.drivers[self.devices[device][0]].get(own.major)
            below = self.lower(device)
            if dispatch is None:
                said = ['finish', 3221225488, 0]
            else:
                shown = [device, p.slot, p.use, own.major, p.current, own.word, p.status, p.information, False,
                         p.cancel, 0, below is not None]
                said = self.ask.plan(dispatch, shown)
                self.asked.append({'dispatch': dispatch, 'plan': said, 'shown': shown})
            if said[0] == 'finish':
                p.status, p.information = said[1], said[2]
                self.unwind(p)
                return 259 if pended else said[1]
            if said[0] in ('hold', 'hold_slot'):
                own.pending = True
                p.owner = device
                p.cancel_routine = said[1] if said[0] == 'hold' else None
                p.slot_held = said[0] == 'hold_slot'
                return 259
            if said[0] != 'skip':
                if said[0] == 'forward_pend':
                    own.pending = True
                    pended = True
                p.current -= 1
                p.at[p.current] = Location(own.major, own.word)
                if said[1] is not None:
                    p.at[p.current].set(said[1])
            device = below

    def unwind(self, p):
        """Takes a packet up from its current location, until it is kept or ends."""
        for i in range(1, p.current):
            p.at[i] = Location()
        p.prepared = 'nothing'
        for j in range(p.current, p.size + 1):
            own = p.at[j]
            above = p.at.get(j + 1)
            p.pending_returned = own.pending
            met = own.routine is not None and (('s' if is_success(p.status) else 'e') in own.flags
                                               or (p.cancel and 'c' in own.flags))
            if met:
                shown = [above.device if above else None, p.slot, p.use, own.major, j, own.word, p.status,
                         p.information, p.pending_returned, p.cancel, own.context, False]
                said = self.ask.answer(own.routine, shown)
                self.asked.append({'answer': said, 'completion': list(own.routine), 'shown': shown})
                if said[2] is not None:
                    p.status, p.information = said[2]
                if said[0] == 'keep':
                    p.at[j] = Location()
                    p.current = j + 1
                    p.owner = above.device if above else 'o'
                    return
                if said[1]:
                    above.pending = True
            elif own.pending and above:
                above.pending = True
            p.at[j] = Location()
        p.current = p.size + 1
        p.owner = 'ended'


class Slab:
    """Keys as a slab gives them: the one that was given back last, else the first that was never given out."""
    def __init__(self):
        self.free = []
        self.next = 0

    def take(self, live):
        """Returns the slot of a new packet."""
        if self.free:
            return self.free.pop()
        self.next += 1
        return self.next - 1

    def give(self, slot):
        """Takes back the slot of a packet that was freed."""
        self.free.append(slot)
