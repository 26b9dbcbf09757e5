"""Steps, made by chance. Mostly such as the state of the manager lets do something."""

from heads_by_chance import BAD_STATUSES, FLAGS, INFOS, LABELS, MAJORS, STATUSES, setting
from json_texts import U32, U64
from scripts import CALLS
from small_forms import RULES


class Chooser:
    """Chooses the next step of a script by the state in which a runner is."""
    def __init__(self, rng, runner, seats=None):
        self.rng = rng
        self.r = runner
        self.m = runner.manager
        self.s = runner.script
        self.seats = seats or list(range(self.s.seats))
        self.past = [[0, 1], [1, 2], [4294967295, 0], [0, 2]]
        self.focus = None             # a label that is taken mostly

    def seat(self):
        """Returns a seat."""
        return self.rng.choice(self.seats)

    def device(self):
        """Returns a device number, mostly of a device that there is."""
        rng, n = self.rng, len(self.m.devices)
        if n and rng.random() < 0.93:
            return rng.randrange(n)
        return rng.choice([n, n + 1, 9, 64, U32])

    def ref(self):
        """Returns a label mostly, else a pair."""
        rng = self.rng
        x = rng.random()
        bound = list(self.r.labels)
        if x < 0.72 and bound:
            return rng.choice(bound)
        if x < 0.8:
            return rng.choice(LABELS)
        if x < 0.92 and self.past:
            return list(rng.choice(self.past))
        return [rng.choice([0, 1, 2, 5, U32]), rng.choice([0, 1, 2, 3, 5, 8, U64])]

    def live(self):
        """Returns a reference to a live packet, and the packet."""
        rng = self.rng
        v = self.r.labels.get(self.focus)
        if v and v[0] in self.m.live and self.m.live[v[0]].use == v[1] and rng.random() < .9:
            return self.focus, self.m.live[v[0]]
        able = [(l, self.m.live[v[0]]) for l, v in self.r.labels.items()
                if v[0] in self.m.live and self.m.live[v[0]].use == v[1]]
        if not able:
            return None, None
        for wanted in (lambda p: type(p.owner) is int, lambda p: p.prepared != 'nothing'):
            some = [x for x in able if wanted(x[1])]
            if some and rng.random() < .55:
                able = some
                break
        name, p = rng.choice(able)
        self.past.append([p.slot, p.use])
        return (name if rng.random() < 0.9 else [p.slot, p.use]), p

    def party(self, p=None):
        """Returns a party, mostly the owner of this packet."""
        rng = self.rng
        if p is not None and p.owner != 'ended' and rng.random() < 0.92:
            return p.owner
        return 'o' if rng.random() < 0.4 else self.device()

    def status(self):
        """Returns a status, mostly a completable one."""
        return self.rng.choice(STATUSES if self.rng.random() < 0.9 else BAD_STATUSES)

    def setting(self):
        """Returns a setting, mostly of a routine that there is."""
        rng = self.rng
        if rng.random() < 0.9:
            s = setting(rng, self.m.tables.counts)
            if s:
                return s
        return [rng.choice(RULES), rng.choice([0, 1, 7, 255, U32]), rng.choice(INFOS), rng.choice(FLAGS)]

    def step(self):
        """Returns a step."""
        rng = self.rng
        x = rng.random()
        n = len(self.m.devices)
        if n < 2 or (x < (0.35 if n < 4 else 0.05) and n < 6):
            made = self.of_devices()
        elif x < 0.2 or not self.r.labels:
            made = self.allocate()
        elif x < 0.7:
            made = self.of_packet()
        elif x < 0.78:
            made = self.of_lock()
        elif x < 0.92 and self.s.form != 1:
            made = self.of_slot()
        elif x < 0.96:
            made = self.of_devices()
        else:
            made = self.anything()
        made.setdefault('seat', self.seat())
        return made

    def call(self):
        """Returns a step that is a call."""
        while True:
            made = self.step()
            if made['do'] in CALLS:
                return made

    def of_devices(self):
        """Returns a step that changes the devices."""
        rng, m = self.rng, self.m
        n = len(m.devices)
        kind = rng.choice(['create_device', 'create_device', 'attach', 'attach', 'attach', 'attach', 'detach',
                           'delete'])
        if n == 0 or (n == 1 and rng.random() < 0.7):
            kind = 'create_device'
        if kind == 'create_device':
            return {'do': kind, 'driver': rng.randrange(len(m.tables.drivers)) if m.tables.drivers
                    and rng.random() < .93
                    else rng.choice([len(m.tables.drivers), U32]),
                    'lock': rng.randrange(m.locks) if rng.random() < .93 else rng.choice([m.locks, U32])}
        if kind == 'attach':
            alone = [d for d in range(n) if len(m.stack[d]) == 1 and m.devices[d][2]]
            d = rng.choice(alone) if alone and rng.random() < .8 else self.device()
            return {'do': kind, 'device': d, 'to': self.device()}
        if kind == 'detach':
            return {'do': kind, 'lower': self.device()}
        alone = [d for d in range(n) if len(m.stack[d]) == 1]
        d = rng.choice(alone) if alone and rng.random() < .7 else self.device()
        made = {'do': kind, 'device': d}
        if d < n and rng.random() < 0.7:
            knowing = [s for s in self.seats if m.devices[d][1] in self.r.locks.known[s]]
            if knowing:
                made['seat'] = rng.choice(knowing)
        return made

    def allocate(self):
        """Returns a step that allocates."""
        rng, limit = self.rng, self.m.limit
        depth = max([len(s) for s in self.m.stack] or [1])
        size = depth if rng.random() < 0.7 else rng.choice([1, 2, 3, 4, 5, depth + 1])
        if rng.random() < 0.05:
            size = rng.choice([0, limit, limit + 1, 16, 17, 32, 33, 255])
        return {'do': 'allocate', 'size': min(size, 255), 'as': rng.choice(LABELS[:6])}

    def of_packet(self):
        """Returns a step with a live packet, mostly one that its owner may make."""
        rng, m = self.rng, self.m
        irp, p = self.live()
        if p is None:
            return self.allocate()
        x = rng.random()
        if x < 0.05:
            return {'do': 'cancel', 'irp': irp}
        if x < 0.12:
            return {'do': 'look', 'irp': irp}
        by = self.party(p)
        base = {'by': by, 'irp': irp}
        if p.owner == 'ended':
            return rng.choice([{'do': 'reuse', 'irp': irp, 'status': rng.choice(STATUSES + BAD_STATUSES)},
                               {'do': 'reuse', 'irp': irp, 'status': 0}, {'do': 'free', 'irp': irp},
                               {'do': 'look', 'irp': irp}, self.complete(base)])
        if p.slot_held and rng.random() < 0.75:
            return self.of_slot()
        if p.prepared == 'nothing':
            if p.owner == 'o':
                return rng.choice([self.set_next(base)] * 8 + [self.send(base, p)] +
                                  [dict(base, do='copy_to_next'), dict(base, do='skip'), self.complete(base),
                                   dict(base, do='set_routine', set=self.setting())])
            return rng.choice([self.complete(base)] * 4 + [dict(base, do='copy_to_next')] * 3 +
                              [dict(base, do='skip')] * 2 + [self.set_next(base), dict(base, do='mark_pending')] +
                              [dict(base, do='set_cancel_routine', cancel=self.cancel(p))] * 3 + [self.send(base, p)])
        if p.prepared == 'skipped':
            return rng.choice([self.send(base, p)] * 6 + [self.complete(base), dict(base, do='skip'),
                                                         dict(base, do='set_routine', set=self.setting()),
                                                         dict(base, do='copy_to_next'), self.set_next(base),
                                                         dict(base, do='mark_pending'),
                                                         dict(base, do='set_cancel_routine', cancel=self.cancel(p))])
        return rng.choice([self.send(base, p)] * 10 + [dict(base, do='set_routine', set=self.setting())] * 5 +
                          [dict(base, do='skip'), dict(base, do='copy_to_next'), self.complete(base),
                           self.set_next(base), dict(base, do='set_cancel_routine', cancel=self.cancel(p)),
                           dict(base, do='mark_pending')])

    def cancel(self, p=None):
        """Returns a cancel routine, or None."""
        rng, n = self.rng, len(self.m.tables.cancels)
        if rng.random() < 0.45:
            return None
        return rng.randrange(n) if n and rng.random() < .9 else rng.choice([n, 7, U32])

    def set_next(self, base):
        """Returns a step that fills the next location."""
        rng = self.rng
        x = rng.random()
        major = 3 if x < .75 else rng.choice(MAJORS) if x < .95 else rng.choice([28, 255, 5])
        return dict(base, do='set_next', major=major, word=rng.choice(INFOS))

    def complete(self, base):
        """Returns a step that completes."""
        return dict(base, do='complete', status=self.status(), information=self.rng.choice(INFOS))

    def send(self, base, p):
        """Returns a step that sends a packet, mostly to the device below."""
        rng, m = self.rng, self.m
        by = base['by']
        if rng.random() < .85:
            if type(by) is int and by < len(m.devices) and m.lower(by) is not None:
                return dict(base, do='call_driver', target=m.lower(by))
            tops = [s[-1] for s in m.stack]
            if tops:
                return dict(base, do='call_driver', target=rng.choice(tops))
        return dict(base, do='call_driver', target=self.device())

    def of_lock(self):
        """Returns a step on a remove lock."""
        rng, locks = self.rng, self.r.locks
        kind = rng.choice(['acquire', 'acquire', 'release', 'begin_remove', 'drained', 'drained'] +
                          (['hand', 'hand'] if self.s.form != 1 and len(self.seats) > 1 else []))
        seat = self.seat()
        lock = rng.randrange(self.m.locks) if rng.random() < .95 else rng.choice([self.m.locks, 64, U32])
        made = {'do': kind, 'seat': seat, 'lock': lock}
        if kind != 'drained':
            made['tag'] = rng.choice([0, 1, 1, 2, U32])
        if kind in ('release', 'begin_remove', 'hand') and rng.random() < .8:
            holders = [s for s in self.seats if locks.held[s]]
            if holders:
                made['seat'] = rng.choice(holders)
                made['lock'], made['tag'] = rng.choice(locks.held[made['seat']])
        if kind == 'hand':
            made['to'] = rng.choice([s for s in self.seats if s != made['seat']])
        return made

    def of_slot(self):
        """Returns a step on a cancel slot, or one that finishes what came out of one."""
        rng, slots, n = self.rng, self.r.slots, self.s.slots
        kind = rng.choice(['publish', 'publish', 'publish', 'withdraw', 'request', 'request', 'finish_taken',
                           'finish_taken', 'finish_taken'])
        mine = [k for k in range(n) if k % self.s.seats in self.seats]
        if not mine and kind in ('publish', 'withdraw'):
            kind = 'request'
        if kind in ('publish', 'withdraw'):
            idle = [k for k in mine if slots.owner[k] == ('idle' if kind == 'publish' else 'standing')]
            k = rng.choice(idle) if idle and rng.random() < .8 else rng.choice(mine)
            made = {'do': kind, 'seat': k % self.s.seats, 'slot': k}
            if kind == 'publish':
                made['irp'] = self.held()
            return made
        if kind == 'request':
            # a request before a publish spoils a slot for standing, so mostly ask where something stands
            full = [k for k in range(n) if slots.content[k]]
            if full and rng.random() < .6:
                k = rng.choice(full)
            else:
                k = rng.randrange(n) if n and rng.random() < .9 else rng.choice([n, 64, U32])
            return {'do': kind, 'seat': self.seat(), 'slot': k}
        tokens = [t for t in self.r.tokens if t[0] in self.seats]
        made = {'do': kind, 'seat': self.seat(), 'slot': rng.choice([0, 0, 1, n, U32]), 'irp': self.held(),
                'status': self.status(), 'information': rng.choice(INFOS)}
        if tokens and rng.random() < .9:
            made['seat'], made['slot'] = rng.choice(tokens)
            if rng.random() < .6:
                use = self.r.tokens[made['seat'], made['slot']]
                for name, v in list(self.r.labels.items()):
                    if v[1] == use:
                        made['irp'] = name if rng.random() < .8 else list(v)
        return made

    def held(self):
        """Returns a reference, mostly to a packet that is in a slot."""
        rng = self.rng
        able = [l for l, v in self.r.labels.items() if v[0] in self.m.live and self.m.live[v[0]].slot_held
                and self.m.live[v[0]].use == v[1]]
        return rng.choice(able) if able and rng.random() < .8 else self.ref()

    def anything(self):
        """Returns any call, with any values."""
        rng = self.rng
        do = rng.choice(list(CALLS))
        base = {'do': do}
        values = {'irp': self.ref, 'by': self.party, 'device': self.device, 'to': self.device, 'lower': self.device,
                  'target': self.device, 'size': lambda: rng.choice([0, 1, 3, 16, 17, 32, 33]), 'status': self.status,
                  'major': lambda: rng.choice([0, 3, 27, 28, 255]), 'word': lambda: rng.choice(INFOS),
                  'set': self.setting, 'information': lambda: rng.choice(INFOS), 'cancel': self.cancel,
                  'driver': lambda: rng.choice([0, 1, 64, U32]), 'lock': lambda: rng.choice([0, 1, 64, U32])}
        for key in CALLS[do]:
            base[key] = values[key]()
        if do == 'allocate':
            base['as'] = rng.choice(LABELS)
        return base
