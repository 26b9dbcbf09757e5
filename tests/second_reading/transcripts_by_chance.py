"""Transcripts, made by chance: of scripts, and of closures that answer anything that the rules allow."""

from heads_by_chance import BAD_STATUSES, FLAGS, INFOS, MAJORS, STATUSES
from json_texts import U32, U64
from layouts import encode, plain
from manager import Slab, Tables
from running import Runner, UNBOUND
from scripts import read_script
from scripts_by_chance import deep_script, flow_script, lock_script, removal_script, script, slot_script
from small_forms import CANCEL_RULES, RULES, is_success
from steps_by_chance import Chooser
from transcripts import allows, cancel_allows, plan_allows


class WildAsk:
    """Gives random answers: allowed ones, and now and then one that isn't."""
    def __init__(self, rng, tables, form, fault=0.0):
        self.rng, self.t, self.form, self.fault = rng, tables, form, fault

    def until(self, make, is_allowed):
        wrong = self.rng.random() < self.fault
        for _ in range(60):
            a = make()
            if is_allowed(a) != wrong:
                return a
        return None

    def plan(self, dispatch, shown):
        rng, known = self.rng, self.t.known[dispatch]

        def routine():
            if rng.random() < .3:
                return None
            r = rng.choice(RULES)
            return [r, rng.randint(0, known[r]), rng.choice(INFOS), rng.choice(FLAGS)]

        def make():
            kind = rng.choice(['finish', 'hold', 'skip', 'forward', 'forward_pend', 'forward', 'forward_pend'] +
                              (['hold_slot', 'hold_slot'] if self.form == 2 else []))
            if kind == 'finish':
                return [kind, rng.choice(STATUSES + BAD_STATUSES[:1]), rng.choice(INFOS)]
            if kind == 'hold':
                return [kind, rng.choice([None, rng.randint(0, known['cancel'])])]
            return [kind] if kind in ('skip', 'hold_slot') else [kind, routine()]
        def fits(p):        # what a manager can carry out at all
            return shown[11] or p[0] in ('finish', 'hold', 'hold_slot')
        return self.until(lambda: next(p for p in iter(make, None) if fits(p)),
                          lambda p: plan_allows(known, shown, p)) or ['finish', 0, 0]

    def answer(self, routine, shown):
        rng = self.rng

        def make():
            keep = rng.random() < .4
            mark = (not keep and shown[8] and shown[0] is not None) if rng.random() < .9 else rng.random() < .5
            return ['keep' if keep else 'continue', mark and shown[0] is not None,
                    [rng.choice(STATUSES + BAD_STATUSES[:1]), rng.choice(INFOS)] if rng.random() < .3 else None]
        default = ['keep' if routine[0] == 'keeper' or (routine[0] == 'keep_on_error' and not is_success(shown[6]))
                   else 'continue', False, None]
        default[1] = default[0] == 'continue' and shown[8] and shown[0] is not None
        return self.until(make, lambda a: allows(routine[0], shown, a)) or default

    def cancel_answer(self, routine, shown):
        rng, rule = self.rng, self.t.cancels[routine] if routine < len(self.t.cancels) else 'either'
        made = self.until(lambda: rng.choice([['leave'], ['finish', rng.choice(INFOS)]]),
                          lambda a: cancel_allows(rule, a))
        return made or (['leave'] if rule == 'must_leave' else ['finish', 0])


class AnySlot:
    """Gives a new packet any slot that is not live, or the one that a slab gives."""
    def __init__(self, rng, wild):
        self.rng, self.wild = rng, wild
        self.slab = Slab()

    def take(self, live):
        if not self.wild:
            return self.slab.take(live)
        while True:
            k = self.rng.choice([0, 1, 2, 3, 7, U32, U32 - 1, self.rng.randrange(2 ** 32)])
            if k not in live:
                return k

    def give(self, slot):
        if not self.wild:
            self.slab.give(slot)


class Fixed:
    """What a runner reads of a script, without a script."""


def wild_transcript(rng, form):
    """Lines of a transcript whose closures answer anything allowed (or, seldom, not)."""
    counts = {r: rng.choice([0, 1, 2, 2, 5]) for r in RULES}
    cancels = [rng.choice(CANCEL_RULES) for _ in range(rng.choice([0, 1, 3]))]
    known = [{**{r: rng.randint(0, counts[r]) for r in RULES}, 'cancel': rng.randint(0, len(cancels))}
             for _ in range(rng.choice([1, 2, 4]))]
    drivers = [sorted([m, rng.randrange(len(known))] for m in set(rng.choice(MAJORS)
        for _ in range(rng.choice([2, 5]))))
               for _ in range(rng.choice([1, 2, 3]))]
    tables = Tables(counts, cancels, known, drivers)
    s = Fixed()
    s.form, s.seats, s.locks = form, rng.choice([1, 2, 4, 64]), rng.choice([1, 2, 64])
    s.slots = rng.choice([0, 1, 3, 64]) if form == 2 else 0
    runner = Runner(s, WildAsk(rng, tables, form, rng.choice([0, 0, .1])), AnySlot(rng, rng.random() < .5), tables)
    choose = Chooser(rng, runner)
    for k in range(rng.choice([5, 15, 30, 50])):
        step = choose.step()
        if step['do'] == 'finish_taken' or (form == 2 and rng.random() < .08):
            irp = choose.held()
            irp = runner.labels.get(irp, UNBOUND) if type(irp) is str else irp
            token = irp[1] if rng.random() < .85 else rng.choice([0, 1, U64, irp[1] ^ 1])
            call = {'do': 'finish_taken', 'irp': list(irp), 'status': choose.status(), 'information': rng.choice(INFOS),
                    'token': token}
            runner.call(choose.seat(), call, lambda lock: False)
            if rng.random() < .7:
                continue
        if step['do'] == 'delete' and rng.random() < .5:
            runner.call(step['seat'], {'do': 'delete', 'device': step['device']}, lambda lock: rng.random() < .7)
        elif step['do'] != 'finish_taken':
            runner.step(step, k)
    return runner.lines()


def script_transcript(rng, form):
    """Returns the lines of the transcript of a script."""
    kind = rng.random()
    if kind < .4 and form == 2:
        s = slot_script(rng)
    elif kind < .7:
        s = flow_script(rng, form)
    elif kind < .73:
        s = deep_script(rng, form)
    elif kind < .76:
        s = lock_script(rng, form)
    elif kind < .82:
        s = removal_script(rng, form)
    else:
        s = script(rng, form, rng.choice([10, 25, 40]))
    runner = Runner(read_script(encode(plain(s))))
    for step in runner.script.setup:
        runner.step(step)
    for place, step in enumerate(runner.script.steps):
        runner.step(step, place)
    return runner.lines()
