"""Runs a script step by step, as one worker does, and writes its transcript (docs/FORMATS.md, How a script is run)."""

from conditions_of_steps import holds
from json_texts import compact
from locks_and_slots import CancelSlots, Locks
from manager import Manager, Slab, Tables
from scripts import LOCK_STEPS, Refused, read_script
from small_forms import RULES, is_success


class ScriptAsk:
    """What the closures of a script answer (docs/FORMATS.md, How the closures of a script behave)."""
    def __init__(self, script):
        self.script = script

    def plan(self, dispatch, shown):
        p = self.script.dispatches[dispatch]
        if p[0] in ('skip', 'forward', 'forward_pend') and not shown[11]:
            return ['finish', 3221225488, 0]
        if p[0] == 'hold' and p[1] is not None and shown[9]:
            return ['finish', 3221225760, 0]
        return p

    def answer(self, routine, shown):
        on_ok, on_err = self.script.completions[routine[0]][routine[1]]
        b = on_ok if is_success(shown[6]) else on_err
        if b == 'keep':
            return ['keep', False, None]
        mark = shown[8] and shown[0] is not None
        return ['continue', mark, None if b == 'continue' else [b[1], b[2]]]

    def cancel_answer(self, routine, shown):
        return self.script.cancels[routine]


UNBOUND = [4294967295, 0]


class Runner:
    """Runs the steps of a script on one manager, and keeps the entries and the word lines."""
    def __init__(self, script, ask=None, slab=None, tables=None):
        self.script = script
        if tables is None:
            counts = {r: len(script.completions[r]) for r in RULES}
            known = dict(counts, cancel=len(script.cancels))
            rules = ['must_finish' if c[0] == 'finish' else 'must_leave' for c in script.cancels]
            tables = Tables(counts, rules, [known] * len(script.dispatches), script.drivers)
        limit = 16 if script.form == 1 else 32
        self.manager = Manager(tables, script.locks, limit, ask or ScriptAsk(script), slab or Slab())
        self.locks = Locks(script.locks, script.seats)
        self.slots = CancelSlots(script.slots)
        self.tokens = {}
        self.labels = {}
        self.entries = []
        self.words = []
        # What the steps were answered, under their places.
        self.heard = {}

    def word(self, step, place, reply):
        """Notes the word line of a step on a remove lock or a cancel slot."""
        keys = [k for k in step if k in ('do', 'lock', 'seat', 'slot', 'tag', 'to')]
        if step['do'] == 'finish_taken':
            keys = ['do', 'seat', 'slot']
        self.words.append(dict({k: step[k] for k in keys}, reply=reply, step=place))
        self.heard[place] = reply

    def step(self, step, place=None):
        """Makes a step, unless its condition fails; place is None in setup."""
        if not holds(step, self.heard):
            return None
        do, seat = step['do'], step['seat']
        if do in LOCK_STEPS:
            args = [step['lock']] + ([step['tag']] if 'tag' in step else [])
            return self.word(step, place, getattr(self.locks, do)(seat, *args))
        if do == 'hand':
            return self.word(step, place, self.locks.hand(seat, step['lock'], step['tag'], step['to']))
        irp = step.get('irp')
        if type(irp) is str:
            irp = self.labels.get(irp, UNBOUND)
        if do in ('publish', 'withdraw', 'request'):
            args = [irp[1]] if do == 'publish' else []
            reply = getattr(self.slots, do)(step['slot'], *args)
            if type(reply) is dict:
                self.tokens[seat, step['slot']] = reply['taken']
            return self.word(step, place, reply)
        call = {k: v for k, v in step.items() if k not in ('seat', 'as', 'slot', 'if')}
        if irp is not None:
            call['irp'] = list(irp)
        if do == 'finish_taken':
            if (seat, step['slot']) not in self.tokens:
                return self.word(step, place, 'no_token')
            call['token'] = self.tokens[seat, step['slot']]
        reply = self.call(seat, call, lambda lock: lock in self.locks.known[seat])
        self.heard[place] = reply
        if do == 'finish_taken' and reply == 'done':
            del self.tokens[seat, step['slot']]
        if type(reply) is dict and 'irp' in reply:
            if do == 'allocate':
                self.labels[step['as']] = reply['irp']
            elif type(step['irp']) is str:
                self.labels[step['irp']] = reply['irp']

    def call(self, seat, call, knows):
        """Makes a call, and notes its entry. Returns its reply."""
        lock, drained, asked, reply = self.manager.apply(call, knows)
        if call['do'] == 'delete':
            call = dict(call, lock=lock, drained=drained)
        self.entries.append({'asked': asked, 'call': call, 'n': len(self.entries), 'reply': reply, 'seat': seat})
        return reply

    def header(self):
        """Returns the header of the transcript."""
        t = self.manager.tables
        h = {'cancels': t.cancels, 'completions': [t.counts[r] for r in RULES],
             'dispatches': [[k[r] for r in RULES + ('cancel',)] for k in t.known],
             'drivers': [sorted([m, d] for m, d in table.items()) for table in t.drivers], 'form': min(self.script.form, 2),
             'locks': self.script.locks, 'seats': self.script.seats}
        if self.script.form != 1:
            h['slots'] = self.script.slots
        return h

    def lines(self):
        """Returns the lines of the transcript, as values."""
        words = sorted(self.words, key=lambda w: (w['seat'], w['step']))
        return [self.header()] + self.entries + words


def text_of(lines):
    """Returns the text of these lines."""
    return b''.join(compact(line) + b'\n' for line in lines)


def run(text, workers=1):
    """Returns the word ok and the transcript of a script, or the word refused and what the program tells."""
    try:
        script = read_script(text, workers)
    except Refused as r:
        return 'refused', r.args[0]
    runner = Runner(script)
    for step in script.setup:
        runner.step(step)
    for place, step in enumerate(script.steps):
        runner.step(step, place)
    return 'ok', text_of(runner.lines())
