"""Sound scripts, made by chance: of any steps, and of some kinds that chance alone seldom makes."""

from heads_by_chance import INFOS, LABELS, behaviours, head, read_head, setting
from running import Runner
from small_forms import RULES
from steps_by_chance import Chooser


def prelude(rng, s):
    """A stack whose upper devices mostly pass down and whose lowest one mostly doesn't."""
    def plans(t):
        return [s['dispatches'][d][0] for m, d in t if m == 3]
    low = [i for i, t in enumerate(s['drivers']) if set(plans(t)) & {'finish', 'hold', 'hold_slot'}]
    high = [i for i, t in enumerate(s['drivers']) if set(plans(t)) & {'skip', 'forward', 'forward_pend'}]
    n = rng.choice([1, 2, 2, 3, 4])
    made = [{'do': 'create_device', 'driver': rng.choice((low if d == 0 else high) or [0]), 'lock': 0}
            for d in range(n)]
    return made + [{'do': 'attach', 'device': d, 'to': 0} for d in range(1, n)]


def script(rng, form, length=None, seats=None):
    """A sound script as a value."""
    s = head(rng, form)
    runner = Runner(read_head(s))
    choose = Chooser(rng, runner, seats(s) if seats else None)
    length = length or rng.choice([5, 15, 25, 40, 40, 60])
    in_setup = rng.choice([0, 0, 0, 3, 8])
    first = prelude(rng, s) if rng.random() < .75 else []
    for k in range(length):
        if k < len(first):
            step = dict(first[k], seat=choose.seat())
        else:
            step = choose.call() if k < in_setup else choose.step()
        if k < in_setup:
            s['setup'].append(step)
            runner.step(step)
        else:
            runner.step(step, len(s['steps']))
            s['steps'].append(step)
    return s


def flow_script(rng, form):
    """Packets that go down a stack, are held, kept, cancelled, sent on, completed."""
    s = head(rng, form)
    s['completions'] += [[r] + behaviours(rng, r) for r in RULES]
    counts = {r: [c[0] for c in s['completions']].count(r) for r in RULES}
    s['cancels'] += [['finish', 7], ['leave']]
    c, first = len(s['cancels']), len(s['dispatches'])
    low = [['finish', 0, 5], ['finish', 3221225473, 6], ['hold', None], ['hold', None], ['hold', c - 1],
           ['hold', c - 2]]
    low += [['hold_slot']] * 2 if form == 2 else []
    high = [['skip'], ['forward', None], ['forward', setting(rng, counts, 'watch')], ['forward_pend', None],
            ['hold', None]] + [['forward_pend', setting(rng, counts)] for _ in range(3)]
    n = rng.choice([1, 2, 3, 3, 4])
    s['dispatches'] += [rng.choice(low)] + [rng.choice(high) for _ in range(n - 1)]
    s['dispatches'] += [rng.choice(low + high) for _ in range(2)]
    base = len(s['drivers'])
    s['drivers'] += [[[3, first + d], [4, rng.randrange(first, len(s['dispatches']))]] for d in range(n)]
    runner = Runner(read_head(s))
    choose = Chooser(rng, runner)

    def do(step):
        step.setdefault('seat', choose.seat())
        runner.step(step, len(s['steps']))
        s['steps'].append(step)
    for d in range(n):
        do({'do': 'create_device', 'driver': base + d, 'lock': rng.randrange(s['locks'])})
    for d in range(1, n):
        do({'do': 'attach', 'device': d, 'to': 0})
    for k in range(rng.choice([1, 2, 3])):
        name = LABELS[k]
        choose.focus = name
        do({'do': 'allocate', 'size': max(n + rng.choice([0, 0, 0, 1, -1]), 1), 'as': name})
        do({'do': 'set_next', 'by': 'o', 'irp': name, 'major': rng.choice([3, 3, 3, 4]), 'word': rng.choice(INFOS)})
        if rng.random() < .6:
            do({'do': 'set_routine', 'by': 'o', 'irp': name, 'set': choose.setting()})
        if rng.random() < .15:
            do({'do': 'cancel', 'irp': name})
        do({'do': 'call_driver', 'by': 'o', 'irp': name, 'target': n - 1})
        for _ in range(rng.choice([3, 6, 9, 12])):
            do(choose.of_packet() if rng.random() < .93 else choose.step())
        do({'do': 'look', 'irp': name})
    return s


def slot_script(rng):
    """A form 2 script whose packets go into slots and come out again by every way; then random steps."""
    s = head(rng, 2)
    s['slots'] = rng.choice([1, 2, 3, 4, 5, 8])
    s['dispatches'] += [['hold', None], ['hold_slot'], ['forward', None], ['forward_pend', None], ['skip']]
    n = len(s['dispatches'])
    s['drivers'] += [[[3, n - 4], [4, n - rng.choice([4, 5])]], [[3, n - rng.choice([1, 2, 3])]]]
    d = len(s['drivers'])
    runner = Runner(read_head(s))
    choose = Chooser(rng, runner)

    def do(step):
        runner.step(step, len(s['steps']))
        s['steps'].append(step)
    two = rng.random() < .5
    do({'seat': 0, 'do': 'create_device', 'driver': d - 2, 'lock': 0})
    if two:
        do({'seat': 0, 'do': 'create_device', 'driver': d - 1, 'lock': 0})
        do({'seat': 0, 'do': 'attach', 'device': 1, 'to': 0})
    for k in range(s['slots']):
        name = LABELS[k]
        do({'seat': choose.seat(), 'do': 'allocate', 'size': 1 + two + (rng.random() < .2), 'as': name})
        do({'seat': choose.seat(), 'do': 'set_next', 'by': 'o', 'irp': name, 'major': rng.choice([3, 3, 3, 4]),
            'word': k})
        if rng.random() < .6:
            do({'seat': choose.seat(), 'do': 'set_routine', 'by': 'o', 'irp': name, 'set': choose.setting()})
        if rng.random() < .2:
            do({'seat': choose.seat(), 'do': 'cancel', 'irp': name})
        if rng.random() < .1 and k + 1 < s['slots']:
            do({'seat': k % s['seats'], 'do': 'publish', 'slot': k, 'irp': name})
        do({'seat': choose.seat(), 'do': 'call_driver', 'by': 'o', 'irp': name, 'target': int(two)})
        if rng.random() < .3:
            do({'seat': choose.seat(), 'do': 'request', 'slot': k})
        for _ in range(rng.choice([0, 0, 1, 2])):
            by = rng.choice([0, 0, 'o', 1])
            base = {'seat': choose.seat(), 'by': by, 'irp': name}
            do(rng.choice([choose.complete(base), dict(base, do='mark_pending'), dict(base, do='skip'),
                           choose.set_next(base), dict(base, do='set_cancel_routine', cancel=None),
                           dict(base, do='call_driver', target=0), dict(base, do='copy_to_next'),
                           dict(base, do='set_routine', set=choose.setting()),
                           {'seat': 0, 'do': 'free', 'irp': name}, {'seat': 0, 'do': 'delete', 'device': 0},
                           {'seat': 0, 'do': 'reuse', 'irp': name, 'status': 0}, {'seat': 0, 'do': 'look', 'irp': name},
                           {'seat': 0, 'do': 'cancel', 'irp': name}]))
        do({'seat': k % s['seats'], 'do': 'publish', 'slot': k, 'irp': name})
        for _ in range(rng.choice([0, 1, 2, 3, 4])):
            do(choose.of_slot())
    for _ in range(rng.choice([3, 10, 20])):
        do(choose.step())
    return s


def deep_script(rng, form):
    """Stacks and packets about the limits."""
    limit = 16 if form == 1 else 32
    s = {'form': form, 'seats': 1, 'locks': 1, 'completions': [['watch', 'continue', 'continue'],
        ['keeper', 'keep', 'keep']],
         'cancels': [], 'dispatches': [['finish', 0, 1], rng.choice([['forward', None], ['skip'],
         ['forward', ['watch', 0, 3, 'sec']], ['forward_pend', ['keeper', 0, 1, 'sec']]])],
         'drivers': [[[3, 0]], [[3, 1]]], 'setup': [], 'steps': []}
    if form == 2:
        s['slots'] = 0
    n = limit + rng.choice([-1, 0, 1])
    steps = [{'seat': 0, 'do': 'create_device', 'driver': int(d > 0), 'lock': 0} for d in range(n)]
    steps += [{'seat': 0, 'do': 'attach', 'device': d, 'to': rng.choice([0, d - 1])} for d in range(1, n)]
    for size in rng.sample([0, 15, 16, 17, 31, 32, 33, 255], 4) + [limit, limit + 1]:
        steps.append({'seat': 0, 'do': 'allocate', 'size': size, 'as': 'a'})
    steps += [{'seat': 0, 'do': 'set_next', 'by': 'o', 'irp': 'a', 'major': 3, 'word': 7},
              {'seat': 0, 'do': 'call_driver', 'by': 'o', 'irp': 'a', 'target': limit - 1},
              {'seat': 0, 'do': 'look', 'irp': 'a'},
              {'seat': 0, 'do': 'complete', 'by': rng.randrange(1, n), 'irp': 'a', 'status': 0, 'information': 9}]
    cut = rng.choice([0, 0, n])
    s['setup'], s['steps'] = steps[:cut], steps[cut:]
    return s


def lock_script(rng, form):
    """Seats that hold 64 references; removal; handing over."""
    s = head(rng, form)
    s['seats'] = rng.choice([2, 3])
    n = s['seats']
    runner = Runner(read_head(s))
    choose = Chooser(rng, runner)

    def do(step):
        runner.step(step, len(s['steps']))
        s['steps'].append(step)
    do({'seat': 0, 'do': 'create_device', 'driver': 0, 'lock': 0})
    for _ in range(rng.choice([62, 63, 64, 65])):
        do({'seat': 0, 'do': 'acquire', 'lock': rng.choice([0, 0, s['locks'] - 1, 9]) if rng.random() < .2 else 0,
            'tag': rng.choice([1, 1, 2])})
    for _ in range(rng.choice([10, 25])):
        step = choose.of_lock()
        if rng.random() < .6 and step['do'] == 'hand':
            step['to'] = 0 if step['seat'] else 1
        do(step)
    for _ in range(5):
        do(choose.step())
    return s


def removal_script(rng, form):
    """Devices that are taken away, and used after that."""
    s = head(rng, form)
    s['seats'], s['locks'] = rng.choice([1, 2, 3]), rng.choice([1, 2])
    runner = Runner(read_head(s))
    choose = Chooser(rng, runner)

    def do(step):
        step.setdefault('seat', choose.seat())
        runner.step(step, len(s['steps']))
        s['steps'].append(step)
    n = rng.choice([1, 2, 3, 4])
    for d in range(n):
        do({'do': 'create_device', 'driver': rng.randrange(len(s['drivers'])), 'lock': rng.randrange(s['locks'])})
    if n > 2:
        do({'do': 'attach', 'device': 1, 'to': 0})
    for k in range(rng.choice([0, 1, 2])):
        do({'do': 'allocate', 'size': 2, 'as': LABELS[k]})
        do({'do': 'set_next', 'by': 'o', 'irp': LABELS[k], 'major': 3, 'word': k})
        do({'do': 'call_driver', 'by': 'o', 'irp': LABELS[k], 'target': rng.randrange(n)})
    for lock in range(s['locks']):
        seat = choose.seat()
        do({'seat': seat, 'do': 'acquire', 'lock': lock, 'tag': 1})
        if rng.random() < .4:
            do({'do': 'acquire', 'lock': lock, 'tag': 2})
        do({'seat': seat, 'do': 'begin_remove', 'lock': lock, 'tag': 1})
        if rng.random() < .4:
            do(choose.of_lock())
        held = [(k, t) for k in range(s['seats']) for l, t in runner.locks.held[k] if l == lock]
        for k, t in held:
            if rng.random() < .85:
                do({'seat': k, 'do': 'release', 'lock': lock, 'tag': t})
        do({'seat': seat if rng.random() < .7 else choose.seat(), 'do': 'drained', 'lock': lock})
    for _ in range(rng.choice([4, 8, 12])):
        x = rng.random()
        if x < .35:
            d = choose.device()
            knowing = [k for k in range(s['seats']) if d < n and runner.manager.devices[d][1] in runner.locks.known[k]]
            do({'seat': rng.choice(knowing) if knowing and rng.random() < .7 else choose.seat(), 'do': 'delete',
                'device': d})
        elif x < .5:
            do({'do': 'attach', 'device': choose.device(), 'to': choose.device()})
        elif x < .6:
            do({'do': 'detach', 'lower': choose.device()})
        elif x < .7 and runner.labels:
            do({'do': 'call_driver', 'by': choose.party(), 'irp': choose.ref(), 'target': choose.device()})
        else:
            do(choose.step())
    return s
