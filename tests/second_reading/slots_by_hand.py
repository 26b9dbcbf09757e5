"""Scripts that were written by hand: of cancel slots, and of references that are handed over."""

import json

from texts_by_hand import bytes_of, empty, example

SLOT_SCRIPT = json.loads(example('slots/a_canceller_takes_a_packet_from_its_slot.script'))
SLOT_TRANSCRIPT = example('slots/a_canceller_takes_a_packet_from_its_slot.transcript')


def st(seat, do, **k):
    """Returns a step."""
    return dict(k, seat=seat, do=do)


FILL = [st(0, 'set_next', by='o', irp='a', major=3, word=7)]


def taken_packets():
    """Yields a packet that is taken from its slot, and the beginnings of that."""
    yield ['run'], bytes_of(SLOT_SCRIPT)
    yield ['check'], SLOT_TRANSCRIPT
    yield ['run'], bytes_of(dict(SLOT_SCRIPT, form=1, **{"slots": 1}))
    for at in range(9):
        s = dict(SLOT_SCRIPT)
        s.pop('slots')
        yield ['run'], bytes_of(dict(s, form=1, steps=s['steps'][:at + 1], dispatches=[["finish", 0, 5]]))
        yield ['run'], bytes_of(dict(SLOT_SCRIPT, steps=SLOT_SCRIPT['steps'][:at]))
        yield ['run', '--workers', '2'], bytes_of(dict(SLOT_SCRIPT, steps=SLOT_SCRIPT['steps'][:at]
                                                       + [{"seat": 0, "do": "hand", "lock": 0, "tag": 1, "to": 1}]))


def slots():
    """Yields use 0 in a slot, one use in two slots, tokens that come back, and slots of every seat."""
    a0 = [0, 0]
    steps = [{"seat": 0, "do": "publish", "slot": 0, "irp": "x"}, {"seat": 0, "do": "withdraw", "slot": 0},
             {"seat": 1, "do": "request", "slot": 1},
             {"seat": 1, "do": "publish", "slot": 1, "irp": a0}, {"seat": 0, "do": "publish", "slot": 2,
                 "irp": [7, 18446744073709551615]},
             {"seat": 0, "do": "request", "slot": 2}, {"seat": 0, "do": "finish_taken",
                                                       "irp": [7, 18446744073709551615], "slot": 2, "status": 0,
                                                       "information": 0},
             {"seat": 0, "do": "publish", "slot": 4, "irp": "x"}, {"seat": 1, "do": "request", "slot": 4},
             {"seat": 0, "do": "withdraw", "slot": 4},
             {"seat": 0, "do": "publish", "slot": 4, "irp": "x"}, {"seat": 0, "do": "withdraw", "slot": 4}]
    yield ['run'], bytes_of(empty(2, seats=2, slots=5, steps=steps))
    back = SLOT_SCRIPT['steps'][:4] + [{"seat": 0, "do": "publish", "slot": 0, "irp": "a"},
                                       {"seat": 0, "do": "publish", "slot": 2, "irp": "a"},
                                {"seat": 1, "do": "request", "slot": 0}, {"seat": 0, "do": "request", "slot": 2}]
    fin = {"seat": 1, "do": "finish_taken", "irp": "a", "slot": 0, "status": 0, "information": 1}
    for more in ([dict(fin, status=259), fin, fin], [dict(fin, irp="no"), fin],
                 [dict(fin, irp=[0, 2]), fin, dict(fin, seat=0, slot=2)],
                 [dict(fin, seat=0), dict(fin, slot=2), fin], [dict(fin, slot=2), dict(fin, seat=0, slot=2), fin, fin],
                 [dict(fin, slot=9), dict(fin, slot=4294967295)]):
        yield ['run'], bytes_of(dict(SLOT_SCRIPT, slots=3, steps=back + more))
    for slots in (0, 1, 2, 3, 5, 63, 64):
        for seats in (1, 2, 3, 64):
            for slot in (0, 1, 2, 4, 62, 63, 64):
                for do in ('publish', 'withdraw', 'request'):
                    step = {"seat": slot % seats, "do": do, "slot": slot}
                    if do == 'publish':
                        step['irp'] = [0, 1]
                    if slot in (slots - 1, slots, 4):
                        yield ['run'], bytes_of(empty(2, seats=seats, slots=slots, steps=[step]))
                        yield ['run'], bytes_of(empty(2, seats=seats, slots=slots,
                                                      steps=[dict(step, seat=(slot + 1) % seats)]))


def hands():
    """Yields hands in which each check fails, and pairs of them."""
    full = [st(1, 'acquire', lock=0, tag=2)] * 64
    hand = st(0, 'hand', lock=0, tag=1, to=1)
    for steps in (full + [hand, st(0, 'acquire', lock=0, tag=1), hand, dict(hand, lock=1), dict(hand, lock=9),
                          dict(hand, tag=2), st(0, 'release', lock=0, tag=1)],
                  full[:63] + [st(0, 'acquire', lock=0, tag=1)] * 2 + [hand, hand, st(1, 'acquire', lock=0, tag=7),
                      st(1, 'release', lock=0, tag=1), hand,
                                                                      st(0, 'drained', lock=0)],
                  [st(0, 'acquire', lock=0, tag=1), st(1, 'acquire', lock=0, tag=2),
                   st(1, 'begin_remove', lock=0, tag=2), hand, st(0, 'release', lock=0, tag=1),
                   st(1, 'drained', lock=0), st(1, 'release', lock=0, tag=1), st(1, 'drained', lock=0), hand],
                  [st(0, 'acquire', lock=0, tag=1), hand, st(1, 'begin_remove', lock=0, tag=1),
                   st(0, 'acquire', lock=0, tag=1), st(1, 'drained', lock=0)]):
        yield ['run'], bytes_of(empty(2, seats=2, steps=steps))
        yield ['run', '--workers', '1'], bytes_of(empty(2, seats=2, steps=steps))
        yield ['run', '--workers', '2'], bytes_of(empty(2, seats=2, steps=steps))
        yield ['run', '--workers', '2'], bytes_of(empty(2, seats=3, steps=[dict(s,
            **{k: 2 * s[k] for k in ('seat', 'to') if k in s}) for s in steps]))
    for seats in (1, 2, 3, 4):
        for seat in range(seats):
            for to in (0, 1, 2, 3, 4, 64, 4294967295, 4294967296, "1", None, -1):
                for words in (['run'], ['run', '--workers', '2']):
                    yield words, bytes_of(empty(2, seats=seats, steps=[st(0, 'drained', lock=0),
                        st(seat, 'hand', lock=0, tag=1, to=to)]))
    hands = [st(0, 'hand', lock=0, tag=1, to=2), st(0, 'hand', lock=0, tag=1, to=3), st(3, 'hand', lock=0, tag=1, to=0),
             st(1, 'hand', lock=0, tag=1, to=3)]
    for k in range(4):
        for n in ('1', '2', '3', '4', '64'):
            yield ['run', '--workers', n], bytes_of(empty(2, seats=4, steps=hands[k:] + hands[:k]))
            yield ['run', '--workers', n], bytes_of(empty(2, seats=4, steps=hands[k:] + hands[:k]
                                                          + [st(0, 'publish', slot=0, irp=[0, 1])]))


def finishes():
    """Yields finishes of a taken packet in each state: unsent, held, in a slot, kept, ended, reused, freed."""
    make = [st(0, 'create_device', driver=0, lock=0), st(0, 'allocate', size=1, **{'as': 'a'})]
    fill = FILL
    keep = [st(0, 'set_routine', by='o', irp='a', set=['keeper', 0, 9, 'sec'])]
    call = [st(0, 'call_driver', by='o', irp='a', target=0)]
    done = [st(0, 'complete', by=0, irp='a', status=0, information=1)]
    take = [st(0, 'publish', slot=0, irp='a'), st(1, 'request', slot=0)]
    own = [st(0, 'publish', slot=0, irp='a'), st(0, 'withdraw', slot=0)]
    late = [st(1, 'request', slot=0), st(0, 'publish', slot=0, irp='a')]
    for plan in (['hold', None], ['hold', 0], ['hold', 1], ['hold_slot'], ['finish', 0, 5]):
        for ways in (take, own, late):
            who = 1 if ways is take else 0
            for before in ([], fill, fill + call, fill + keep + call, fill + call + done, fill + keep + call + done,
                           fill + call + done + [st(0, 'reuse', irp='a', status=0)], fill + call + done
                           + [st(0, 'free', irp='a')],
                           fill + call + [st(1, 'cancel', irp='a')], [st(1, 'cancel', irp='a')] + fill + keep + call):
                for status in (0, 259, 3221225473):
                    fin = st(who, 'finish_taken', irp='a', slot=0, status=status, information=3)
                    steps = make + before + ways + [fin, st(0, 'look', irp='a'), st(0, 'look', irp=[0, 1]),
                                                    dict(fin, irp=[0, 1], status=0), dict(fin, status=0),
                                                    st(0, 'look', irp='a'),
                                                    st(0, 'complete', by=0, irp='a', status=0, information=0)]
                    if status and ways is not take:
                        continue
                    yield ['run'], bytes_of(empty(2, seats=2, slots=1, completions=[['keeper', 'keep', 'keep']],
                                                  cancels=[['finish', 8], ['leave']], dispatches=[plan],
                                            drivers=[[[3, 0]]], steps=steps))


def held_packets():
    """Yields a packet in a slot, against every call, by its owner, another device and the originator."""
    fill = FILL
    base = [st(0, 'create_device', driver=1, lock=0), st(0, 'create_device', driver=0, lock=0),
            st(0, 'attach', device=1, to=0)]
    for size, target in ((2, 1), (3, 1), (1, 0)):
        held = base + [st(0, 'allocate', size=size, **{'as': 'a'})] + fill + [st(0, 'call_driver', by='o', irp='a',
            target=target)]
        for by in ('o', 0, 1, 9):
            b = dict(by=by, irp='a')
            calls = [st(1, 'set_next', major=3, word=1, **b), st(1, 'set_next', major=28, word=1, **b),
                     st(1, 'copy_to_next', **b), st(1, 'skip', **b),
                     st(1, 'mark_pending', **b), st(1, 'set_routine', set=['keeper', 0, 0, 's'], **b),
                     st(1, 'set_routine', set=['watch', 7, 0, 's'], **b),
                     st(1, 'call_driver', target=0, **b), st(1, 'call_driver', target=9, **b),
                     st(1, 'complete', status=259, information=0, **b),
                     st(1, 'complete', status=0, information=0, **b), st(1, 'set_cancel_routine', cancel=None, **b),
                     st(1, 'set_cancel_routine', cancel=9, **b),
                     st(1, 'free', irp='a'), st(1, 'reuse', irp='a', status=0), st(1, 'look', irp='a'),
                     st(1, 'delete', device=1), st(1, 'cancel', irp='a'),
                     st(1, 'set_cancel_routine', cancel=0, **b), st(1, 'cancel', irp='a'), st(1, 'look', irp='a')]
            for plan in (['hold_slot'], ['hold', None]):
                yield ['run'], bytes_of(empty(2, seats=2, slots=1, completions=[['keeper', 'keep', 'keep']],
                                              cancels=[['leave']], dispatches=[plan, ['hold_slot']],
                                        drivers=[[[3, 0]], [[3, 1]]], steps=held + calls))


def cases():
    """Yields each of these texts, after the words for the program."""
    for made in (taken_packets, slots, hands, finishes, held_packets):
        yield from made()
