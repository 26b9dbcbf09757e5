"""Texts that were written by hand: at each limit and beyond it, with each key, and with each fault of JSON.

Each case is the words for the program and its input.
"""

import json
import os

TOP = os.path.dirname(os.path.dirname(os.path.dirname(os.path.realpath(__file__))))


def example(name):
    """Returns the bytes of an example."""
    with open(os.path.join(TOP, 'examples', name), 'rb') as it:
        return it.read()


SCRIPT = json.loads(example('sending/one_device_finishes_one_packet.script'))
TRANSCRIPT = example('sending/one_device_finishes_one_packet.transcript').decode().splitlines()


def bytes_of(v):
    """Returns the text of a value."""
    return json.dumps(v).encode()


def lines(ls):
    """Returns the bytes of these lines."""
    return ''.join(l + '\n' for l in ls).encode()


def empty(form, **more):
    """Returns a script of one seat and one lock, with these sections."""
    s = {"form": form, "seats": 1, "locks": 1, "completions": [], "cancels": [], "dispatches": [], "drivers": [],
         "setup": [],
         "steps": []}
    if form == 2:
        s["slots"] = 0
    s.update(more)
    return s


def script_of(form):
    """Returns the script of one device and one packet, in form 1 or 2."""
    return dict(SCRIPT, form=form, **({"slots": 0} if form == 2 else {}))


def transcript_of(form):
    """Returns the lines of the transcript of one device and one packet, in form 1 or 2."""
    if form == 1:
        return list(TRANSCRIPT)
    two = [l.replace('"form":1', '"form":2') for l in TRANSCRIPT]
    return [l.replace('"seats":1}', '"seats":1,"slots":0}') for l in two]


def scripts(form):
    """Yields scripts with a member or a section changed, and beginnings of one."""
    run = ['run']
    row1 = script_of(form)
    yield run, bytes_of(row1)
    for v in (row1, [row1], None, 1, "x"):
        yield run, bytes_of(v)
    text = bytes_of(row1)
    for k in range(0, len(text), 7):
        yield run, text[:k]
    for change in ({"seats": 0}, {"seats": 65}, {"seats": 64}, {"locks": 0}, {"locks": 65}, {"locks": 64}, {"slots": 0},
                   {"slots": 64}, {"slots": 65}, {"slots": -1}, {"slots": "1"}, {"slots": None}, {"slots": 1.0},
                   {"slots": True},
                   {"slots": 65, "locks": 0}, {"slots": 65, "completions": 0}, {"seats": 0, "slots": 65},
                   {"form": 1}, {"form": 2}, {"form": 3}, {"form": 4}, {"form": 0}, {"form": "2"}, {"form": 2.0}, {"form": True},
                   {"x": 0},
                   {"completions": [["watch", "keep", "continue"]]}, {"dispatches": [["forward",
                       ["keeper", 0, 0, "s"]]]},
                   {"dispatches": [["hold", 0]]}, {"drivers": [[[28, 0]]]}, {"completions": {}}, {"cancels": None},
                   {"drivers": 3},
                   {"setup": {}}, {"steps": None}, {"dispatches": "x"},
                   {"dispatches": [["finish", 0, 5], ["hold_slot"]]},
                   {"setup": [{"seat": 0, "do": "drained", "lock": 0}]},
                   {"setup": [{"seat": 0, "do": "request", "slot": 0}]},
                   {"setup": [{"seat": 0, "do": "finish_taken", "irp": "a", "slot": 0, "status": 0, "information": 0}]},
                   {"cancels": [["leave"]] * 256}, {"cancels": [["leave"]] * 257},
                   {"cancels": [["leave"]] * 256 + [["x"]]},
                   {"dispatches": [["skip"]] * 256}, {"dispatches": [["skip"]] * 257},
                   {"dispatches": [["skip"]] * 256 + [["hold", 9]]}, {"drivers": [[]] * 64}, {"drivers": [[]] * 65},
                   {"drivers": [[]] * 64 + [[[28, 0]]]}, {"completions": [["watch", "continue", "continue"]] * 256},
                   {"completions": [["watch", "continue", "continue"]] * 256 + [["change", "continue", "continue"]]},
                   {"completions": [["watch", "continue", "continue"]] * 257},
                   {"completions": [["watch", "continue", "continue"]] * 256 + [["watch", "keep", "continue"]]}):
        yield run, bytes_of(dict(row1, **change))
        yield ['run', '--workers', '2'], bytes_of(dict(row1, **change))
    for k in range(len(row1['steps'])):
        steps = [dict(s, seat=1) if i == k else s for i, s in enumerate(row1['steps'])]
        yield run, bytes_of(dict(row1, steps=steps))
    for key in list(row1):
        yield run, bytes_of({k: v for k, v in row1.items() if k != key})


def nested(form):
    """Yields texts that nest as deep as may be, and deeper."""
    run, check = ['run'], ['check']
    row1 = script_of(form)
    for d in (126, 127, 128, 129):
        yield run, b'[' * d + b']' * d
        yield run, b'{"form":' * d + b'1' + b'}' * d
        yield run, bytes_of(dict(row1, completions=0)).replace(b'"completions": 0', b'"completions":' + b'[' * (d - 1)
            + b']' * (d - 1))
        yield check, b'[' * d + b']' * d + b'\n'
        yield check, TRANSCRIPT[0].replace('[]', '[' * (d - 1) + ']' * (d - 1), 1).encode() + b'\n'


def transcripts(form):
    """Yields transcripts with a change, beginnings of one, and lines at the limit of their length."""
    check = ['check']
    t1 = transcript_of(form)
    yield check, lines(t1)
    whole = lines(t1)
    for k in range(0, len(whole) + 1, 5):
        yield check, whole[:k]
    for a, b in (('"status":0}', '"status":259}'), ('"n":1', '"n":7'), ('[0,1]', '[5,1]'), ('[0,1]', '[0,2]'),
                 (',7,0,0', ',8,0,0'),
                 ('"finish",0,5', '"finish",0,6'), ('"finish",0,5', '"finish",1,5'), ('"finish",0,5', '"finish",259,5'),
                 ('"size":1', '"size":2'), ('"size":1', '"size":0'), ('"seat":0}', '"seat":1}'), ('[3,0]', '[3,1]'),
                 ('[[3,0]]', '[[3,0],[3,0]]'), ('[[3,0]]', '[[4,0],[3,0]]'), ('[[3,0]]', '[[3,0],[28,0]]'),
                 ('[[3,0]]', '[[256,0]]'),
                 ('[0,0,0,0,0,0]', '[1,0,0,0,0,0]'), ('[0,0,0,0,0,0]', '[0,0,0,0,0,1]'),
                 ('[0,0,0,0,0]', '[257,0,0,0,0]'),
                 ('[0,0,0,0,0]', '[256,0,0,0,0]'), ('"locks":1', '"locks":0'), ('"locks":1', '"locks":65'),
                 ('"seats":1', '"seats":0'), ('"seats":1', '"seats":64'), ('"seats":1', '"seats":65'),
                 ('"slots":0', '"slots":64'),
                 ('"slots":0', '"slots":65'), (',"slots":0', ''), ('"seats":1}', '"seats":1,"slots":0}'),
                 ('"form":1', '"form":2'),
                 ('"form":2', '"form":1'), ('"form":1', '"form":3'), ('"done"', '{"refused":"SlotHeld"}'),
                 ('"done"', '{"refused":"NotSlotHeld"}'), ('"done"', '{"refused":"HistoryFull"}'),
                 ('"done"', '{"refused":"X"}'),
                 ('["finish",0,5]', '["hold_slot"]'), ('["finish",0,5]', '["hold_slot",null]'), ('\n', '\r\n'),
                 ('\n', '\n\n'), (':', ' : ')):
        yield check, whole.replace(a.encode(), b.encode())
        yield check, whole.replace(a.encode(), b.encode(), 1)
    pad = 65536 - len(t1[1])
    yield check, lines([t1[0], t1[1] + ' ' * pad] + t1[2:])
    yield check, lines([t1[0], t1[1] + ' ' * (pad + 1)] + t1[2:])
    yield check, lines([t1[0] + ' ' * (65536 - len(t1[0]))] + t1[1:])
    yield check, lines([t1[0] + ' ' * (65537 - len(t1[0]))] + t1[1:])


def word_lines(form):
    """Yields transcripts with word lines: each reply, and each key missing or too many."""
    check = ['check']
    t1 = transcript_of(form)
    words = ['"ok"', '"yes"', '"no_lock"', '{"busy":3}', '{"status":0}', '{"status":3221225558}', '{"status":1}',
             '{"busy":3,"x":0}',
             '"standing"', '{"taken":1}', '"lost"', '"nothing"', '"used"', '"not_standing"', '"no_slot"', '"no_token"',
             '{"taken":"1"}',
             '"seat_full"', '"not_held"', '"already_removing"', '"done"', 'null', '{"taken":18446744073709551615}',
             '{"token":1}']
    for r in words:
        for w in ('{"do":"acquire","lock":9,"reply":R,"seat":0,"step":1,"tag":1}',
                  '{"do":"hand","lock":0,"reply":R,"seat":0,"step":1,"tag":1,"to":0}',
                  '{"do":"request","reply":R,"seat":0,"slot":9,"step":1}',
                  '{"do":"finish_taken","reply":R,"seat":0,"slot":9,"step":1}'):
            yield check, lines(t1 + [w.replace('R', r)])
    for w in ('{"do":"drained","lock":0,"reply":"yes","seat":0,"step":1,"tag":1}',
              '{"do":"acquire","lock":0,"reply":"ok","seat":0,"step":1}',
              '{"do":"hand","lock":0,"reply":"ok","seat":0,"step":1,"tag":1}',
              '{"do":"hand","lock":0,"reply":"ok","seat":0,"step":1,"tag":1,"to":1}',
              '{"do":"hand","lock":0,"reply":"ok","seat":1,"step":1,"tag":1,"to":0}',
              '{"do":"publish","irp":[0,1],"reply":"ok","seat":0,"slot":0,"step":1}',
              '{"do":"publish","lock":0,"reply":"ok","seat":0,"step":1}',
              '{"do":"withdraw","reply":"ok","seat":0,"slot":0,"step":1}',
              '{"do":"publish","reply":"ok","seat":0,"slot":4294967296,"step":1}',
              '{"do":"look","reply":"ok","seat":0,"slot":0,"step":1}',
              '{"do":"finish_taken","irp":[0,1],"reply":"no_token","seat":0,"slot":0,"step":1}',
              '{"do":"request","reply":"ok","seat":0,"slot":0,"step":4294967296}',
              '{"do":"request","lock":0,"reply":"ok","seat":0,"slot":0,"step":1}',
              '{"do":"request","reply":"ok","seat":0,"slot":0,"step":1,"tag":0}', '{}', '[]', '""'):
        yield check, lines(t1 + [w])
        yield check, lines(t1[:1] + [w] + t1[1:])


def finishing_entries(form):
    """Yields transcripts with an entry that finishes a packet which was in no slot."""
    check = ['check']
    t1 = transcript_of(form)
    e = ('{"asked":[],"call":{"do":"finish_taken","information":0,"irp":[0,1],"status":0,"token":1},'
         '"n":4,"reply":R,"seat":0}')
    for r in ('"done"', '{"refused":"Ended"}', '{"refused":"NotSlotHeld"}', '{"refused":"Stale"}',
              '{"refused":"NoIrp"}', '{"refused":"BadStatus"}'):
        yield check, lines(t1 + [e.replace('R', r)])
        yield check, lines(t1 + [e.replace('R', r).replace('"token":1', '"token":2')])
        yield check, lines(t1 + [e.replace('R', r).replace('[0,1]', '[0,2]').replace('"token":1', '"token":2')])
        yield check, lines(t1 + [e.replace('R', r).replace(',"token":1', '')])
        yield check, lines(t1 + [e.replace('R', r).replace('"token":1', '"slot":0')])
        yield check, lines(t1 + [e.replace('R', r).replace('"token":1', '"slot":0,"token":1')])
        yield check, lines(t1 + [e.replace('R', r).replace('"do"', '"by":"o","do"')])


def sizes(form):
    """Yields packets of sizes about the limits, and more devices than there may be."""
    run, check = ['run'], ['check']
    t1 = transcript_of(form)
    for size in (0, 1, 15, 16, 17, 31, 32, 33, 255, 256):
        yield run, bytes_of(empty(form, steps=[{"seat": 0, "do": "allocate", "size": size, "as": "a"}]))
        for reply in ('{"irp":[0,1]}', '{"refused":"BadSize"}'):
            yield check, lines([t1[0],
                                '{"asked":[],"call":{"do":"allocate","size":%d},"n":0,"reply":%s,"seat":0}' % (size,
                                    reply)])
    many = [{"seat": 0, "do": "create_device", "driver": 0, "lock": 0}] * 66
    yield run, bytes_of(empty(form, drivers=[[]], steps=many))
    yield run, bytes_of(empty(form, drivers=[[]], setup=many))


def workers(form):
    """Yields hands from seat to seat, with one worker and with several."""
    run = ['run']
    two = dict(empty(form), seats=2)
    for words in (run, ['run', '--workers', '2'], ['run', '--workers', '3'], ['run', '--workers=2'],
                  ['run', '--workers', '02']):
        yield words, bytes_of(dict(two, steps=[{"seat": 0, "do": "acquire", "lock": 0, "tag": 1},
                                               {"seat": 0, "do": "drained", "lock": 0},
                                         {"seat": 0, "do": "hand", "lock": 0, "tag": 1, "to": 1}]))
        yield words, bytes_of(dict(two, steps=[{"seat": 0, "do": "hand", "lock": 0, "tag": 1, "to": 1}, {"seat": 2}]))
        yield words, bytes_of(dict(two, seats=4, steps=[{"seat": 0, "do": "acquire", "lock": 0, "tag": 1},
                                                        {"seat": 0, "do": "hand", "lock": 0, "tag": 1, "to": 2},
                                                  {"seat": 2, "do": "release", "lock": 0, "tag": 1}]))


def odd_texts():
    """Yields texts that are no script and no transcript, and scripts at the limit of their length."""
    for text in (b'', b'\n', b' ', b'{', b'{}', b'null', b'\xef\xbb\xbf{}', b'"\xff"', b'{"form":1e400}',
                 b'{"form":1,"form":2}',
                 b'{"form":2,"form":1}', b'{"form":-0}', b'{"a":"\\ud800"}', b'{"a":"\\udc00"}',
                 b'{"a":"\\ud83d\\ude00"}', b'{"a":"\x01"}',
                 b'{"a":"\t"}', b'{"a":NaN}', b'{"a":1,}', b'[1,]', b'{"a":01}', b'\x0c{}', b'\xc2\xa0{}',
                 b'{"form":1}//', b'[' * 5000,
                 b'{"a":"\\ud83d"}', b'{"a":"\\ud83dx"}', b'{"a":"\\ud83d\\n"}', b'{"a":"\\ud83d\\ud83d"}',
                 b'{"a":"\xed\xa0\x80"}',
                 b'{"a":"\\u00e"}', b'{"a":"\\/"}', b'{"a":"\\\'"}', b'{"a":' + b'9' * 310 + b'}', b'{"a":' + b'9' * 308
                 + b'}',
                 b'{"a":1' + b'0' * 400 + b'e-300}', b'{"a":0.' + b'0' * 400 + b'1e401}', b'{"a":0e999}',
                 b'{"a":1e-999999999999}',
                 b'{"a":1e999999999999}', b'{"a":0e99999999999999999999}', b'{"a":-1e309}', b'{"a":1.5e308}',
                 b'{"a":.5}', b'{"a":1.}',
                 b'{"a":1.e5}', b'{"a":+1}', b'{"a":-}', b'{"a":--1}', b'{"a":1e}', b'{"a":1e+}', b'{"a":tru}',
                 b'{"a":True}', b"{'a':1}"):
        yield ['run'], text
        yield ['check'], text
        yield ['check'], text + b'\n'
        yield ['check'], TRANSCRIPT[0].encode() + b'\n' + text + b'\n'
    yield ['run'], b' ' * 1048576
    yield ['run'], b' ' * 1048577
    pad = bytes_of(SCRIPT)
    yield ['run'], pad + b' ' * (1048576 - len(pad))
    yield ['run'], pad + b' ' * (1048577 - len(pad))


def cases():
    """Yields each text by hand that is not about slots alone, after the words for the program."""
    for form in (1, 2):
        for made in (scripts, nested, transcripts, word_lines, finishing_entries, sizes, workers):
            yield from made(form)
    yield from odd_texts()
