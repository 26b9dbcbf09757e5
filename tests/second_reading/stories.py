"""Compares what `irp story` tells of transcripts with the model: how each entry stands, the packet behind it, what differs.

Usage: stories.py PROGRAM TRANSCRIPT .. PROGRAM is the path of `irp_view`. Prints a line for each entry whose line the
model would have written otherwise, and ends with status 0.
"""

import json
import subprocess
import sys

from first_difference import made_again


def setting_of(location):
    """Returns the completion routine that is set at a location, or None."""
    return location.routine and [*location.routine, location.context, location.flags]


def packet_of(packet):
    """Returns what a story tells of a packet."""
    own = packet.at.get(packet.current)
    return {
        'irp': [packet.slot, packet.use],
        'locations': [{'device': it.device, 'major': it.major, 'pending': it.pending, 'routine': setting_of(it),
                       'word': it.word} for _, it in sorted(packet.at.items())],
        'prepared': packet.prepared,
        'seen': {'cancel': packet.cancel, 'cancel_routine': packet.cancel_routine, 'current': packet.current,
                 'information': packet.information, 'marked': own is not None and own.pending, 'owner': packet.owner,
                 'pending_returned': packet.pending_returned, 'status': packet.status},
        'slot_held': packet.slot_held,
    }


def live_packet(told):
    """Returns the packet that an entry names, as the model has it behind the entry, or None where none is live."""
    reply, call = told.given['reply'], told.given['call']
    named = reply['irp'] if isinstance(reply, dict) and 'irp' in reply else call.get('irp')
    packet = named and told.manager.live.get(named[0])
    return packet_of(packet) if packet and packet.use == named[1] else None


def facts_of(line):
    """Returns what is compared of an entry's line."""
    wrong = line['wrong']
    return {'judged': line['judged'], 'packet': line['packet'],
            'made': wrong and {key: wrong['made'][key] for key in ('n', 'asked', 'reply')}}


def expected(told):
    """Returns what the model tells of an entry."""
    made = {key: told.made[key] for key in ('n', 'asked', 'reply')} if told.part else None
    return {'judged': 'illegal' if told.part else 'legal', 'packet': live_packet(told), 'made': made}


def faults_of(program, name):
    """Yields a line for each entry of a transcript that is told otherwise than the model has it."""
    ran = subprocess.run([program, 'story', name], capture_output=True, text=True, check=False)
    if ran.returncode:
        return
    lines = [facts_of(it) for it in map(json.loads, ran.stdout.splitlines()) if 'entry' in it]
    with open(name, 'rb') as text:
        model = [json.loads(json.dumps(expected(it))) for it in made_again(text.read())]
    model += [{'judged': 'unjudged', 'packet': None, 'made': None}] * (len(lines) - len(model))
    for at, (one, other) in enumerate(zip(lines, model)):
        if one != other:
            yield f'{name}: entry {at}: told {one}, by the model {other}'


for path in sys.argv[2:]:
    for fault in faults_of(sys.argv[1], path):
        print(fault)
