"""A text made by chance: its kind, the words for the program, and its input."""

from changed_transcripts import near_transcript
from conditions_by_chance import with_conditions, wrong_condition
from faults_by_chance import broken_text, form2_step, near_script
from json_texts import compact
from layouts import encode, text_of
from scripts_by_chance import deep_script, flow_script, lock_script, removal_script, script, slot_script
from transcripts_by_chance import script_transcript, wild_transcript


def base_script(rng, form, length=None):
    """Returns a sound script."""
    if form == 4:
        return with_conditions(rng, base_script(rng, 2, length))
    x = rng.random()
    if form == 2 and x < .35:
        return slot_script(rng)
    if x < .6:
        return flow_script(rng, form)
    if x < .64:
        return deep_script(rng, form)
    if x < .67:
        return lock_script(rng, form)
    if x < .75:
        return removal_script(rng, form)
    return script(rng, form, length)


WEIGHTS = [('sound', 22), ('near', 26), ('broken', 6), ('workers', 6), ('alone', 4), ('race', 3), ('transcript', 5),
           ('wild', 12),
           ('nearly', 26)]


def make(kind, rng, form):
    """Returns the words for the program and a text of this kind, in form 1, 2 or 4. A transcript is of form 1 or 2."""
    wild = rng.random() < .3
    if kind in ('sound', 'near', 'broken', 'workers'):
        s = base_script(rng, form, None if kind == 'sound' else rng.choice([5, 10, 20]))
        words = ['run']
        if kind == 'near':
            s = wrong_condition(rng, s) if form == 4 and rng.random() < .5 else near_script(rng, s)
        if kind == 'workers':
            words = ['run', '--workers', str(rng.choice([2, 2, 3, 4, 64]))]
            x = rng.random()
            if x < .5 and form != 1 and s['seats'] > 1:
                for _ in range(rng.choice([1, 2])):
                    seat = rng.randrange(s['seats'])
                    s['steps'].insert(rng.randint(0, len(s['steps'])), {'seat': seat, 'do': 'hand', 'lock': 0, 'tag': 1,
                                      'to': rng.choice([k for k in range(s['seats']) if k != seat])})
                if rng.random() < .2:
                    s = near_script(rng, s)
            elif x < .7 and form != 1:
                s['steps'].insert(rng.randint(0, len(s['steps'])), form2_step(rng, s))
            else:
                s = near_script(rng, s)
        text = encode(text_of(s, rng, wild))
        if kind == 'broken':
            text = broken_text(rng, text)
        return words, text
    if kind in ('alone', 'race'):
        n = rng.choice([2, 2, 3])
        first = rng.randrange(n)
        seats = None
        if kind == 'alone':
            def seats(s):
                return [k for k in range(s['seats']) if k % n == first] or list(range(s['seats']))[:1]
        s = slot_script(rng) if kind == 'race' and form != 1 and rng.random() < .7 else \
            script(rng, min(form, 2), rng.choice([10, 25, 40]), seats)
        if kind == 'race':
            s['steps'] = [t for t in s['steps'] if t['do'] != 'hand' or t['seat'] % n == t['to'] % n]
        if form == 4:
            s = with_conditions(rng, s)
        return ['run', '--workers', str(n)], encode(text_of(s, rng, wild))
    form = min(form, 2)
    if kind == 'transcript':
        lines = script_transcript(rng, form)
        text = b''.join(encode(text_of(l, rng, wild).replace('\n', ' ')) + b'\n' for l in lines)
        return ['check'], text
    lines = wild_transcript(rng, form) if kind == 'wild' or rng.random() < .5 else script_transcript(rng, form)
    if kind == 'wild':
        return ['check'], b''.join(compact(line) + b'\n' for line in lines)
    return ['check'], near_transcript(rng, lines)
