"""Judges the transcript of a run whose steps fall to several workers: any order of them may show."""

import collections

from conditions_of_steps import heard_in
from json_texts import compact, read_json
from running import Runner
from scripts import read_script
from small_forms import Shape
from transcripts import check


def races(text, words):
    """Returns whether the steps fall to more than one worker."""
    workers = int(words[-1].split('=')[-1])
    return len({s['seat'] % workers for s in read_script(text, workers).steps}) > 1


def used_of(script, word):
    """Returns whether a publication was surely not of use 0. Where labels race that is not known of a label."""
    return type(script.steps[word['step']]['irp']) is not str and script.steps[word['step']]['irp'][1] != 0


def raced(text, workers, out):
    """Returns what is wrong with the output of a run whose workers race, or None."""
    script = read_script(text, workers)
    verdict = check(out)
    lines = [read_json(l) for l in out.split(b'\n')[:-1]]
    if not verdict.startswith('legal'):
        return 'the model judges ' + verdict
    if compact(lines[0]) != compact(Runner(script).header()):
        return 'header'
    if b''.join(compact(l) + b'\n' for l in lines) != out:
        return 'not compact'
    entries = [l for l in lines[1:] if 'call' in l]
    words = [l for l in lines[1:] if 'call' not in l]
    if [(w['seat'], w['step']) for w in words] != sorted((w['seat'], w['step']) for w in words):
        return 'word lines out of order'
    if [(s['seat'], s['do']) for s in script.setup] != [(e['seat'], e['call']['do']) for e in entries[:len(script.setup)]]:
        return 'the calls of setup'
    try:
        heard_in(script, lines[1:])
    except Shape:
        return 'the lines of other steps'
    tokens = collections.defaultdict(list)
    for slot in range(script.slots):
        here = [w for w in words if w.get('slot') == slot]
        takes = [w for w in here if type(w['reply']) is dict]
        published = [w for w in here if w['do'] == 'publish' and w['reply'] != 'used']
        if len(takes) > 1 or len(published) > 1 or (takes and not published):
            return 'slot %d is taken twice, or without a publication' % slot
        lost = [w for w in here if w['reply'] == 'lost']
        if len(lost) > 1 or (lost and takes and takes[0]['do'] != 'request'):
            return 'slot %d is lost, and not to a request' % slot
        if published and published[0]['reply'] == 'standing' and not takes and any(w['do'] == 'request' for w in here) \
                and used_of(script, published[0]):
            # it stood, so its flag was clear then: a request after it finds it or somebody else took it
            return 'slot %d overlooks a request' % slot
        for w in takes:
            tokens[w['seat'], slot].append(w['reply']['taken'])
    for e in entries:
        if e['call']['do'] == 'finish_taken' and not any(k[0] == e['seat'] and e['call']['token'] in v for k,
                                                         v in tokens.items()):
            return 'a token from nowhere in entry %d' % e['n']
    return None
