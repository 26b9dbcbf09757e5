#!/usr/bin/env python3
"""Tries schema/script.schema.json: each script of examples/ is valid, and so is each text of refused/scripts.txt that
`irpx run` takes, and each script of form 4 of second_reading/conditions_by_hand.py that the second reading takes. Of the
refused ones the schema sees all but those that no schema can see, which are counted here by their fault: numbers against
other numbers (a seat of a step below `seats`, a slot of another seat, a condition on a later step), 1.0 for 1, a key that
stands twice, labels that are too many. Needs the Python package jsonschema.
"""
import collections
import json
import os
import sys

from jsonschema import Draft202012Validator

TOP = os.path.dirname(os.path.dirname(os.path.realpath(__file__)))
sys.path.append(os.path.join(TOP, 'tests', 'second_reading'))

import conditions_by_hand  # noqa: E402
from running import run  # noqa: E402

# What is refused and valid, by the fault's number.
UNSEEN = {'S3': 1, 'S4': 57, 'S6': 7, 'S7': 2}


def scripts():
    """Returns the path of each script of the examples."""
    for folder, _, names in os.walk(os.path.join(TOP, 'examples')):
        yield from (os.path.join(folder, name) for name in sorted(names) if name.endswith('.script'))


def texts():
    """Returns what is told of each text of refused/scripts.txt, and the text."""
    with open(os.path.join(TOP, 'tests', 'refused', 'scripts.txt'), 'rb') as file:
        lines = [line for line in file.read().split(b'\n') if not line.startswith(b'#')]
    return [(told.decode(), text) for told, text in zip(lines[0::2], lines[1::2]) if told]


def texts_of_form_4():
    """Returns what is told of each script of form 4 that was written by hand, and the text."""
    for _, text in conditions_by_hand.cases():
        what, told = run(text)
        yield 'taken' if what == 'ok' else told, text


def value_of(text):
    """Returns the value of a text that is JSON, in a list, else an empty list."""
    try:
        return [json.loads(text.decode('utf-8'))]
    except (ValueError, RecursionError):
        return []


def main():
    with open(os.path.join(TOP, 'schema', 'script.schema.json'), encoding='utf-8') as file:
        schema = json.load(file)
    Draft202012Validator.check_schema(schema)
    validator = Draft202012Validator(schema)
    wrong = tried = 0
    for path in scripts():
        tried += 1
        with open(path, encoding='utf-8') as file:
            if not validator.is_valid(json.load(file)):
                wrong += 1
                print('failed: not valid:', os.path.relpath(path, TOP))
    unseen = collections.Counter()
    for told, text in [*texts(), *texts_of_form_4()]:
        tried += 1
        valid = any(validator.is_valid(value) for value in value_of(text))
        if told == 'taken' and not valid:
            wrong += 1
            print('failed: taken, and not valid:', text[:100])
        if told != 'taken' and valid:
            unseen[told.split()[0]] += 1
    if dict(unseen) != UNSEEN:
        wrong += 1
        print('failed: refused and valid:', dict(unseen), 'in place of', UNSEEN)
    print('tried:', tried, wrong, 'texts by the schema of scripts')
    return 1 if wrong else 0


sys.exit(main())
