"""Reads scripts, in JSON or in words, and makes what can be played of them."""

import json
import os
import subprocess

from playable import Playable, Unplayable
from running import program


class Script:
    """A script of a file: its name, and what is played of it."""

    def __init__(self, name, script, model):
        self.name, self.script = name, script
        lines, wrong = model.run(script)
        if wrong:
            raise Unplayable(wrong)
        self.playable = Playable(script, lines)
        self.feed = self.playable.feed()


def in_words(text):
    return not text.lstrip().startswith("{")


def as_json(path):
    """Returns the script of a file. Words become JSON by irp_words."""
    with open(path, encoding="utf-8") as it:
        text = it.read()
    if in_words(text):
        words = os.environ.get("IRP_WORDS") or program("irp_words")
        made = subprocess.run([words, "json", path], capture_output=True, text=True, check=False)
        if made.returncode:
            raise Unplayable(made.stderr.strip() or "irp words refuses it")
        text = made.stdout
    try:
        return json.loads(text)
    except ValueError as why:
        raise Unplayable(f"no JSON: {why}") from why


def read(path, model):
    return Script(path, as_json(path), model)
