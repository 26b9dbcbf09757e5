"""What a program can't do yet, found by a small try."""

import subprocess

SMALL = (b'{"form":4,"seats":1,"locks":1,"slots":0,"completions":[],"cancels":[],"dispatches":[],"drivers":[],"setup":[],'
         b'"steps":[]}')


def takes_form_4(*words):
    """Returns whether a program, started with these words, takes scripts of form 4."""
    return subprocess.run(words, input=SMALL, capture_output=True).returncode == 0
