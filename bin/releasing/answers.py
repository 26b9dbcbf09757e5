"""What students don't get: the lessons' answers, and notes for teachers, as an archive of its own."""

import json
import sys

import repository
from packing import File
from repository import TOP, bytes_of

WHYS = "lessons/whys.json"  # why each answer is right, which students read once theirs is


def is_answer(path):
    """Whether a file of the repository is for teachers alone."""
    return path.startswith("lessons/") and "/answer/" in path or path == "lessons/teaching/notes.py"


def teaching():
    """Returns the modules that read the lessons."""
    for it in ("lessons/teaching", "lessons/checking"):
        if f"{TOP}/{it}" not in sys.path:
            sys.path.append(f"{TOP}/{it}")
    import notes  # Its folder is set above.
    import plans
    import texts

    return notes, plans, texts


def whys():
    """Returns the file that says why each lesson's answer is right."""
    _, plans, texts = teaching()
    return File(json.dumps({str(it): texts.why_of(it) for it in sorted(plans.LESSONS)}, indent=1).encode() + b"\n")


def made():
    """Returns the tree of the archive."""
    tree = {path: File(bytes_of(path)) for path in repository.files() if path.startswith("lessons/") and "/answer/" in path}
    tree["notes.html"] = File(teaching()[0].page().encode())
    return dict(sorted(tree.items()))
