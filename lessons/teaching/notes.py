"""Writes notes for teachers: of each lesson its answer, why that is right, each question with its page and remedy, and wrong
answers that students hand in; what each week's question wants, and the examination's tasks. No package for students has this."""

import difflib
import html
import os
import re

import hints
import plans
import texts

ANSWERS = os.path.dirname(texts.LESSONS) + "/tests/lessons"
# What the examination of COURSE.md wants, task by task.
EXAMINATION = (
    "The write takes the last entry of the list, in place of the first, and goes on with the one before it where "
    "IoSetCancelRoutine returns NULL. The cancel routine stays as it is. A read may wait for ever: ask who notices.",
    "A read that waits keeps its reference, and has a cancel routine. Whoever ends it gives the reference back: the completion "
    "routine, once it was sent down at D0; the cancel routine; and the removal, which ends all that wait before it calls "
    "IoReleaseRemoveLockAndWait, since that waits for them.",
    "As the answer of lesson 9 says: the cancel comes between the two lines that lesson 9 asks for. Let students write one line a "
    "step, and the packet's owner beside each.",
)
# What each week of COURSE.md asks in the class, week by week.
ASKED = (
    "Whoever sent the packet waits, for an event that the end of its way up sets. Only IoCompleteRequest leads there.",
    "The I/O manager: on the way up it copies each location's mark into PendingReturned, which the routine above reads, and at the "
    "top itself.",
    "The driver's below, whatever the call returned. It comes back where your routine returns STATUS_MORE_PROCESSING_REQUIRED.",
    "Those below start first. On a removal those above stop first.",
    "Before the dispatch runs, and between any two of its lines.",
    "No request of its own that waits: IRP_MJ_CLEANUP ends these. The file stays while others have a reference, until IRP_MJ_CLOSE.",
    "Each acquire that succeeded has been released: no request is under way any more.",
    "Nobody, unless the wait's time is zero: nothing else would run on that processor.",
    "One with more preemptions than the bound, or in which threads change places between two accesses that don't race.",
    "What happens in an order, or for an input, that it didn't run.",
)
STYLE = """body { font: 16px/1.45 sans-serif; max-width: 60em; margin: 2em auto; padding: 0 1em; }
pre { background: #f4f4f4; padding: .6em; overflow: auto; font-size: 13px; }
h2 { margin-top: 2.2em; } table { border-collapse: collapse; } td, th { border: 1px solid #999; padding: .2em .5em; text-align: left; }
@media print { pre { white-space: pre-wrap; } h2 { break-before: page; } }"""


def difference(number):
    """Returns what a lesson's answer has otherwise, line by line."""
    own, answer = (texts.text_of(it).splitlines() for it in texts.files_of(number))
    lines = list(difflib.unified_diff(own, answer, lineterm="", n=2))[3:]
    return "\n".join(it for it in lines if not it.startswith("@@") and not re.match(r"\+ \*|[+-]/\*", it))


def wrong_answers(number):
    """Returns the names of wrong answers that were tried, as sentences."""
    path = f"{ANSWERS}/{number:02}.answers"
    found = re.findall(r"(?m)^==\*? wrong (\w+)", texts.text_of(path)) if os.path.exists(path) else []
    return [it.replace("_", " ") for it in found]


def of_lesson(number):
    """Returns the notes of a lesson."""
    rows = "".join(f"<tr><td>{html.escape(it.question)}</td><td>{html.escape(it.page)}</td><td>{html.escape(it.remedy)}</td></tr>"
                   for it in hints.HINTS_OF.get(number, []))
    table = f"<table><tr><th>Question</th><th>Page</th><th>Remedy</th></tr>{rows}</table>" if rows else ""
    wrong = "".join(f"<li>{html.escape(it)}</li>" for it in wrong_answers(number))
    return (f"<h2>Lesson {html.escape(texts.title_of(number))}</h2><p>{html.escape(texts.why_of(number))}</p>"
            f"<pre>{html.escape(difference(number))}</pre>{table}" + (f"<p>Wrong answers that were tried:</p><ul>{wrong}</ul>" if wrong else ""))


def page():
    """Returns the page."""
    tasks, weeks = ("".join(f"<li>{html.escape(it)}</li>" for it in its) for its in (EXAMINATION, ASKED))
    return ('<!DOCTYPE html>\n<html lang="en"><head><meta charset="utf-8"><title>Notes for teachers</title>'
            f"<style>{STYLE}</style></head>\n<body><h1>Notes for teachers</h1>\n<h2>What COURSE.md asks, week by week</h2><ol>{weeks}</ol>\n"
            f"<h2>The examination of COURSE.md</h2><ol>{tasks}</ol>\n"
            + "\n".join(map(of_lesson, sorted(plans.LESSONS))) + "\n</body></html>\n")
