"""What a class handed in: a folder a student, and there a file for each lesson, whose name begins with the lesson's number."""

import os
import re
import stat
from collections import namedtuple

import plans

MOST_BYTES = 1 << 20
ENDINGS = {plans.HISTORY: (".transcript", ".json", ".txt"), plans.PROTOCOL: (".words", ".txt")}
# A student's folder: the files to be graded by their lessons, and what isn't graded, with the reason.
Student = namedtuple("Student", "name files others")


def lesson_of(name):
    """Returns the lesson that a name begins with, such as 2.c, 02_pending or lesson2_mine.c, or None."""
    found = re.match(r"(?:lesson|l)?[ _-]?0*(\d{1,2})(?!\d)", name, re.IGNORECASE)
    return int(found[1]) if found and int(found[1]) in plans.LESSONS else None


def why_not(path, number):
    """Returns why a file isn't graded, or None."""
    about = os.lstat(path)
    if not stat.S_ISREG(about.st_mode):
        return "it is no file"
    if about.st_size > MOST_BYTES:
        return "it has more than a megabyte"
    if not path.endswith(ENDINGS.get(number, ".c")):
        return f"a file {ENDINGS.get(number, ('.c',))[0]} is wanted for lesson {number}"
    return None


def handed_in(folder):
    """Returns what may be graded below a student's folder: of each path its lesson, or None."""
    for name in sorted(os.listdir(folder)):
        path, number = f"{folder}/{name}", lesson_of(name)
        if number and os.path.isdir(path) and not os.path.islink(path):
            yield from ((f"{path}/{it}", number) for it in sorted(os.listdir(path)) if not it.startswith("."))
        elif not name.startswith("."):
            yield path, number


def student_of(folder):
    """Returns what a student handed in. Of several files for one lesson the first one counts."""
    files, others = {}, {}
    for path, number in handed_in(folder):
        short = os.path.relpath(path, folder)
        why = why_not(path, number) if number else "its name begins with no lesson's number"
        if why is None and number in files:
            why = f"{os.path.relpath(files[number], folder)} is graded for lesson {number}"
        if why is None:
            files[number] = path
        else:
            others[short] = why
    return Student(os.path.basename(folder), files, others)


def class_of(folder):
    """Returns the students of a class, by their names."""
    found = (f"{folder}/{it}" for it in sorted(os.listdir(folder)) if not it.startswith("."))
    return [student_of(it) for it in found if os.path.isdir(it) and not os.path.islink(it)]
