"""What students might hand in: files `NN.answers`, each answer as the lesson's own with texts replaced.

An answer begins with `== right NAME` or `== wrong NAME`, or with `==* ..` where the gate tries it too. Behind a wrong one's name
may stand, behind a colon, a text that `lessons/check` has to print of it. Each replacement stands between `<<<<`, `====` and `>>>>`:
the old text, which the answer has exactly once at least, and the new one, for its first place."""

import collections
import os
import re

HERE = os.path.dirname(os.path.abspath(__file__))
LESSONS = os.path.dirname(os.path.dirname(HERE)) + "/lessons"
Answer = collections.namedtuple("Answer", "number name is_right is_telling told text ending")
# Lessons whose own answer the gate tries: the others take long.
QUICK = {1, 3, 4, 5, 10, 13, 14, 15}


def own_files(number):
    """Returns the texts of a lesson's file and of its answer, and the ending of their names."""
    folder = next(it for it in sorted(os.listdir(LESSONS)) if it.startswith(f"{number:02}_"))
    name = next(it for it in sorted(os.listdir(f"{LESSONS}/{folder}/answer")) if not it.endswith(".md"))
    texts = []
    for path in (name, f"answer/{name}"):
        with open(f"{LESSONS}/{folder}/{path}", encoding="utf-8") as it:
            texts.append(it.read())
    return *texts, name.split(".")[-1]


def changed(text, body, name):
    """Returns a text with the replacements that a body lists."""
    for old, new in re.findall(r"(?ms)^<<<<\n(.*?)^====\n(.*?)^>>>>$", body):
        is_whole = old.endswith("\n") and (text.startswith(old) or "\n" + old in text)
        old, new = (old, new) if is_whole else (old.rstrip("\n"), new.rstrip("\n"))
        if old not in text:
            raise ValueError(f"{name}: the answer hasn't: {old}")
        text = text.replace(old, new, 1)
    return text


def answers_of(number):
    """Returns what is handed in for a lesson: its own file, its answer, and those of the file of answers, in their order."""
    given, base, ending = own_files(number)
    found = [Answer(number, "the_lesson_s_own_file", False, True, None, given, ending),
             Answer(number, "the_answer", True, number in QUICK, None, base, ending)]
    path = f"{HERE}/{number:02}.answers"
    if not os.path.exists(path):
        return found
    with open(path, encoding="utf-8") as it:
        parts = re.split(r"(?m)^==(\*?) (right|wrong) (\w+)(?:: (.*))?\n", it.read())
    for star, kind, name, told, body in zip(*(iter(parts[1:]),) * 5):
        text = changed(base, body, f"{number:02} {name}")
        found.append(Answer(number, name, kind == "right", bool(star), told, text, ending))
    return found


def all_answers():
    """Returns what is handed in for all lessons."""
    numbers = sorted(int(it[:2]) for it in os.listdir(LESSONS) if re.match(r"\d\d_", it))
    return [it for number in numbers for it in answers_of(number)]
