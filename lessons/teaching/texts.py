"""Reads what lessons have: their pages, as HTML, and the functions of a driver that the answer changes."""

import difflib
import html
import os
import re

import plans

LESSONS = os.path.dirname(os.path.dirname(os.path.abspath(__file__)))


def text_of(path):
    with open(path, encoding="utf-8") as it:
        return it.read()


def folder_of(number):
    return f"{LESSONS}/{plans.LESSONS[number]}"


def files_of(number):
    """Returns the paths of a lesson's file and of its answer."""
    name = plans.FILES.get(number, "driver.c")
    return f"{folder_of(number)}/{name}", f"{folder_of(number)}/answer/{name}"


def inline(text):
    """Returns a paragraph of a page as HTML: its links are words alone."""
    text = html.escape(" ".join(text.split()), quote=False)
    text = re.sub(r"\[([^\]]*)\]\([^)]*\)", r"\1", text)
    text = re.sub(r"`([^`]*)`", r"<code>\1</code>", text)
    return re.sub(r"\*([^*]+)\*", r"<em>\1</em>", re.sub(r"\*\*([^*]+)\*\*", r"<b>\1</b>", text))


def title_of(number):
    return text_of(folder_of(number) + "/README.md").partition("\n")[0].lstrip("# ")


def parts_of(number):
    """Returns the paragraphs of a lesson's page as HTML: before its command, the command, the question, and those behind it."""
    before, command, behind = re.match(r"# .*?\n\n(.*?)\n```\n\$ (.*?)\n```\n\n(.*)", text_of(folder_of(number) + "/README.md"),
                                       re.DOTALL).groups()
    question, *more = behind.strip().split("\n\n")
    return [inline(it) for it in before.strip().split("\n\n")], command, inline(question), [inline(it) for it in more]


def why_of(number):
    """Returns why a lesson's answer is right."""
    answer = files_of(number)[1]
    if number in plans.FILES:
        return text_of(os.path.dirname(answer) + "/README.md").strip()
    return re.sub(r"\n \* ", "\n", re.search(r" \* Why\. (.*?) \*/", text_of(answer), re.DOTALL)[1])


def functions_of(lines):
    """Returns the functions of a file in C, each as the numbers of its first line and of the one behind its last."""
    found, first = [], None
    for at, line in enumerate(lines):
        if first is None and re.match(r"(static |NTSTATUS |VOID )[^;=]*\(", line):
            first = at
        if first is not None and (line == "}" or at == first and line.endswith("}")):
            found.append((first, at + 1))
            first = None
    return found


def changed(number):
    """Returns the numbers of lines of a lesson's file that its answer has otherwise, or that stand before what it adds."""
    if not os.path.exists(files_of(number)[1]):
        return set()
    own, answer = (text_of(it).splitlines() for it in files_of(number))
    steps = difflib.SequenceMatcher(None, own, answer, autojunk=False).get_opcodes()
    return {at for kind, low, high, *_ in steps if kind != "equal" for at in range(low, max(high, low + 1))}


def excerpt(number):
    """Returns the functions of a lesson's file that its answer changes, or all of it where there are none, or no answer."""
    lines, at = text_of(files_of(number)[0]).splitlines(), changed(number)
    chosen = [lines[low:high] for low, high in functions_of(lines) if at & set(range(low, high))]
    return "\n\n".join("\n".join(it) for it in chosen) or "\n".join(lines)
