"""The table of `irp`: each of its words, what it does, what runs it, and what it takes. Help, manual pages and the
completions of shells come from it."""

import argparse
import os
import re
import sys
from collections import namedtuple

TOP = os.path.dirname(os.path.dirname(os.path.realpath(__file__)))
sys.path.append(TOP + "/drivers")
import usage  # noqa: E402 (the path is set above)

# A word of irp. `runs` is the program from the top folder, with its first words, that gets the others; it is none where
# bin/irp does the work itself. `takes` adds what parser_of takes; it is none where the program takes its words itself.
# `first` has what may stand first behind the word, where that is no file.
Word = namedtuple("Word", "name does runs takes first", defaults=((),))
TASKS = ("json", "words", "faults", "tables")

VIEWED = "exit status: 0 done; 1 the transcript is refused; 3 out of memory; 4 other words; 5 input or output failed;\n" \
    "6 the program can't be built"
DRIVEN = "Of a run of drivers in C it shows drivers, functions and lines, too, from FILE.places beside FILE. What comes\n" \
    "from there stands in brackets: it is the host's word, and nobody judged it."
# Behind the sentence of each word: more of what it does, examples, and the exit status.
TOLD = {
    "why": ("Tells the first entry that the manager can't have made, in which part it differs from the manager's own, and\n"
            "which rule of docs/RULES.md it breaks; or that nothing is wrong.\n\n" + DRIVEN,
            """examples:
  irp why my.transcript
  irp demo | irp why

exit status: 0 nothing is wrong; 1 the transcript is refused; 2 an entry is wrong; 3 out of memory; 4 other words;
5 input or output failed; 6 the program can't be built"""),
    "text": ("Prints the history, a block of lines for each entry, and the steps on remove locks and cancel slots.\n\n" + DRIVEN,
             "examples:\n  irp text my.transcript\n  irp text --entries 10..20 my.transcript\n\n" + VIEWED),
    "page": ("Writes an HTML page: whether all is right, what happened at a glance, the faults, devices and packets, and each\n"
             "entry with a picture of its packet's way and its stack locations.\n\n"
             "Of a script's run it takes names from FILE.words, where that stands beside FILE.transcript. Of a run of drivers\n"
             "in C it shows names, lines, threads and faults, too, from FILE.places beside FILE: they are the host's word, and\n"
             "nobody judged it.\n\n"
             "In a browser the arrows step from moment to moment; page.html#step=e13-1 is one moment in large type: the first\n"
             "answer in entry 13.",
             "examples:\n  irp page my.transcript -o page.html\n  irp page --packet 0.1 my.transcript > page.html\n\n" + VIEWED),
    "packet": ("Prints only the entries that name this use of a packet, such as 0.1, the first use of slot 0.\n\n" + DRIVEN,
               """examples:
  irp packet 0.1 my.transcript
  irp packet 0.1 --entries 10..20 my.transcript
  irp packet 0.1 --mermaid my.transcript > way.mmd

exit status: 0 done; 1 the transcript is refused; 2 no entry names the packet; 3 out of memory; 4 other words; 5 input or
output failed; 6 the program can't be built"""),
    "story": ("Tells the history to a program that draws it, in lines of JSON.\n\n"
              "They have the header; for each entry whether it is legal, where its packet is then, and that packet's\n"
              "locations and flags in the manager's state; each step on a remove lock or a cancel slot; and the verdict.\n"
              "docs/FORMATS.md has the keys.",
              "examples:\n  irp story my.transcript\n  irp demo | irp story\n\n" + VIEWED),
    "words": ("Takes scripts as people write them: a step a line, with names, comments and hexadecimal numbers.\n\n"
              "  json    prints the JSON of a script in words\n"
              "  words   prints a script of JSON in words, with made-up names\n"
              "  faults  prints what is wrong with a script in words or in JSON, each with its line and column; where\n"
              "          nothing is wrong, warnings of what is hardly meant\n"
              "  tables  prints the names of steps, refusals, statuses and codes as JSON",
              """examples:
  irp words faults my.words
  irp words words examples/recipes/a_cancel_race.script > race.words

exit status: 0 done (faults: nothing is wrong); 1 the script has faults; 2 faults --strict: there is a warning; 3 out of
memory; 4 other words; 5 input or output failed; 6 the program can't be built"""),
    "orders": ("Tries every order in which the seats of a script can make their steps, and tells how they end. A file whose\n"
               "name ends with .words holds words. Without --show, --never and --right it prints a table of the outcomes, the\n"
               "most frequent first.\n\n"
               "A condition joins facts by and, or, not and parentheses. made(7), deleted(0), live(a), cancel(a) and\n"
               "removing(lock 0) are true or false; owner(a), status(a), information(a), current(a), held(lock 0) and\n"
               "reply(7) are compared by ==, !=, <, <=, > or >=. A packet is named by its label, a step by its place among\n"
               "the script's steps, from 0.",
               """examples:
  irp orders examples/recipes/a_cancel_race.script
  irp orders --show 2 examples/recipes/a_cancel_race.script | irp text
  irp orders --never 'live(a) and owner(a) != ended' my.script
  irp orders --right my.words

exit status: 0 done (--never: it never holds; --right: every order is right); 1 the script is refused; 2 --never: it holds
in an order, --right: one isn't right; 3 out of memory, or a bound is met; 4 other words; 5 input or output failed; 6 the
program can't be built"""),
    "live": ("Answers each line of standard input by a line, at once.\n\n"
             "  a transcript's header, first  null\n"
             "  {\"would\":CALL}                the refusal that the call would get now, or null\n"
             "  {\"look\":[SLOT,USE]}           what a Look would be replied with, or the refusal\n"
             "  an entry                      null if it is legal, or what is wrong with it\n"
             "  {\"end\":true}, or the end      legal N or illegal I, as irpx check tells it\n\n"
             "CALL and entries are those of a transcript (docs/FORMATS.md).",
             """example:
  (head -n 1 my.transcript; echo '{"would":{"do":"allocate","size":17}}') | irp live

exit status: 0 legal; 1 no header; 2 illegal; 3 out of memory; 4 other words; 5 input or output failed; 6 the program
can't be built"""),
}


def span(text):
    """Takes which entries are chosen: A..B, where either may be left out."""
    found = re.fullmatch(r"(\d*)\.\.(\d*)", text, re.ASCII)
    if found and (not found[1] or not found[2] or int(found[1]) <= int(found[2])):
        return text
    raise argparse.ArgumentTypeError(f"{text}: A..B is wanted, such as 10..20, 10.. or ..20")


def packet(text):
    """Takes a use of a packet, as messages tell it."""
    if re.fullmatch(r"\d{1,18}\.\d{1,18}", text, re.ASCII):
        return text
    raise argparse.ArgumentTypeError(f"{text}: a packet is wanted: SLOT.USE, such as 0.1")


def add_entries(taken):
    taken.add_argument("--entries", type=span, metavar="A..B",
                       help="only the entries from number A up to, and without, B; either may be left out")


def add_file(taken, what="the transcript"):
    taken.add_argument("file", nargs="?", metavar="FILE", help=f"{what}; standard input where it is - or left out")


def take_why(taken):
    add_file(taken)


def take_story(taken):
    add_file(taken)


def take_text(taken):
    add_entries(taken)
    add_file(taken)


def take_page(taken):
    add_entries(taken)
    taken.add_argument("--packet", type=packet, metavar="SLOT.USE", help="only the entries that name this use of a packet")
    taken.add_argument("--names", metavar="SCRIPT", help="the script that was run, for its names")
    taken.add_argument("--title", metavar="TEXT", help="the page's title, instead of the transcript's name")
    taken.add_argument("-o", "--out", type=usage.new_file, metavar="PAGE", help="where the page goes, instead of standard output")
    add_file(taken)


def take_packet(taken):
    taken.add_argument("packet", type=packet, metavar="SLOT.USE", help="the use of a packet; SLOT USE is taken as well")
    taken.add_argument("--mermaid", action="store_true", help="its way as a sequence diagram in mermaid's language")
    add_entries(taken)
    add_file(taken)


def take_words(taken):
    taken.add_argument("task", choices=TASKS, metavar="json|words|faults|tables",
                       help="what is to be printed")
    taken.add_argument("--strict", action="store_true", help="faults: end with status 2 where there is a warning")
    add_file(taken, "the script")


def take_orders(taken):
    taken.add_argument("--show", type=usage.number(1), metavar="K", help="print a transcript that leads to outcome K")
    taken.add_argument("--write", metavar="FOLDER", help="write the table and a transcript for each outcome there")
    taken.add_argument("--never", metavar="CONDITION", help="tell whether no order ends so; where one does, show it")
    taken.add_argument("--right", action="store_true",
                       help="tell whether every order ends right: no step is refused, no device still has a packet, no "
                            "remove lock is held, no cancel slot is full, no cancel routine is left; else show one that doesn't")
    taken.add_argument("--ends", action="store_true", help="join outcomes that end alike, whatever was replied")
    taken.add_argument("--groups", action="store_true", help="join outcomes that differ in the numbers of packets alone")
    taken.add_argument("--states", type=usage.number(1), metavar="N", help="at most N states side by side (500,000)")
    taken.add_argument("--outcomes", type=usage.number(1), metavar="N", help="at most N outcomes (20,000)")
    add_file(taken, "the script, in JSON or in words")


def take_nothing(_):
    pass


WORDS = (
    Word("run", "run a script, in JSON or in words, and print its transcript", ("bin/irp_run", "run"), None),
    Word("check", "judge a transcript", ("bin/irp_run", "check"), None),
    Word("demo", "print the transcript of a small script", ("bin/irp_run", "demo"), None),
    Word("why", "tell why a transcript isn't legal", ("page/list", "why"), take_why),
    Word("text", "print a transcript as text", ("page/list", "text"), take_text),
    Word("page", "draw a transcript as a page", ("page/draw",), take_page),
    Word("packet", "print the way of one packet", ("page/list", "packet"), take_packet),
    Word("story", "tell a transcript to a program that draws it", ("bin/irp_view", "story"), take_story),
    Word("words", "turn a script in words into JSON and back, and find its faults", ("bin/irp_words",), take_words, TASKS),
    Word("orders", "tell how each order of a script's steps ends", ("bin/irp_orders",), take_orders),
    Word("live", "answer calls over two pipes", ("bin/irp_live",), take_nothing),
    Word("drive", "run drivers in C, and have what they did judged", ("drivers/run",), None),
    Word("play", "play scripts on an I/O manager, and compare", ("tests/player/play",), None),
    Word("lesson", "say whether your file for a lesson is right", ("lessons/check",), None,
         tuple(map(str, range(1, 16)))),
    Word("grade", "grade a class, each file in a sandbox", ("lessons/grade",), None),
    Word("slides", "write slides of the lessons", ("lessons/slides",), None),
    Word("man", "show the manual page of irp, or of one of its words", ("bin/man",), None),
    Word("completions", "print what lets bash or zsh complete these words", ("bin/completions",), None,
         ("bash", "zsh")),
    Word("version", "print the commit, the toolchain, and which programs are proved", None, None),
    Word("help", "print this; `irp WORD --help` prints that word's help", None, None),
)
NAMED = {it.name: it for it in WORDS}


def parser_of(word):
    """Returns what takes a word's words, for one that has `takes`."""
    told, epilog = TOLD[word.name]
    parser = usage.Words(prog=f"irp {word.name}", description=told, epilog=epilog)
    word.takes(parser)
    return parser


def joined(words, is_first):
    """Returns words in which a packet that is written SLOT USE is SLOT.USE: behind --packet, or where `is_first` says so as
    the first word that is no flag's."""
    made = []
    for it in words:
        before = made[-2:-1]
        is_open = made[-1:] and made[-1].isdigit() and (before == ["--packet"] or is_first and before != ["--entries"])
        if is_open and it.isdigit():
            made[-1] += f".{it}"
            is_first = is_first and before == ["--packet"]
        else:
            made.append(it)
    return made


def handed_on(word, words):
    """Returns a word's words as its program takes them, and the name of the file among them, or None. Words that aren't
    taken are told, and end the process."""
    parser = parser_of(word)
    asked = vars(parser.parse_intermixed_args(joined(words, word.name == "packet")))
    file, task, one = asked.pop("file", None), asked.pop("task", None), None
    if word.name == "packet":
        one = asked.pop("packet")
    if task == "tables" and (file or asked["strict"]):
        parser.error(f"{file or '--strict'}: tables takes no further word")
    flags = []
    for name, value in asked.items():
        if value is not None and value is not False:
            flags += [f"--{name}", *([] if value is True else [str(value)])]
    file = None if file == "-" else file
    return [*([task] if task else []), *(one.split(".") if one else []), *flags, *([file] if file else [])], file
