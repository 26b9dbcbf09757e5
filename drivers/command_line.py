"""What `irp drive` takes: its flags in groups, and its help."""

import argparse
import os
import re
import shlex
import sys

import orders
import usage
import verifying
from building import stem

DESCRIPTION = """Builds drivers in C with the host, runs a test of them, and has what happened judged.

A FILE.c that defines DriverEntry is a driver. Drivers stand on each other in the order in which you name them, the first
one lowest. In a FOLDER all files count, in the order of their names; where one of them alone defines DriverEntry, they
are one driver. It links each driver by itself, so its globals don't meet those of another one.

A file with `main`, or with tests by WDM_TEST(NAME), is the test (include/wdm_test.h has what it calls). Where there is
none, the host's own test runs: it starts the stack over bottom devices, sends and cancels requests, and removes it.

What is built goes below drivers/out, or the folder that WDM_OUT names, in a folder that has the name of the first FILE and
of its folder. A run of the same name waits for another one there. Where `run` is installed, or may not write beside itself,
that is below $XDG_CACHE_HOME/irp."""

EPILOG = """examples:
  irp drive mydriver.c                         one driver, tested by the host
  irp drive bus.c toaster.c filter.c           three, stacked in this order
  irp drive --threads 4 --seeds 1..20 folder   twenty runs, whose threads mix differently
  irp drive --shake 7 folder                   the run with seed 7 again
  irp drive --verify mydriver.c                many runs: each allocation refused, each request cancelled at each call, ..
  irp drive --cancel-everywhere mydriver.c     a part of it
  irp drive --junit out.xml mydriver.c test.c  the tests that test.c has by WDM_TEST(NAME), each alone
  irp drive bus.c --on Port filter.c           filter.c goes onto each child of the bus whose id has "Port" in it
  irp drive --page out.html folder             and a page that shows the history
  irp drive --every-order mydriver.c test.c    every order of the threads' steps with at most two preemptions, or three
  irp drive --every-order --preemptions 3 --minutes 20 mydriver.c test.c
  irp drive --every-order --part 2/8 --result 2.txt mydriver.c test.c   an eighth, on one of eight machines
  irp drive --schedule 'p3830,8=1' mydriver.c test.c   the run that failed there again

exit status: 0 all is well; 1 it isn't; 2 nothing was run: it doesn't build, or can't be judged; 3 nothing is wrong so far,
and --verify or --every-order was stopped before every run was made, or a run reached a limit of the host's; 4 other words;
5 input or output failed"""
# The flags that change what a run does, so that who makes it again needs them.
CHANGING = ("test", "args", "threads", "controls", "sanitize", "page_ends", "routines_high", "one_processor", "refuse", "pend",
            "cancel", "whole", "real", "wine", "points")


# Their values are words for another program, and may begin with a dash.
FOR_OTHERS = ("--cflag", "--args")
SHAPES = {"seeds": (r"\d+\.\.\d+", "A..B is wanted, such as 1..20"),
          "part": (r"\d+/\d+", "I/N is wanted, such as 2/8"),
          "refuse": (r"\d+\+?|s\d+", "N, N+ or sSEED is wanted"),
          "pend": (r"\d+|all", "N or all is wanted"),
          "cancel": (r"\d+@\d+", "K@N is wanted, such as 1@2"),
          "controls": (r"(0x[0-9a-fA-F]+|\d+)(,(0x[0-9a-fA-F]+|\d+))*", "CODE,.. is wanted, such as 0x222000,0x222004")}


class Columns(argparse.RawDescriptionHelpFormatter):
    """Flags in one column, what they do in another."""

    def __init__(self, prog):
        super().__init__(prog, max_help_position=28, width=118)


def shaped(name):
    """Returns what takes the value of a flag that has one of SHAPES."""
    shape, wanted = SHAPES[name]

    def taken(text):
        ends = [int(it) for it in re.split(r"\.\.|/", text) if it.isdigit()] if name in ("seeds", "part") else [0, 0]
        if not re.fullmatch(shape, text, re.ASCII) or ends[0] > ends[1] or name == "part" and ends[0] < 1:
            raise argparse.ArgumentTypeError(f"{text}: {wanted}")
        return text

    return taken


def minutes(text):
    """Takes a time in minutes."""
    if re.fullmatch(r"\d+(\.\d*)?|\.\d+", text, re.ASCII):
        return float(text)
    raise argparse.ArgumentTypeError(f"{text}: a number is wanted")


def add_stack(parser):
    """Adds what says which drivers there are."""
    parser.add_argument("source", nargs="+", metavar="FILE.c|FOLDER", help="drivers, lowest first, and a test")
    group = parser.add_argument_group("the stack")
    group.add_argument("--on", nargs=2, action="append", default=[], metavar=("CHILD", "FILE.c"),
                       help="a driver for each child of a bus whose device id has CHILD in it")
    group.add_argument("--library", action="append", default=[], metavar="FILE.c|FOLDER",
                       help="a driver that exports its globals to the others")
    group.add_argument("--wine", metavar="FOLDER",
                       help="Wine's source: for drivers that use its headers, and get a system buffer whatever their flags say")
    group.add_argument("--missing", action="store_true", help="only list what the sources name and the host hasn't")
    group.add_argument("--cflag", action="append", default=[], metavar="FLAG", help="a flag for the compiler")
    group.add_argument("--cc", default=os.environ.get("CC", "cc"), help="the compiler (cc)")


def add_test(parser):
    """Adds what says what the test does."""
    group = parser.add_argument_group("the test")
    group.add_argument("--test", metavar="NAME", help="one of the tests that a file has by WDM_TEST(NAME)")
    group.add_argument("--args", default="", metavar="WORDS", help="words for the test's main")
    group.add_argument("--threads", type=usage.number(1, 16), metavar="N",
                       help="threads that the host's test sends from (1 to 16)")
    group.add_argument("--controls", type=shaped("controls"), metavar="CODE,..",
                       help="control codes that the host's test sends")
    group.add_argument("--scenario", type=orders.is_scenario, metavar="NAME",
                       help=f"one scenario of the host's test, for --every-order: {', '.join(orders.SCENARIOS)}, or A+B as "
                            "read+0x222000, write+stop")
    group.add_argument("--patience", type=usage.number(1), metavar="S", help="a wait hangs after S quiet seconds (3)")
    group.add_argument("--timeout", type=usage.number(1), default=120, metavar="S",
                       help="end a run after so many seconds (120)")


def add_runs(parser):
    """Adds what says how a run goes."""
    group = parser.add_argument_group("how it runs")
    group.add_argument("--shake", type=usage.number(), metavar="N",
                       help="a seed by which threads take turns; again the same run")
    group.add_argument("--seeds", type=shaped("seeds"), metavar="A..B", help="run once with each seed from A to B")
    group.add_argument("--real", action="store_true", help="real threads, that a seed mixes otherwise each time")
    group.add_argument("--sanitize", choices=["thread", "address"], help="compile with a sanitizer")
    group.add_argument("--page-ends", action="store_const", const=1,
                       help="pool blocks and buffers end at a page's end: an overrun is told at its line")
    group.add_argument("--routines-high", action="store_const", const=1,
                       help="completion routines run at DISPATCH_LEVEL, as they may")
    group.add_argument("--one-processor", action="store_true",
                       help="threads share one processor, on which a deferred call preempts them")
    group.add_argument("--points", type=usage.number(1), metavar="N",
                       help="a run by a schedule isn't tried further after N scheduling points (3,000,000)")
    group.add_argument("--refuse", type=shaped("refuse"), metavar="N|N+|sSEED",
                       help="the N-th allocation of the drivers fails; all from it on; some by a seed")
    group.add_argument("--pend", type=shaped("pend"), metavar="N|all",
                       help="what a driver sends down from the N-th device that was attached comes back later")
    group.add_argument("--cancel", type=shaped("cancel"), metavar="K@N",
                       help="the K-th request is cancelled at its N-th call of a driver")
    group.add_argument("--whole", action="store_const", const=1,
                       help="the host's test as it is without --refuse and --cancel, which make it short")


def add_verify(parser):
    """Adds the plans of many runs."""
    group = parser.add_argument_group("many runs, each of which takes some luck away (VERIFIER.md)")
    group.add_argument("--verify", action="store_true", help="all of these, until --minutes are up")
    for part, what in verifying.PARTS.items():
        group.add_argument(f"--{part.replace('_', '-')}", action="store_true", help=f"of these: {what}")


def add_orders(parser):
    """Adds what every order takes."""
    group = parser.add_argument_group("every order of the threads' steps (EVERY_ORDER.md)")
    group.add_argument("--every-order", action="store_true", help="make every order, within these bounds")
    group.add_argument("--preemptions", type=usage.number(), metavar="N",
                       help="orders with at most N preemptions and early timers (2; 3 if 2 took less than a second)")
    group.add_argument("--minutes", type=minutes, default=5, metavar="M", help="stop after so many minutes in all (5)")
    group.add_argument("--rounds", type=usage.number(1), default=2, metavar="N",
                       help="rounds of the test's loops then (2)")
    group.add_argument("--processes", type=usage.number(1), metavar="N",
                       help="processes side by side (one a processor)")
    group.add_argument("--part", type=shaped("part"), metavar="I/N",
                       help="the I-th of N parts of the orders, for several machines")
    group.add_argument("--result", type=usage.new_file, metavar="FILE",
                       help="what was covered, as lines that merge by `sort -u`")
    group.add_argument("--judge", type=usage.number(), default=0, metavar="N",
                       help="judge at most N distinct transcripts (each)")
    group.add_argument("--schedule", metavar="TEXT", help="the run that has this schedule, as --every-order tells it")


def add_output(parser):
    """Adds what comes out."""
    group = parser.add_argument_group("what comes out")
    group.add_argument("--page", type=usage.new_file, metavar="FILE",
                       help="write a page that shows the history, as irp page draws it")
    group.add_argument("--transcript", type=usage.new_file, metavar="FILE",
                       help="where the transcript goes (else beside the program)")
    group.add_argument("--coverage", action="store_true", help="tell which lines of the drivers never ran (gcc)")
    group.add_argument("--strict", action="store_true",
                       help="a situation of the host's test that wasn't made is a failure")
    group.add_argument("--junit", type=usage.new_file, metavar="FILE",
                       help="write what each run or test gave, for a test server")
    group.add_argument("--json", type=usage.new_file, metavar="FILE",
                       help="write the same, situations and what never ran, for a program")
    group.add_argument("--sarif", type=usage.new_file, metavar="FILE",
                        help="write the faults and their places, for a tool that shows them in the source")
    group.add_argument("--tap", action="store_true", help="and print it as lines of the Test Anything Protocol")
    group.add_argument("--irpx", default=os.environ.get("IRPX"), help="the program that judges (IRPX, else bin/irpx)")


def flag(name, value):
    """Returns a flag as `irp drive` takes it."""
    return f"--{name.replace('_', '-')}" + ("" if value == 1 and name not in ("threads", "refuse", "pend") else
                                            f" {shlex.quote(str(value))}")


def again(options):
    """Returns the flags that who makes a run again gives beside its seed or schedule."""
    words = [flag(it, getattr(options, it)) for it in CHANGING if getattr(options, it, None)]
    words += [f"--cflag={shlex.quote(it)}" for it in options.cflag]
    words += [f"--on {shlex.quote(child)} {shlex.quote(file)}" for child, file in options.on]
    return "".join(f"{it} " for it in words)


def parser_of():
    """Returns the parser of what `irp drive` takes."""
    parser = usage.Words(prog="irp drive", usage="irp drive [OPTIONS] FILE.c|FOLDER ..", description=DESCRIPTION,
                         epilog=EPILOG, formatter_class=Columns)
    for add in (add_stack, add_test, add_runs, add_verify, add_orders, add_output):
        add(parser)
    parser.set_defaults(settings={})
    return parser


def joined(words):
    """Returns the words, where a flag of FOR_OTHERS and its value are one word."""
    made, words = [], iter(words)
    for word in words:
        value = next(words, None) if word in FOR_OTHERS else None
        made.append(word if value is None else f"{word}={value}")
    return made


def read_arguments():
    """Returns what `irp drive` was asked."""
    parser = parser_of()
    options = parser.parse_intermixed_args(joined(sys.argv[1:]))
    if options.scenario and not (options.every_order or options.schedule):
        parser.error("--scenario goes with --every-order or --schedule")
    absent = [it for it in options.source if not os.path.exists(it)]
    if absent:
        parser.error(f"{absent[0]}: there is no such file or folder")
    if options.irpx and not os.access(options.irpx, os.X_OK):
        parser.error(f"--irpx {options.irpx}: it can't be run")
    options.goes_further = options.preemptions is None and not options.part
    options.preemptions = 2 if options.preemptions is None else options.preemptions
    options.source += [file for _, file in options.on]
    if options.on:
        options.settings["WDM_ON"] = ";".join(f"{stem(file)}={child}" for child, file in options.on)
    return options
