"""What each lesson runs, and what the record of its plain run has to show."""

import argparse
import collections

LESSONS = {1: "01_first_dispatch", 2: "02_pending", 3: "03_completion_routine", 4: "04_who_owns_the_packet",
           5: "05_forward_and_wait", 6: "06_cancel", 7: "07_a_queue", 8: "08_remove_locks", 9: "09_every_order",
           10: "10_why_a_history_is_wrong", 11: "11_handles", 12: "12_power", 13: "13_plug_and_play", 14: "14_buffers",
           15: "15_a_protocol"}
HISTORY, PROTOCOL = 10, 15
FILES = {HISTORY: "history.transcript", PROTOCOL: "protocol.words"}


def taken(text):
    """Takes numbers of lessons, with commas between them, from a command's words."""
    found = {int(it) if it.isdigit() else 0 for it in text.split(",")}
    if not found <= set(LESSONS):
        raise argparse.ArgumentTypeError(f"{text}: lessons from 1 to {max(LESSONS)} are wanted, such as 2,6")
    return sorted(found)


# A run: of the lesson's test.c or of the host's own test, with its flags.
Run = collections.namedtuple("Run", "is_test flags")
TESTS, HOSTS = Run(True, ()), Run(False, ())


def every_order(test=None, preemptions=3, minutes=0.4):
    """Returns the run that makes every order of one of the lesson's tests, or of the host's own."""
    flags = ("--every-order", "--preemptions", str(preemptions), "--minutes", str(minutes))
    return Run(test is not None, flags + (("--test", test) if test else ()))


CANCELS_MEET = tuple(every_order(f"in_every_order_{it}") for it in
                     ("a_cancel_meets_the_next_read", "a_cancel_meets_a_write", "a_read_meets_its_cancel"))
# Behind the lesson's tests and the host's own, plainly.
MORE_RUNS = {
    2: (Run(True, ("--low-memory", "--test", "a_read_meets_its_work_item")), every_order("a_read_meets_its_work_item")),
    3: (every_order("in_every_order_two_reads_come_back", 1),),
    5: (every_order("in_every_order_it_waits_for_the_drivers_below", 1),),
    6: CANCELS_MEET, 9: CANCELS_MEET,
    7: tuple(every_order(it) for it in ("a_write_that_meets_a_cancel_answers_one_of_two_reads",
                                        "in_every_order_a_read_meets_a_write",
                                        "in_every_order_a_cancel_meets_the_end_of_its_handle")),
    8: (*(every_order(f"in_every_order_a_{it}_meets_the_removal", 2) for it in ("read", "write")),
        every_order("in_every_order_the_removal_waits_for_two_reads", 1)),
    11: (Run(True, ("--low-memory", "--test", "each_handle_has_its_own_count")),),
    12: (Run(True, ("--routines-high",)), Run(False, ("--routines-high",)), Run(True, ("--low-memory",))),
}
# Flags of the plain runs: memory is told where it is used after its end, or behind it.
PLAIN = {it: ("--page-ends",) for it in (2, 11, 14)}
# What the record of a plain run of the host's own test has to show, as text of its lines, and what is told where it doesn't: a
# driver that does nothing of what the lesson is about has no fault either. Each text of one of the ways has to be there, and
# none behind a "!".
READ, START = r"\d+,\d+,\d+,3,", r"\d+,\d+,\d+,27,\d+,0,"
# Below a filter the host's own devices finish and hold, which doesn't count as the driver's.
NO_FILTER = r'!"shown":\[[^]]*,true\]'
FINISHES = ("a device that completes CREATE, READ and WRITE",
            [NO_FILTER, *(rf'"plan":\["(?:finish",0,\d+|hold",null)\],"shown":\[0,\d+,\d+,{major},' for major in (0, 3, 4))])
HOLDS = ("a read that is kept and completed later", [NO_FILTER, rf'"plan":\["hold",(null|\d+)\],"shown":\[{READ}'])
CANCELS = ("a read that is kept with a cancel routine", [NO_FILTER, rf'"plan":\["hold",\d+\],"shown":\[{READ}'])
COMPLETES = ("a read that is kept, and then completed with STATUS_SUCCESS",
             [r'"by":\d+,"do":"complete","information":\d+,"irp":\[\d+,\d+\],"status":0\b'])
WATCH = rf'"plan":\["forward(_pend)?",\[.*?"shown":\[{READ}'
# A routine of the driver's own, asked about a read that succeeded and that nobody cancelled.
ASKED = rf'"completion":\["\w+",\d+\],"shown":\[{READ}\d+,\d+,0,\d+,\w+,false,'
# A dispatch that waits for the drivers below is recorded as one that finishes; the host sends a second packet for it.
BACK = [rf'"plan":\["finish",\d+,\d+\],"shown":\[{READ}[^]]*,true\]',
        r'"by":"o","do":"call_driver","irp":\[\d+,\d+\],"target":0\b']
COMES_BACK = ("a read that succeeds, and comes back to your driver", [WATCH, ASKED], BACK)
ACQUIRES = ("a read under a remove lock", [r'"do":"acquire"'])
NEEDS = {1: (FINISHES,), 2: (HOLDS, COMPLETES), 3: (COMES_BACK,), 4: (COMES_BACK,), 6: (CANCELS, COMPLETES),
         7: (CANCELS, COMPLETES), 8: (COMES_BACK, ACQUIRES), 9: (CANCELS, COMPLETES)}
# Variables that a lesson's test reads: they stay as they are.
READ_BY_TESTS = {3: "Bytes", 4: "LastLength"}
