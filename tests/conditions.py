"""Compares irpx and irp_orders, of scripts of form 4, with the second reading's model.

Usage: conditions.py IRP_ORDERS IRPX COUNT RUNS SEED. Of COUNT scripts by chance, of which some have a wrong condition, `irpx
run` has to print what the model prints. Of COUNT small ones irp_orders has to tell as many orders for the same outcomes as
the model, which makes each order. Of every tenth of these each of RUNS / 4 runs, with as many workers as the script has
seats, has to print one of the outcomes; so does each of RUNS runs of an example in examples/right. Of the examples the model
and irp_orders have to tell the numbers of orders that were worked out beforehand, and of how many that aren't right; of the
latter irp_orders with the word --right, where it has that. Where a program refuses form 4, it isn't asked. Prints a line
for each difference, and then how many were tried. Ends with status 0, or 1 where something differs.
"""

import os
import random
import re
import subprocess
import sys

import orders
from orders import MOST, compare, ended, race, small_script
from runs import Tally, work

from cases_by_chance import base_script
from conditions_by_chance import racing_script, with_conditions, wrong_condition
from joined_orders import after, counted, wrongs
from json_texts import compact
from layouts import encode, text_of
from orders_of_steps import orders_of
from running import run
from scripts import read_script
from small_tries import SMALL, takes_form_4

# Of each example how many orders it has, how many of these aren't right, and how many end in each of its outcomes.
TABLES = {
    "a_cancel_by_a_slot": (22, 0, [10, 5, 5, 2]),
    "a_cancel_by_a_slot_that_nobody_finishes": (20, 3, [10, 5, 3, 2]),
    "a_cancel_by_a_slot_without_a_check": (29, 24, [14, 7, 5, 3]),
    "a_cancel_by_a_routine_that_leaves": (3, 0, [2, 1]),
    "a_cancel_by_a_routine_that_finishes": (3, 1, [2, 1]),
    "a_removal": (80, 0, [30, 25, 23, 2]),
    "a_removal_released_too_early": (147, 67, [53, 37, 30, 23, 2, 2]),
    "a_removal_without_a_check_by_the_remover": (175, 122, [75, 35, 30, 23, 12]),
    "a_removal_without_a_check_by_the_sender": (225, 170, [168, 30, 25, 2]),
    "a_removal_that_keeps_its_reference": (50, 25, [25, 23, 2]),
    "a_slot_with_references": (424541, 0, None),
    "a_slot_with_a_reference_too_few": (40102, 1372, None),
}
HAS_RIGHT = False


def prepare(irp_orders, irpx, has_right):
    """Readies a process that does tasks."""
    global HAS_RIGHT
    orders.prepare(irp_orders, irpx)
    HAS_RIGHT = has_right


def by_one_worker(seed, number):
    """Compares what irpx prints of a script that is made by chance with what the model prints."""
    rng = random.Random(f"conditions {seed}:{number}")
    script = base_script(rng, 4, rng.choice((10, 20, 40)))
    if rng.random() < 0.2:
        script = wrong_condition(rng, script)
    text = encode(text_of(script, rng, rng.random() < 0.3))
    what, told = run(text)
    wanted = (told, b"", 0) if what == "ok" else (b"", b"irpx: script refused: %s\n" % told.encode(), 1)
    left = subprocess.run([orders.IRPX, "run"], input=text, capture_output=True, timeout=300)
    is_same = (left.stdout, left.stderr, left.returncode) == wanted
    tally = Tally()
    tally.note("conditions", f"script {number} of seed {seed}: other than the model's; {left.stderr[:80]!r}", is_same)
    return tally


def small(seed, number):
    """Returns the text of a small script with conditions, which has few orders, and mostly several outcomes."""
    rng = random.Random(f"small {seed}:{number}")
    while True:
        script = racing_script(rng) if number % 4 else with_conditions(rng, small_script(rng, (2,)), 0.7)
        text = compact(script)
        found = orders_of(read_script(text), MOST // 4) or ({}, {})
        if len(found[0]) > 1 or (found[0] and rng.random() < 0.1):
            return text


def by_orders(seed, number, runs):
    """Compares the outcomes of a small script, and of every tenth those of its runs."""
    name, text = f"script on conditions {number} of seed {seed}", small(seed, number)
    tally = compare(name, text)
    if number % 10 == 0:
        tally.add(race(name, text, runs, "threads"))
    return tally


def text_of_example(name):
    with open(os.path.join(orders.EXAMPLES, "right", name + ".script"), "rb") as it:
        return it.read()


def by_model(name):
    """Compares the model's count of an example's orders with its table."""
    script = read_script(text_of_example(name))
    found, paths = counted(script)
    wrong = sum(count for outcome, count in found.items() if wrongs(after(script, paths[outcome])))
    counts = sorted(found.values(), reverse=True)
    wanted = TABLES[name]
    tally = Tally()
    is_so = (sum(counts), wrong) == wanted[:2] and wanted[2] in (None, counts)
    tally.note("tables", f"{name}, by the model: {sum(counts)} orders, {wrong} of them not right, {counts}", is_so)
    return tally


def example(name, runs):
    """Compares what irp_orders tells of an example with its table, and the runs with the outcomes."""
    tally, text = Tally(), text_of_example(name)
    count, wrong, outcomes = TABLES[name]
    table = ended(orders.IRP_ORDERS, text=text).decode()
    found = sorted((int(it) for it in re.findall(rf"(?m)^outcome \d+: (\d+) of {count} orders?", table)), reverse=True)
    tally.note("tables", f"{name}: {table.splitlines()[:1]}", sum(found) == count and outcomes in (None, found))
    if HAS_RIGHT:
        left = subprocess.run([orders.IRP_ORDERS, "--right"], input=text, capture_output=True, timeout=300)
        first = left.stdout.decode().split("\n")[0]
        wanted = (rf"not right in {wrong} of {count} orders\b", 2) if wrong else (rf"right: {count} orders\b", 0)
        is_so = re.match(wanted[0], first) is not None and left.returncode == wanted[1]
        tally.note("tables", f"{name}, --right: status {left.returncode}, {first}", is_so)
    tally.add(race(name, text, runs))
    return tally


def has_right(irp_orders):
    """Returns whether irp_orders takes the word --right."""
    left = subprocess.run([irp_orders, "--right"], input=SMALL, capture_output=True, timeout=300)
    return not (left.returncode == 4 and b"usage" in left.stderr)


def main():
    irp_orders, irpx, count, runs, seed = sys.argv[1], sys.argv[2], *map(int, sys.argv[3:6])
    is_run, is_ordered, is_checked = takes_form_4(irpx, "run"), takes_form_4(irp_orders), has_right(irp_orders)
    for able, told in (
        (is_run, "irpx refuses form 4 of scripts: steps on conditions, but by the model"),
        (is_ordered, "irp_orders refuses form 4 of scripts: orders of steps on conditions, but by the model"),
        (is_checked, "irp_orders has no --right: which orders are right, but by the model"),
    ):
        if not able:
            print("passed over, since", told)
    tasks = [(by_model, name) for name in TABLES]
    if is_run:
        tasks += [(by_one_worker, seed, number) for number in range(count)]
    if is_run and is_ordered:
        tasks += [(example, name, runs) for name in TABLES]
        tasks += [(by_orders, seed, number, max(1, runs // 4)) for number in range(count)]
    tally = work(tasks, prepare, (irp_orders, irpx, is_checked))
    tally.tell()
    return 1 if tally.wrong else 0


if __name__ == "__main__":
    sys.exit(main())
