"""Compares irp_orders with every order of a script that the second reading's model makes, one after another, and with what
irpx prints.

Usage: orders.py IRP_ORDERS IRPX COUNT RUNS SEED. Of the small scripts of the examples and of COUNT scripts made by chance
the two have to tell as many orders for the same outcomes: the same replies, and the same packets and devices at the end;
each transcript that is shown has to be legal by the model, and its calls to change their seat as often as in the order of
this outcome that does so least often, or less often where the script has steps that aren't calls; `--right` has to tell how
many orders don't end right, and a condition that no others meet; and `--never`, in how many a step is made, and each step of
an order, with its own answer, in the order of the answers. Of COUNT further scripts
that free and allocate packets the same is compared, and, where one seat makes all their steps, the transcript that is
shown with the one that irpx writes. Of each race, RUNS runs on as many workers as it has seats have to print one of the
outcomes; so does each of RUNS / 4 runs of a third as many scripts of either kind. As many runs as there are processors go on at
once, so that workers wait for each other. Prints a line for each difference, and then how many were tried. Ends with status
0, or 1 where something differs.
"""

import collections
import glob
import os
import random
import re
import subprocess
import sys

HERE = os.path.dirname(os.path.realpath(__file__))
sys.path.append(os.path.join(HERE, "second_reading"))

from cases_by_chance import base_script  # noqa: E402
from conditions_of_steps import REFUSED_WORDS  # noqa: E402
from json_texts import compact, read_json  # noqa: E402
from layouts import encode, text_of  # noqa: E402
from orders_of_steps import Stepper, bound_by, changes_of, manager_end, orders_of, replies_of  # noqa: E402
from runs import Tally, work  # noqa: E402
from running import Runner  # noqa: E402
from scripts import LOCK_STEPS, read_script  # noqa: E402
from small_forms import Shape  # noqa: E402
from transcripts import check  # noqa: E402

EXAMPLES = os.path.join(os.path.dirname(HERE), "examples")
# Scripts with more orders than this are left out.
MOST = 2000
# Steps of a script that is made by chance: so many at most, in each of its seats.
STEPS = 7
KIND = "orders"
ON_WORDS = (*LOCK_STEPS, "hand", "publish", "withdraw", "request", "finish_taken")

IRP_ORDERS = IRPX = None


def prepare(irp_orders, irpx):
    global IRP_ORDERS, IRPX
    IRP_ORDERS, IRPX = irp_orders, irpx


def ended(program, *words, text):
    """Runs a program, and returns what it printed. It has to end with status 0, and without a line of complaint."""
    it = subprocess.run([program, *words], input=text, capture_output=True, timeout=300)
    if it.returncode or it.stderr:
        raise ValueError(f"{' '.join(words)}: status {it.returncode}, {it.stderr[:200]!r}")
    return it.stdout


def lines_of(transcript):
    return [read_json(line) for line in transcript.split(b"\n")[1:-1]]


def replies_in(transcript, script):
    """Returns the replies of a transcript behind those of `setup`."""
    return replies_of(script, lines_of(transcript))


def changes_in(transcript, script):
    """Returns how often the seat changes along the calls of a transcript behind those of `setup`."""
    calls = [line for line in lines_of(transcript) if "call" in line]
    return changes_of([call["seat"] for call in calls[len(script.setup) :]])


def is_plain(script):
    """Returns whether each step is a call and one atomic step: no label is bound by another seat than names it."""
    binders = {(bound_by(step), step["seat"]) for step in script.steps if bound_by(step) is not None}
    for step in script.steps:
        names = (step.get("irp"), step.get("as"))
        if step["do"] in ON_WORDS or any(label in names and seat != step["seat"] for label, seat in binders):
            return False
    return True


def end_in(transcript, script):
    """Returns what a transcript leaves in a manager: the model makes its calls again."""
    manager = Runner(script).manager
    for line in lines_of(transcript):
        if "call" in line:
            call, told = dict(line["call"]), {}
            if call["do"] == "delete":
                told = {key: call.pop(key) for key in ("lock", "drained")}
            manager.apply(call, lambda lock, told=told: told["drained"])
    return manager_end(manager)


def told(text, script):
    """Returns for which replies, with what is left in the manager, the program tells how many orders, a number for each
    outcome, each with the changes of seat among the calls that it shows; and what is wrong with its transcripts."""
    table = ended(IRP_ORDERS, text=text).decode()
    counts = [int(it) for it in re.findall(r"(?m)^outcome \d+: (\d+) of \d+ orders?", table)]
    head = re.match(r"outcomes: (\d+), of (\d+) orders?\n", table)
    if not head or [int(it) for it in head.groups()] != [len(counts), sum(counts)]:
        return None, f"the first line is {table.splitlines()[:1]}, and {len(counts)} outcomes follow"
    found = collections.defaultdict(list)
    for at, count in enumerate(counts):
        transcript = ended(IRP_ORDERS, "--show", str(at + 1), text=text)
        verdict = check(transcript)
        if not verdict.startswith("legal"):
            return None, f"the model judges the transcript of outcome {at + 1}: {verdict}"
        outcome = replies_in(transcript, script), end_in(transcript, script)
        found[outcome].append((count, changes_in(transcript, script)))
    return found, None


def counted(orders):
    """Returns how many orders there are, in words."""
    return f"{orders} order{'' if orders == 1 else 's'}"


def never(text, wanted, condition, meets):
    """Returns what is wrong with what `--never` tells of a condition, where orders meet it whose answers of steps, by place, do;
    or None."""
    orders = sum(wanted[0].values())
    count = sum(many for (replies, _, _), many in wanted[0].items() if meets(dict(read_json(replies))))
    it = subprocess.run([IRP_ORDERS, "--never", condition], input=text, capture_output=True, timeout=300)
    line = it.stdout.decode().split("\n")[0]
    start = f"it holds in {count} of {counted(orders)}, " if count else f"never: it holds in none of {counted(orders)}, "
    is_so = it.returncode == (2 if count else 0) and line.startswith(start)
    return None if is_so else f"--never {condition}: expected {start}.., got status {it.returncode}, {line}"


def judged(text, wanted):
    """Returns what is wrong with what `--right` tells of a script whose orders are these, or None."""
    orders, right = sum(wanted[0].values()), wanted[2]
    it = subprocess.run([IRP_ORDERS, "--right"], input=text, capture_output=True, timeout=300)
    told = it.stdout.decode()
    line = told.split("\n")[0]
    if right == orders:
        is_so = it.returncode == 0 and line.startswith(f"right: {counted(orders)}, ")
    else:
        is_so = it.returncode == 2 and line.startswith(f"not right in {orders - right} of {counted(orders)}, ")
        is_so = is_so and "\nwrong: " in told
    if is_so and (such := re.search(r"\nsuch orders: --never '(.*)'\n$", told)):
        return such_orders(text, such[1], orders - right)
    return None if is_so else f"expected {right} of {orders} orders right, got status {it.returncode}, {line}"


def such_orders(text, condition, wrong):
    """Returns what is wrong with a condition that `--right` tells of so many wrong orders, or None: some of them meet it, and no
    further order."""
    it = subprocess.run([IRP_ORDERS, "--never", condition], input=text, capture_output=True, timeout=300)
    line = it.stdout.decode().split("\n")[0]
    count = re.match(r"it holds in (\d+) of ", line)
    is_so = it.returncode == 2 and count is not None and int(count[1]) <= wrong
    return None if is_so else f"such orders, {condition}: {wrong} orders are wrong, got status {it.returncode}, {line}"


def made(text, script, wanted):
    """Returns what is wrong with in how many orders a step is made, by `--never`, or None: the last one on a condition, or the
    last one."""
    places = range(len(script.steps))
    place = max((at for at in places if "if" in script.steps[at]), default=len(places) - 1)
    return never(text, wanted, f"made({place})", lambda replies: place in replies) if places else None


def answered_along(script, path):
    """Returns what the steps of an order are answered by the model, each with its place, in the order of the answers. The
    order is that of these seats' atomic steps."""
    stepper, answered = Stepper(script), []
    for seat in path:
        known = set(stepper.heard)
        if not stepper.makes(seat):
            raise ValueError(f"seat {seat} has no atomic step left in the order of {path}")
        answered += [(place, reply) for place, reply in stepper.heard.items() if place not in known]
    return answered


def refusal_in(reply):
    """Returns how a line tells that a step was refused by this reply, or None."""
    if type(reply) is dict and "refused" in reply:
        return f"refused: {reply['refused']}"
    return f"{reply}: " if reply in REFUSED_WORDS else None


def shown(text, script):
    """Returns what is wrong with an order that `--never` shows step by step, or None: each step has to stand there that the
    model answers along these seats, with its own answer, in the order of the answers, and no other."""
    if not script.steps:
        return None
    it = subprocess.run([IRP_ORDERS, "--never", "made(0) or not made(0)"], input=text, capture_output=True, timeout=300)
    told = it.stdout.decode()
    steps = re.findall(r"(?m)^    step (\d+)  seat (\d+): .* -> (.*)$", told)
    path = [int(seat) for seat in re.search(r"(?m)^    the seats of its atomic steps:(.*)$", told)[1].split()]
    wanted = answered_along(script, path)
    if [(int(place), int(seat)) for place, seat, _ in steps] != [(place, script.steps[place]["seat"]) for place, _ in wanted]:
        return f"the order of {path} shows the steps {[place for place, _, _ in steps]}, not {[place for place, _ in wanted]}"
    for (place, _, answer), (_, reply) in zip(steps, wanted):
        refusal = refusal_in(reply)
        is_told = any(answer.startswith(it) for it in ("refused: ", *(f"{word}: " for word in REFUSED_WORDS)))
        if is_told != (refusal is not None) or (refusal and not f"{answer},".startswith(refusal)):
            return f"the order of {path} shows that step {place} was answered {answer}, not {reply}"
    return None


def differs(script, wanted, got):
    """Returns what differs in the outcomes of a script, or None. Those whose replies and packets are the same stand together:
    other things tell them apart."""
    together = collections.defaultdict(list)
    for (replies, left, other), count in wanted[0].items():
        together[replies, left].append((count, wanted[1][replies, left, other]))
    counts = [{outcome: sorted(count for count, _ in told) for outcome, told in each.items()} for each in (together, got)]
    if counts[0] != counts[1]:
        return f"expected {sorted(counts[0].values())} orders, got {sorted(counts[1].values())}"
    for outcome, told in got.items():
        most = max(least for _, least in together[outcome])
        for _, changes in told:
            if changes > most or (is_plain(script) and len(told) == 1 and changes != most):
                return f"expected {most} changes of seat, got {changes}"
    return None


def compare(name, text):
    """Compares the outcomes of one script. Returns the tally of it."""
    tally = Tally()
    script = read_script(text, 1)
    wanted = orders_of(script, MOST)
    if wanted is None:
        return tally
    try:
        found, wrong = told(text, script)
        if found is not None:
            wrong = differs(script, wanted, found) or judged(text, wanted) or made(text, script, wanted) or shown(text, script)
    except (ValueError, Shape) as error:
        wrong = str(error) or "the transcript of an outcome has other steps"
    tally.note(KIND, f"{name}: {wrong}", wrong is None)
    return tally


def small_script(rng, forms=(1, 2)):
    """Returns a small script of several seats, in one of these forms."""
    for _ in range(1000):
        script = base_script(rng, rng.choice(forms), 20)
        steps = script["setup"] + script["steps"]
        first = next((at for at, step in enumerate(steps) if step["do"] in ON_WORDS), len(steps))
        first = min(first, rng.randrange(12))
        script["setup"], script["steps"] = steps[:first], steps[first : first + rng.randrange(3, STEPS + 1)]
        if len({step["seat"] for step in script["steps"]}) > 1:
            break
    return script


def by_chance(seed, number):
    """Compares a small script that is made by chance."""
    rng = random.Random(f"{seed}:{number}")
    return compare(f"script {number} of seed {seed}", encode(text_of(small_script(rng), rng, False)))


def freeing_script(rng, seats):
    """Returns a small script of so many seats that frees and allocates packets, names them by labels, and looks at them."""
    labels = "abc"
    setup = [{"seat": 0, "do": "allocate", "size": 1, "as": label} for label in labels]
    steps = []
    for _ in range(rng.randrange(4, 7) if seats == 1 else rng.randrange(3, 6)):
        do = rng.choice(("free", "free", "allocate", "allocate", "look", "reuse", "set_next"))
        step = {"seat": rng.randrange(seats), "do": do}
        if do == "allocate":
            step |= {"size": rng.choice((1, 2)), "as": rng.choice(labels + "d")}
        else:
            step["irp"] = rng.choice(labels)
        if do == "reuse":
            step["status"] = rng.choice((0, 3221225473))
        if do == "set_next":
            step |= {"by": "o", "major": rng.choice((3, 4)), "word": 0}
        steps.append(step)
    return {"form": 1, "seats": seats, "locks": 1, "completions": [], "cancels": [], "dispatches": [], "drivers": [[]],
            "setup": setup, "steps": steps}  # fmt: skip


def by_freeing(seed, number):
    """Compares a script that frees and allocates; and where one seat makes its steps, what it shows with what irpx writes."""
    rng = random.Random(f"freeing {seed}:{number}")
    script = freeing_script(rng, rng.choice((1, 2, 2, 2)))
    name, text = f"freeing script {number} of seed {seed}", compact(script)
    tally = compare(name, text)
    if script["seats"] == 1:
        is_same = ended(IRP_ORDERS, "--show", "1", text=text) == ended(IRPX, "run", text=text)
        tally.note("shown", f"{name}: irpx writes another transcript", is_same)
    return tally


def is_among(printed, script, found):
    """Returns whether a transcript ends in one of these outcomes."""
    try:
        return (replies_in(printed, script), end_in(printed, script)) in found
    except Shape:
        return False


def race(name, text, runs, kind="races"):
    """Runs a script on as many workers as it has seats. Each run has to print an outcome. Returns the tally."""
    tally = Tally()
    script = read_script(text, 1)
    if any(step["do"] == "hand" for step in script.steps):
        return tally
    found, wrong = told(text, script)
    for number in range(runs):
        printed = ended(IRPX, "run", "--workers", str(script.seats), text=text)
        is_found = found is not None and is_among(printed, script, found)
        tally.note(kind, f"{name}, run {number}: {wrong or 'no outcome has its replies'}", is_found)
    return tally


def by_threads(seed, number, runs):
    """Runs a script that is made by chance, with labels, frees or slots, and few orders."""
    rng = random.Random(f"threads {seed}:{number}")
    while True:
        script = small_script(rng) if number % 2 else freeing_script(rng, rng.choice((2, 3)))
        text = compact(script)
        if orders_of(read_script(text, 1), MOST // 10) is not None:
            return race(f"script {number} for threads of seed {seed}", text, runs, "threads")


def main():
    irp_orders, irpx, count, runs, seed = sys.argv[1], sys.argv[2], *map(int, sys.argv[3:6])
    tasks = []
    for path in sorted(glob.glob(os.path.join(EXAMPLES, "*", "*.script"))):
        with open(path, "rb") as it:
            text = it.read()
        name = os.path.relpath(path, EXAMPLES)
        if name.startswith("right/"):
            continue  # conditions.py has these.
        if len({step["seat"] for step in read_script(text, 1).steps}) > 1:
            tasks.append((compare, name, text))
        if name.startswith("orders/"):
            tasks.append((race, name, text, runs))
    tasks += [(one, seed, number) for number in range(count) for one in (by_chance, by_freeing)]
    tasks += [(by_threads, seed, number, max(1, runs // 4)) for number in range(count // 3 + 1)]
    tally = work(tasks, prepare, (irp_orders, irpx))
    tally.tell()
    return 1 if tally.wrong else 0


if __name__ == "__main__":
    sys.exit(main())
