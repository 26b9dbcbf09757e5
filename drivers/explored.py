"""Tests of `run --every-order`: races that need so many preemptions, their right counterparts, stacks of right drivers, the
reduction against none, and explorers made wrong.

The first comment of each file of races/ says how many preemptions its fault needs at least, and as what it is told."""

import json
import os
import re
import shutil
import subprocess

import distinct
import going_back
import host_files
import limits
import orders
import own_locks
import planted

HERE = os.path.dirname(os.path.abspath(__file__))
RACES = sorted(it[:-2] for it in os.listdir(HERE + "/races") if it.endswith(".c"))
# Stacks at one round a loop: how many preemptions are exhausted, and up to how many the reduction is compared with none.
STACKS = {"children": (2, 2), "keyboard": (2, 1), "late": (2, 2), "policy": (2, 2), "power": (1, 1), "removal": (2, 1),
          "retry": (2, 2), "serial": (2, 2), "split": (1, 1), "watchdog": (2, 2), "handover": (2, 1), "port": (2, 2),
          "direct": (2, 2), "shared": (1, 1), "settings": (2, 2), "enumerate": (2, 2), "ports": (2, 2),
          "samples": (2, 2), "journal": (2, 2), "mirror": (2, 2), "lent": (2, 2)}
# Compared with two preemptions where `compared` is chosen, and these races too, as they stand: without the reduction each
# is some thousand runs.
LONGER = ["keyboard", "handover", "shared", "power", "split", "removal"]
LONGER_RACES = ["buffer_taken", "interface_seen", "mdl_seen", "property_seen", "resource_tried"]

# An explorer with one thing wrong: a name, a file of the host, what is replaced by what, and where it shows: in a race that
# it doesn't find with as few preemptions, in a right driver that isn't clean, or in a stack's number of classes.
WRONG = [
    ("a wait's end isn't seen while another thread can go on", "schedule.c",
     "ready |= (uint32_t)can_go_on(&threads[i]) << i;",
     "ready |= (uint32_t)(can_go_on(&threads[i]) && !(ready && threads[i].waits)) << i;", "classes", "watchdog"),
    ("a wait is never told that it is over", "schedule.c", "(end && end <= clock_now) || is_over(t));",
     "(end && end <= clock_now) || (is_over(t) && end));", "right", "lost_wakeup"),
    ("a state counts as reached by any choice", "choices.c", "state + (uint64_t)choice * 0x9E3779B97F4A7C15u",
     "state + (uint64_t)(choice / MAX_THREADS)", "classes", "late"),
    ("what an object had been through is forgotten", "footprint.c",
     "*mine = mix(mix(*mine, normal(object) * 2 + writes), o->written);",
     "*mine = mix(*mine, normal(object) * 2 + writes);", "classes", "watchdog"),
    ("a state counts as reached that cost more", "shared_sets.c", "*is_new = !was || (was & ~mask) < (entry & ~mask);",
     "*is_new = !was;", "classes", "watchdog"),
    ("that time passed is no event of the clock", "schedule.c", "time_passed_for(t, &clock_now);", "(void)time_passed_for;",
     "classes", "watchdog"),
    ("an early timer is never tried", "choices.c", "if (t != c->usual && can_choose(c, t) &&",
     "if (t != c->usual && !is_early(c, t) && can_choose(c, t) &&", "race", "timer_cancel"),
    ("the first two threads are never tried", "choices.c", "for (int t = 0; t < MAX_THREADS; t++)\n        if (t != c->usual && can_choose(c, t) &&",
     "for (int t = 2; t < MAX_THREADS; t++)\n        if (t != c->usual && can_choose(c, t) &&", "race", "routine_late"),
    ("a racy access isn't a point", "hooks.c", "if (shared->is_point[", "if (!shared && shared->is_point[", "race",
     "plain_count"),
    ("a device's names are touched by nobody", "links_and_interfaces.c",
     """    hold_host("IoGetDeviceInterfaces", &names, READS);""", "    hold_host(\"IoGetDeviceInterfaces\", &n_names, READS);",
     "race", "interface_seen"),
    ("a device's properties are touched by nobody", "device_properties.c",
     """    hold_host("IoSetDevicePropertyData", &properties, WRITES);""",
     "    hold_host(\"IoSetDevicePropertyData\", &n_properties, WRITES);", "race", "property_seen"),
    ("who takes from an interlocked list only reads it", "resources.c", """    hold_host("InterlockedPopEntrySList", Head, SYNCS);""",
     "    hold_host(\"InterlockedPopEntrySList\", Head, READS);", "race", "buffer_taken"),
    ("an MDL is locked without a touch", "mdl.c", """    enter_host(&c, "MmProbeAndLockPages", at);
    touch_memory(Mdl, sizeof *Mdl, WRITES);""", """    enter_host(&c, "MmProbeAndLockPages", at);""", "race", "mdl_seen"),
    ("what a routine decides as it returns is touched by nobody", "threads.c",
     "        touch(f->p->irp, f->settled ? READS : WRITES);", "        (void)touch;", "classes", "watchdog"),
    ("deferred calls run one at a time", "timers_and_dpcs.c", "MAX_PROCESSORS = 2 };", "MAX_PROCESSORS = 1 };", "race", "two_calls"),
    ("one processor lets a thread go on below DISPATCH_LEVEL", "schedule.c", "return high ? ready & high : ready;",
     "return ready;", "race", "waits_high"),
    ("a device that waits for its routine keeps its extension meanwhile", "devices.c",
     "    let_extension_go(d, self.calls->at);\n    wait_for_host(has_left", "    wait_for_host(has_left", "race", "released_early"),
    ("a device doesn't wait for its routine", "devices.c", "if (devices[d].live && is_only_left_by_packets(d))",
     "if (!devices[d].live && is_only_left_by_packets(d))", "right", "released_early"),
    ("memory that was let go isn't told", "racing.c", "if (c->let_go && pc)", "if (c->let_go && pc && !by_schedule)", "race",
     "deleted_while_used"),
    ("a device goes while its work item runs", "devices.c", "devices[d].goes = is_kept(d);",
     "devices[d].goes = !is_kept(d) && is_kept(d);", "right", "deleted_while_used"),
]


class Options:
    """The options of `run` for an exploration."""

    def __init__(self, cc, source, preemptions, flags=(), rounds=1):
        self.cc, self.source, self.preemptions, self.cflag, self.rounds = cc, [source], preemptions, list(flags), rounds
        self.every_order, self.schedule, self.real, self.sanitize = True, None, False, None
        self.seeds = self.threads = self.controls = self.transcript = self.patience = self.part = self.shake = None
        self.page_ends = self.routines_high = self.refuse = None
        self.args, self.timeout, self.settings, self.minutes, self.processes = "", 600, {}, 60, 1
        with open(source, encoding="utf-8") as it:
            self.one_processor = ". On one processor:" in it.readline()


def stack_options(cc, name, preemptions):
    """The options for a stack: a file, a class driver with its minidriver, or the samples with their second thread."""
    test = {"ports": "stacks/ports/test", "lent": "stacks/lent/test", "samples": "samples/stack"}.get(name, f"stacks/{name}")
    options = Options(cc, f"{HERE}/{test}.c", preemptions)
    if name == "ports":
        options.source.insert(0, HERE + "/stacks/ports/portmini.c")
        options.library = [HERE + "/stacks/ports/portclass.c"]
    if name == "lent":
        options.source = [f"{HERE}/stacks/lent/{it}.c" for it in ("transport", "client", "test")]
    if name == "samples":
        options.source, options.args = [HERE + "/samples"], "60"
    return options


class Explored:
    """A program, built for schedules."""

    def __init__(self, run, bench, name, options, library=None):
        self.run, self.bench, self.options = run, bench, options
        self.folder = bench.folder(name)
        self.program = run.build(options, library or bench.library, self.folder)

    def report(self, **settings):
        self.options.settings = settings
        return orders.explore(self.options, self.program, self.folder, self.run.settings_of(self.options))

    def classes(self, reduces, goes_on=False):
        """Returns the report, and the hashes of the classes of orders, or None where not all were made. Where it goes on,
        failures don't end it: a failure is a class too."""
        path = f"{self.folder}/classes{reduces}"
        report = self.report(WDM_REDUCE=str(reduces), WDM_CLASSES=path, WDM_GO_ON=str(int(goes_on)))
        with open(path, encoding="ascii") as it:
            return report, set(it.read().split()) if report.facts["ended"] == "done" else None

    def followed(self, schedule, name):
        """Returns a judged run by a schedule."""
        self.options.settings, self.options.schedule = {}, schedule
        self.options.transcript = f"{self.folder}/{name}"
        made = self.run.Run(self.options, self.program, self.folder, None)
        made.judge(self.bench.irpx)
        self.options.schedule = None
        return made


def said_of(name):
    """Returns how many preemptions a race needs, and as what it is told."""
    with open(f"{HERE}/races/{name}.c", encoding="utf-8") as it:
        found = re.match(r"/\* \w+\.c: (\d) preemptions?, (\w+)\.", it.read())
    return int(found[1]), found[2]


def bytes_of(path):
    with open(path, "rb") as it:
        return it.read()


def wrong_race(report, name):
    """Returns what is wrong with the report of a race, or None."""
    preemptions, rule = said_of(name)
    if report.facts["ended"] != "failed":
        return f"nothing fails: {report.facts['ended']}"
    if int(report.facts["cost"]) != preemptions or not report.facts["why"].startswith(rule + ":"):
        return f"with {report.facts['cost']} preemptions {report.facts['why']}"
    return None


def wrong_right(report):
    return None if report.facts["ended"] == "done" else f"{report.facts['ended']}: {report.facts.get('why', '')}"


def wrong_classes(made, goes_on=False):
    """Returns how the classes with the reduction differ from those without, or None."""
    (one, none), (two, states) = made.classes(0, goes_on), made.classes(1, goes_on)
    if none is None or states is None:
        return f"not all orders were made: {one.facts['ended']}, {two.facts['ended']}; {two.facts.get('why', '')}"
    return None if none == states else f"{len(none)} classes, with the reduction {len(states)} ({len(none & states)} in both)"


def wrong_count(right, report):
    one, two = (it.finished()[-1]["classes"] for it in (right, report))
    return None if one == two else f"{two:.0f} classes instead of {one:.0f}"


def test_race(run, bench, name):
    made = Explored(run, bench, name, Options(bench.cc, f"{HERE}/races/{name}.c", 2))
    report = made.report()
    wrong = wrong_race(report, name)
    yield f"race {name}, told with the fewest preemptions", wrong
    if wrong:
        return
    one, two = made.followed(report.facts["schedule"], "one"), made.followed(report.facts["schedule"], "two")
    same = bytes_of(one.transcript) == bytes_of(two.transcript) and one.said == two.said
    fault = said_of(name)[1] in orders.first_fault(one)
    yield f"race {name}, again by its schedule, the same bytes", None if same and fault else one.said
    yield f"race {name}, a schedule that doesn't fit", None if "doesn't fit" in made.followed("1=1,9999=1", "none").said \
        else "it isn't told"
    if name not in LONGER_RACES:
        yield compared_race(made, name)


def compared_race(made, name):
    """The reduction against none, past all failures."""
    return f"race {name}, the same classes without the reduction", wrong_classes(made, goes_on=True)


def test_right(run, bench, name):
    made = Explored(run, bench, f"right {name}", Options(bench.cc, f"{HERE}/races/{name}.c", 2, ["-DRIGHT"]))
    yield f"race {name}, its right counterpart, every order", wrong_right(made.report())
    yield f"race {name}, its right counterpart, the same classes without the reduction", wrong_classes(made)


def test_stack(run, bench, name):
    most, compared = STACKS[name]
    made = Explored(run, bench, f"orders {name}", stack_options(bench.cc, name, most))
    report = made.report()
    yield f"stack {name}, every order with {orders.plural(most, 'preemption')}", wrong_right(report) or not_legal(made)
    made.options.preemptions = compared
    yield f"stack {name}, the same classes without the reduction", wrong_classes(made)


def compared(run, bench, name):
    """The reduction against none with two preemptions, which takes minutes."""
    is_race = name in LONGER_RACES
    options = Options(bench.cc, f"{HERE}/races/{name}.c", 2) if is_race else stack_options(bench.cc, name, 2)
    made = Explored(run, bench, f"compared {name}", options)
    if is_race:
        yield compared_race(made, name)
    else:
        yield f"stack {name}, the same classes with 2 preemptions without the reduction", wrong_classes(made)


def test_shapes(run, bench):
    """One request of each right shape, in every order: over a device that ends it later, and over all its endings where the
    shape itself hands it on. Without either there is one order."""
    options = Options(bench.cc, f"{HERE}/shapes/test.c", 2)
    options.source = [HERE + "/shapes"]
    made = Explored(run, bench, "orders of shapes", options)
    for name in planted.RIGHT_SHAPES:
        found = []
        for ending in range(5) if name in ("ToAWorker", "WaitForAWorker", "SplitTransfer") else (1,):
            options.args = f"{name} {ending}"
            found.append(wrong_right(made.report()) or not_legal(made, 2))
        yield f"shape {name}, every order with 2 preemptions", next(filter(None, found), None)


def test_senders(run, bench):
    """Two senders at once over a device that ends their requests later."""
    options = Options(bench.cc, f"{HERE}/shapes/test.c", 2)
    options.source, options.args = [HERE + "/shapes"], "ForwardMarked 1 2 1"
    made = Explored(run, bench, "orders of two senders", options)
    yield "two senders, every order with 2 preemptions", wrong_right(made.report()) or not_legal(made)


def not_legal(made, most=6):
    """Has some of the distinct transcripts judged."""
    made.options.judge = most
    illegal = orders.judge(made.options, made.bench.irpx, made.folder, quiet=True)
    return f"{illegal[1]}, schedule {illegal[0]}" if illegal else None


def wrong_library(run, bench, name, file, old, new):
    """Returns a copy of the host with one thing in it replaced, or None where that isn't there once."""
    folder = bench.folder(name)
    shutil.copytree(HERE + "/host", folder + "/host")
    os.makedirs(folder + "/host/out")
    for it in os.listdir(os.path.dirname(bench.library)):
        if it.endswith(".o"):
            shutil.copy2(f"{os.path.dirname(bench.library)}/{it}", folder + "/host/out")
    path = host_files.path(file, folder + "/host")
    with open(path, encoding="utf-8") as it:
        text = it.read()
    if text.count(old) != 1:
        return None
    with open(path, "w", encoding="utf-8") as it:
        it.write(text.replace(old, new))
    return run.build_host(bench.cc, None, folder + "/host")


def test_wrong(run, bench, name, file, old, new, how, where):
    """An explorer made wrong: the test of that race, stack or ending fails."""
    library = wrong_library(run, bench, name, file, old, new)
    if not library:
        yield f"wrong explorer: {name}", f"{file}: not one place for {old!r}"
        return
    if how == "ending":
        right, made = (ends(run, bench, f"{it} {where}", it == "wrong" and library) for it in ("right", "wrong"))
        wrong = going_back.wrong_ending(right, made, where)
        yield f"wrong explorer: {name}: {wrong}", None if wrong else "no test shows it"
        return
    source, flags = f"{HERE}/{'stacks' if how == 'classes' else 'races'}/{where}.c", [] if how != "right" else ["-DRIGHT"]
    options = Options(bench.cc, source, 2, flags)
    report = Explored(run, bench, f"wrong {where}", options, library).report()
    if how == "classes":
        right = Explored(run, bench, f"not wrong {where}", options).report(WDM_REDUCE="0")
        wrong = wrong_right(report) or wrong_count(right, report)
    else:
        wrong = wrong_race(report, where) if how == "race" else wrong_right(report)
    yield f"wrong explorer: {name}: {wrong}", None if wrong else "no test shows it"


def ends(run, bench, name, library=None, text=going_back.ENDS):
    """Returns the test that ends badly, built."""
    folder = bench.folder(f"source {name}")
    with open(folder + "/ends.c", "w", encoding="utf-8") as it:
        it.write(text)
    return Explored(run, bench, name, Options(bench.cc, folder + "/ends.c", 2), library or None)


def by_both(run, bench, name, most):
    made = Explored(run, bench, f"by both {name}", stack_options(bench.cc, name, most))
    return going_back.test_stack(made, name)


def test_untested(run, bench):
    """A driver without a test: the host's own test finds its fault, and nothing in the right counterpart."""
    source = HERE + "/races/untested/pends.c"
    made = Explored(run, bench, "untested", Options(bench.cc, source, 2))
    made.options.scenario = "overlap"
    report = made.report()
    well = report.facts["ended"] == "failed" and report.facts["cost"] == "2" and "CompletedTwice" in report.facts["why"]
    yield "the host's own test under every order finds a fault", None if well else str(report.facts)
    said = made.followed(report.facts["schedule"], "told").said if well else ""
    with open(source, encoding="utf-8") as it:
        line = next(at for at, text in enumerate(it, 1) if "the fault: what it returns" in text)
    wanted = f"; IoSetCancelRoutine at pends.c:{line} returned NULL: CancelRead had begun", ", to the fault\n"
    missing = [it for it in wanted if it not in said]
    yield "its schedule goes to the fault, which names the cancel routine that had begun", f"no {missing}: {said}" if missing \
        else None
    touches = Explored(run, bench, "untested touches", Options(bench.cc, source, 2, ["-DRIGHT", "-DTOUCHES"]))
    for touches.options.scenario in ("overlap", "cancel"):
        told = touches.report().facts
        well = told["ended"] == "failed" and told["why"].startswith("Touched:")
        yield f"the host's own test, {touches.options.scenario}, a packet touched after it was held", None if well else str(told)
    right = Explored(run, bench, "untested right", Options(bench.cc, source, 2, ["-DRIGHT"]))
    for right.options.scenario in orders.SCENARIOS:
        yield f"the host's own test, {right.options.scenario}, every order of a right driver", wrong_right(right.report())


def test_detached(run, bench):
    """A routine lets the removal go on, and the device is detached before its send returns: the send stands before."""
    for how in (["-DRIGHT", "-DAT_ONCE"], ["-DRIGHT", "-DAT_ONCE", "-DBY_WORK"]):
        made = Explored(run, bench, "detached", Options(bench.cc, HERE + "/races/released_early.c", 2, how))
        yield f"a device is detached while a send comes back from it, {' '.join(how[1:])}, every order", wrong_right(made.report())


def test_parts(run, bench):
    """Three parts have together the classes of the whole, and none has them alone."""
    made = Explored(run, bench, "parts", Options(bench.cc, HERE + "/stacks/watchdog.c", 2))
    whole, parts = made.classes(1)[1], []
    for made.options.part in ("1/3", "2/3", "3/3"):
        parts.append(made.classes(1)[1])
    wrong = [] if set.union(*parts) == whole else [f"together {len(set.union(*parts))} of {len(whole)} classes"]
    wrong += [f"part {at} alone has all" for at, it in enumerate(parts, 1) if it == whole]
    yield "parts of an exploration, together the whole", "; ".join(wrong) or None
    yield from merged_parts(bench)


def merged_parts(bench):
    """The recipe of EVERY_ORDER.md, with xargs for parallel: what four parts leave merges to what the whole leaves."""
    folder = bench.folder("merged parts")
    command = [HERE + "/run", "--irpx", bench.irpx, "--every-order", "--preemptions", "2", "--rounds", "1", "--judge", "1", "--processes", "1"]
    command += [HERE + "/stacks/serial.c", "--result"]
    subprocess.run(["xargs", "-P", "2", "-I{}", *command, f"{folder}/result{{}}", "--part", "{}/4"], input="1\n2\n3\n4\n",
                   text=True, check=True, stdout=subprocess.DEVNULL)
    told = subprocess.run([*command, folder + "/whole"], check=True, capture_output=True, text=True).stdout
    wanted = r"the usual order has \d+ other choices: at most about .* with 2 \(estimated\)\n(.*\n)+outcomes: \d+, of \d+ class"
    yield "an exploration's estimate and outcomes are told", None if re.match(wanted, told) else told
    parts = [lines_of(f"{folder}/result{it}") for it in range(1, 5)]
    same = what_was_found(set.union(*parts)) == what_was_found(lines_of(folder + "/whole"))
    yield "four parts of an exploration, merged", None if same else "they differ from the whole"


def test_stopped(run, bench):
    """An exploration that is stopped tells which part of it was made."""
    told = bench.ran("--every-order", "--rounds", "9", "--judge", "1", "--minutes", "0.03", HERE + "/stacks/keyboard.c")
    wanted = r"stopped, since time is up: (all with \d, about \d+ % of those with .* \(estimated\)|some of those with .*), "
    well = told.returncode == 3 and re.search(wanted, told.stdout)
    yield "an exploration that is stopped tells how far it came", None if well else told.stdout


CROWD = r"""#include <wdm.h>
#include "wdm_test.h"
#include <pthread.h>
enum { MANY = 14 };
static PDEVICE_OBJECT top;
static LONG busy;
static NTSTATUS Read(PDEVICE_OBJECT DeviceObject, PIRP Irp)
{
    const BOOLEAN is_busy = InterlockedExchange(&busy, TRUE) == TRUE;
    InterlockedExchange(&busy, FALSE);
    Irp->IoStatus.Status = STATUS_SUCCESS;
    Irp->IoStatus.Information = is_busy ? 17 : 0; /* more than there is */
    IoCompleteRequest(Irp, IO_NO_INCREMENT);
    return STATUS_SUCCESS;
}
static NTSTATUS Entry(PDRIVER_OBJECT DriverObject, PUNICODE_STRING RegistryPath)
{
    DriverObject->MajorFunction[IRP_MJ_READ] = Read;
    return IoCreateDevice(DriverObject, 0, NULL, FILE_DEVICE_NULL, 0, FALSE, &top);
}
static void *reader(void *context)
{
    WdmSend(top, IRP_MJ_READ, 0, 16);
    return context;
}
int main(void)
{
    pthread_t threads[MANY];
    WdmLoadDriver("crowd", Entry);
    for (int i = 0; i < MANY; i++)
        pthread_create(&threads[i], NULL, reader, NULL);
    for (int i = 0; i < MANY; i++)
        pthread_join(threads[i], NULL);
    return WdmFinish();
}
"""


def test_crowd(bench):
    """Fourteen threads have more orders without a preemption than can be made: a failure that needs one is found in the time."""
    source = bench.folder("crowd") + "/crowd.c"
    with open(source, "w", encoding="utf-8") as it:
        it.write(CROWD)
    told = bench.ran("--every-order", "--minutes", "0.2", "--judge", "1", source)
    wanted = r"stopped, since there are too many: some of those with 0 preemptions, .*\nstopped at a failure: .* with at most 1 choice "
    well = told.returncode == 1 and re.search(wanted, told.stdout) and "FAULT InformationTooLong" in told.stderr
    yield "a failure behind a round that doesn't end is found", None if well else told.stdout + told.stderr[-400:]


def normal(text):
    """Returns a transcript with its packets, seats and tags named as they come."""
    names = {}

    def name(kind, it):
        return names.setdefault((kind, str(it)), sum(key[0] == kind for key in names))

    def walk(it, is_word):
        if isinstance(it, list):
            return [walk(part, is_word) for part in it]
        if not isinstance(it, dict):
            return it
        made = {}
        for key, value in it.items():
            if key == "shown":
                value = [value[0], name("irp", value[1:3]), *value[3:]]
            kind = {"irp": "irp", "seat": "seat", "tag": "tag", "to": "seat" if is_word else None}.get(key)
            made[key] = name(kind, value) if kind else walk(value, is_word)
        made.pop("step", None)
        return made

    return json.dumps([walk(it, "step" in it) for it in map(json.loads, text.splitlines())])


def test_distinct(run, bench):
    """Transcripts that are kept differ in more than in seats, slots and use numbers."""
    made = Explored(run, bench, "distinct", Options(bench.cc, HERE + "/stacks/removal.c", 1))
    made.report()
    texts = [it.text().decode() for it in distinct.found_in(made.folder + "/transcripts")]
    same = len(texts) - len({normal(it) for it in texts})
    yield f"{len(texts)} transcripts that are kept are distinct", f"{same} are as others" if same or len(texts) < 2 else None


def lines_of(path):
    with open(path, encoding="utf-8") as it:
        return set(it.read().splitlines())


def what_was_found(lines):
    return {it for it in lines if not it.startswith("covered ")}


def test_locks(run, bench):
    """A test's own semaphores, locks, waits with a limit, and memory; and one without its semaphore."""
    folder = bench.folder("own locks")
    for name, text, ended in (("right", own_locks.LOCKS, "done"), ("wrong", re.sub(r"    sem_(wait|post)\(&one\);\n", "", own_locks.LOCKS), "failed")):
        with open(f"{folder}/{name}.c", "w", encoding="utf-8") as it:
            it.write(text)
        report = Explored(run, bench, f"own locks {name}", Options(bench.cc, f"{folder}/{name}.c", 1)).report()
        yield f"a test's own locks, {name}", None if report.facts["ended"] == ended else str(report.facts)


def test_chance(run, bench):
    """A seed is a schedule by chance: again the same bytes, and not those of each other seed."""
    options = Options(bench.cc, HERE + "/stacks/serial.c", 0)
    options.every_order, options.shake, found = False, 1, []
    made = Explored(run, bench, "chance", options)
    for seed, name in ((7, "one"), (7, "two"), (8, "three"), (9, "four")):
        options.transcript = f"{made.folder}/{name}"
        one = run.Run(options, made.program, made.folder, seed)
        one.judge(bench.irpx)
        yield f"by chance, seed {seed}", "; ".join(one.complaints()) or None
        found.append((bytes_of(options.transcript), one.said))
    yield "by chance, a seed again, the same bytes", None if found[0] == found[1] else "they differ"
    yield "by chance, other seeds, other orders", None if len(set(found)) > 1 else "they are the same"


def tests(run, bench):
    """Returns the tests: of each a name, and a call that gives names and complaints."""
    found = [(f"race {it}", lambda it=it: test_race(run, bench, it)) for it in RACES]
    found += [(f"race {it} right", lambda it=it: test_right(run, bench, it)) for it in RACES]
    found += [(f"orders {it}", lambda it=it: test_stack(run, bench, it)) for it in STACKS]
    found += [("orders of shapes", lambda: test_shapes(run, bench)),
              ("orders of two senders", lambda: test_senders(run, bench)),
              ("untested under every order", lambda: test_untested(run, bench)),
              ("detached under every order", lambda: test_detached(run, bench)),
              ("orders in parts", lambda: test_parts(run, bench)), ("orders stopped", lambda: test_stopped(run, bench)),
              ("orders of a crowd", lambda: test_crowd(bench)),
              ("orders distinct", lambda: test_distinct(run, bench)),
              ("orders by chance", lambda: test_chance(run, bench)), ("orders with a test's own locks",
                                                                      lambda: test_locks(run, bench))]
    found += [(f"orders by snapshots {it}", lambda it=it, most=most: by_both(run, bench, it, most))
              for it, most in going_back.BY_BOTH.items()]
    found += [("limits", lambda: limits.tests(bench))]
    found += [("orders by snapshots, endings", lambda: going_back.test_endings(ends(run, bench, "endings"))),
              ("orders by forks, calls", lambda: going_back.test_calls(lambda text: ends(run, bench, "calls", text=text))),
              ("orders by forks, coverage", lambda: going_back.test_coverage(bench, HERE + "/stacks/late.c"))]
    return found + [(f"wrong explorer {it[0]}", lambda it=it: test_wrong(run, bench, *it)) for it in WRONG + going_back.WRONG]
