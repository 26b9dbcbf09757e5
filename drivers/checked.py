"""The cases of rules/: each breaks one rule of VERIFIER.md, is told at the line that says so, and is silent where it
keeps the rule."""

import itertools
import json
import os
import re
import shlex
import subprocess
import sys
from xml.etree import ElementTree

import as_windows
import host_files
import mistakes
import planted
import reaching

HERE = os.path.dirname(os.path.abspath(__file__))
# What the run of a case needs, by the end of its name.
SETTINGS = {"_Routine": {"WDM_ROUTINES_HIGH": "1"}, "_PageEnds": {"WDM_PAGE_ENDS": "1"}}
# What is told of these depends on time, but where that passes only while all wait.
BY_SCHEDULE = ("TouchedAfterSend", "UsedInFreedMemory_Event")
NO_COMPLAINT = None

# Drivers of unlucky/ that stand on each other, and the runs that tell the last one's mistakes. A plain run tells none
# of them; where RIGHT is defined there are none. Each is told at its own line.
UNLUCKY = [(["allocates"], "--verify"), (["answers", "asks"], "--force-pending"), (["keeps"], "--cancel-everywhere")]
# More runs of a plan, where one doesn't tell a mistake: a pended packet ends after a moment, in which a thread may get no processor.
TRIES = 4
LENT = " ".join(f"stacks/lent/{it}.c" for it in ("transport", "client", "test"))
PORTS = "--library stacks/ports/portclass.c stacks/ports/portmini.c stacks/ports/test.c"
VERIFIED = ["samples",
            *(f"stacks/{it}.c" for it in "children removal retry handover direct port enumerate".split()),
            PORTS, *(f"--args {it}=1 shapes" for it in ("SplitTransfer", "ToAWorker", "WaitElsewhere"))]


def lines_told():
    """Returns where each case is told: a list of `file:line`."""
    found = {}
    for name in sorted(os.listdir(HERE + "/rules")):
        with open(f"{HERE}/rules/{name}", encoding="utf-8") as it:
            for number, line in enumerate(it, 1):
                for case in re.findall(r"/\* told: (\w+) \*/", line):
                    found.setdefault(case, []).append(f"{name}:{number}")
    return found


def wrong_case(case, places, run):
    """Returns what is wrong with the run of a case that breaks its rule, or None."""
    told = [line for line in run.said.splitlines() if "FAULT" in line]
    rule = case.split("_")[0]
    if not told:
        return f"nothing is told ({run.verdict})"
    if not told[0].startswith(f"host: FAULT {rule} (") or "Remedy: " not in told[0]:
        return f"the first line isn't of {rule}: {told[0]}"
    if not any(it + " in " in told[0] for it in places):
        return f"the first line isn't at {' or '.join(places)}: {told[0]}"
    return NO_COMPLAINT if run.complaints() else "it counts as clean"


class BySchedule:
    """A run of a case that breaks its rule, in the usual order of its threads."""

    def __init__(self, bench, case):
        made = bench.ran("--schedule", "usual", "--args", f"{case} wrong", HERE + "/rules")
        self.said, self.verdict, self.status = made.stderr, made.stdout, made.returncode

    def complaints(self):
        return self.status == 1


def tests(bench, names_of, complaint):
    """Gives a name and a complaint for each case, broken and kept, and for each rule without a case."""
    folder = bench.folder("rules")
    program = bench.build(folder, [HERE + "/rules"])
    places, names = lines_told(), names_of(program)
    for case in names:
        if not bench.wants(f"rule {case}, broken", f"rule {case}, kept"):
            continue
        settings = SETTINGS.get("_" + case.partition("_")[2], {})
        wrong = BySchedule(bench, case) if case in BY_SCHEDULE else \
            bench.run(folder, program, args=f"{case} wrong", patience=1, settings=settings)
        yield f"rule {case}, broken", wrong_case(case, places.get(case, []), wrong)
        right = bench.run(folder, program, args=f"{case} right", settings=settings)
        yield f"rule {case}, kept", complaint(right)
    yield "each rule of the host has a case, and a row of VERIFIER.md", missing_rules(names)


def whole_plans(stacks):
    """Returns what whole plans are made over where `verified` is chosen."""
    return ["samples", PORTS, LENT, *(f"stacks/{it}.c" for it in stacks), *(f"--args {it}=all shapes" for it in planted.RIGHT_SHAPES)]


def right_verified(bench, wish, minutes=0.4):
    """Gives a complaint where a right driver isn't silent in a run. The name says how many runs of the plan were made
    within the time: all cheap ones, and as many of the others as the machine allowed. In an hour it has to be all."""
    words = [f"{HERE}/{it}" if os.path.exists(f"{HERE}/{it}") else it.replace("=", " ") for it in wish.split()]
    said, status = ran(bench, "--verify", "--minutes", str(minutes), "--processes", "1", *words)
    planned, made = (re.search(rf"^verify: (\d+) runs{end}", said, re.M) for end in ("$", ","))
    well = planned and made and status == (0 if planned[1] == made[1] or minutes == 60 else 3)
    covered = f"{made[1]} of {planned[1]} runs" if planned and made else "no run"
    yield f"verify: {wish}, {covered}", None if well else f"status {status}: {said[-600:]}"


def ran(bench, *words):
    """Returns what `run` prints, and its exit status."""
    made = bench.ran(*words)
    return made.stdout + made.stderr, made.returncode


def marks(driver):
    """Gives for each mistake of a driver its rule, and where it is told: at its line, or of a routine."""
    with open(f"{HERE}/unlucky/{driver}.c", encoding="utf-8") as it:
        for number, line in enumerate(it, 1):
            found = re.search(r"/\* told: (\w+)( in .*)? \*/", line)
            if found:
                yield found[1], found[2] or f" {driver}.c:{number}"


def unlucky(bench, drivers, flag):
    """The runs of `flag` alone tell each mistake at its line, with a command that repeats the run; the right driver is
    silent in all of them."""
    files, name = [f"{HERE}/unlucky/{it}.c" for it in drivers], drivers[-1]
    said, status = ran(bench, *files)
    yield f"{name}: a plain run is clean", said[-600:] if status else None
    words = [flag, "--minutes", "30", "--processes", "1", "--args", " ".join(drivers), *files, f"{HERE}/unlucky/test.c"]
    found, status = ran(bench, *words)
    for rule, place in marks(name):
        tells = rf"^host: (?:FAULT )?{rule}\b.*{re.escape(place)}\b"
        for said in itertools.chain([found], (ran(bench, *words)[0] for _ in range(TRIES))):
            told = re.search(rf"{tells}.*\n(?:  (?:refused|cancelled) .*\n)?  again with  run (.*)$", said, re.M)
            again, ended = ran(bench, *shlex.split(told[1])) if told else ("", 0)
            well = status == 1 and ended == 1 and re.search(tells, again, re.M)
            if well:
                break
        yield f"{name}: {flag} tells {rule}, and how to repeat it", None if well else f"status {status}: {said} {again}"
    said, status = ran(bench, "--cflag=-DRIGHT", *words)
    yield f"{name}: {flag} is silent without the mistakes", said[-600:] if status else None


NAMED = """#include "wdm_test.h"
WDM_TEST(is_there)
{
    PDRIVER_OBJECT driver = WdmLoadByName("one");
    WDM_CHECK(WdmSend(driver->DeviceObject, IRP_MJ_READ, 0, 4) == STATUS_SUCCESS);
}
WDM_TEST(a_read_has_its_bytes)
{
    PDRIVER_OBJECT driver = WdmLoadByName("one");
    WDM_CHECK(WdmSend(driver->DeviceObject, IRP_MJ_READ, 0, 4) == STATUS_SUCCESS);
    WDM_CHECK(WdmSend(driver->DeviceObject, IRP_MJ_WRITE, 0, 4) == STATUS_SUCCESS); /* there is no such dispatch */
    WdmUnloadDriver(driver);
}
"""


def named_tests(bench, driver):
    """Tests by name run alone, a check that fails is told at its line, and both reports have them."""
    folder = bench.folder("named tests")
    for name, text in ("one.c", driver), ("named.c", NAMED):
        with open(f"{folder}/{name}", "w", encoding="utf-8") as it:
            it.write(text)
    files = folder + "/one.c", folder + "/named.c"
    made = bench.ran("--tap", "--junit", folder + "/out.xml", *files)
    wanted = ["\n1..2\n", "\nok 1 - is_there\n", "\nnot ok 2 - a_read_has_its_bytes\n"]
    missing = [it for it in wanted if it not in made.stdout]
    failed = next(number for number, line in enumerate(NAMED.splitlines(), 1) if "IRP_MJ_WRITE" in line)
    if f"FAULT Check: named.c:{failed} in a_read_has_its_bytes" not in made.stderr or made.returncode != 1:
        missing.append("the check that fails")
    yield "tests by name, and TAP", f"no {missing}: {made.stdout[-600:]} {made.stderr[-600:]}" if missing else None
    suite = ElementTree.parse(folder + "/out.xml").getroot()
    cases = [(it.get("name"), it.find("failure") is not None) for it in suite.iter("testcase")]
    well = cases == [("is_there", False), ("a_read_has_its_bytes", True)] and suite.get("failures") == "1"
    yield "and JUnit", None if well else str(cases)
    alone = bench.ran("--test", "is_there", *files)
    yield "one test alone", None if alone.returncode == 0 and "a_read" not in alone.stdout else alone.stdout


NOTED = r"""#include <wdm.h>
#include "wdm_test.h"
static NTSTATUS Control(PDEVICE_OBJECT DeviceObject, PIRP Irp)
{
    PIO_STACK_LOCATION stack = IoGetCurrentIrpStackLocation(Irp);
    PUCHAR in = stack->Parameters.DeviceIoControl.Type3InputBuffer;
    if (stack->Parameters.DeviceIoControl.IoControlCode & 4)
        ProbeForRead(in, 1, 1);
    Irp->IoStatus.Status = *in ? STATUS_UNSUCCESSFUL : STATUS_SUCCESS;
    Irp->IoStatus.Information = 0;
    DeviceObject->DeviceExtension = ExAllocatePoolWithTag(NonPagedPool, 8, 'peeK');
    IoCompleteRequest(Irp, IO_NO_INCREMENT);
    return STATUS_SUCCESS;
}
static NTSTATUS Entry(PDRIVER_OBJECT DriverObject, PUNICODE_STRING RegistryPath)
{
    PDEVICE_OBJECT device;
    DriverObject->MajorFunction[IRP_MJ_DEVICE_CONTROL] = Control;
    return IoCreateDevice(DriverObject, 0, NULL, FILE_DEVICE_NULL, 0, FALSE, &device);
}
int main(int argc, char **argv)
{
    PDRIVER_OBJECT driver = WdmLoadDriver("noted", Entry);
    for (int i = 0; i < atoi(argv[1]); i++)
        WdmControl(driver->DeviceObject, argc > 2 ? 0x222007 : 0x222003, 8);
    return WdmFinish();
}
"""


def notes(bench):
    """A METHOD_NEITHER pointer without a probe, and one with it; what each of many packets leaves behind."""
    folder = bench.folder("notes")
    with open(folder + "/noted.c", "w", encoding="utf-8") as it:
        it.write(NOTED)
    program = bench.build(folder, [folder + "/noted.c"])
    line = next(number for number, text in enumerate(NOTED.splitlines(), 1) if "= *in" in text)
    said = bench.run(folder, program, args="1", settings={"WDM_PAGE_ENDS": "1"}).said
    told = re.search(rf"FAULT Unprobed \(0x50\): noted.c:{line} in Control", said)
    yield "a METHOD_NEITHER pointer that isn't probed", None if told else said[-500:]
    said = bench.run(folder, program, args="1 probed", settings={"WDM_PAGE_ENDS": "1"}).said
    yield "and one that is", said[-500:] if "METHOD_NEITHER" in said else None
    said = bench.run(folder, program, args="120 probed").said
    told = re.search(r"note, pool: of 1[12]\d blocks that were allocated at noted.c:\d+, 1\d\d aren't freed", said)
    yield "what packets leave behind", None if told else said[-500:]


def right_hostile(bench):
    """Drivers of hostile/ without what is wrong with them are clean."""
    for name in "stays_away", "leaves_its_packets", "frees_a_locked_mdl", "leaves_by_longjmp", "forgets_after_paging":
        said, status = ran(bench, "--cflag=-DRIGHT", f"{HERE}/hostile/{name}.c")
        yield f"the right counterpart of {name}", said[-500:] if status else None


COPIED = """#include <wdm.h>
#include "wdm_test.h"
static NTSTATUS Read(PDEVICE_OBJECT DeviceObject, PIRP Irp)
{
    ULONG length = IoGetCurrentIrpStackLocation(Irp)->Parameters.Read.Length;
    PUCHAR block = ExAllocatePoolWithTag(PagedPool, 64, 'ypoC');
    KIRQL irql;
    KeRaiseIrql(DISPATCH_LEVEL, &irql);
    RtlCopyMemory(block, "a copy of so many bytes", length);
    KeLowerIrql(irql);
    KeRaiseIrql(DISPATCH_LEVEL, &irql);
    RtlCopyMemory(block, "another one, as long as it", length);
    KeLowerIrql(irql);
    ExFreePoolWithTag(block, 'ypoC');
    Irp->IoStatus.Status = STATUS_SUCCESS;
    Irp->IoStatus.Information = 0;
    IoCompleteRequest(Irp, IO_NO_INCREMENT);
    return STATUS_SUCCESS;
}
NTSTATUS DriverEntry(PDRIVER_OBJECT DriverObject, PUNICODE_STRING RegistryPath)
{
    PDEVICE_OBJECT device;
    DriverObject->MajorFunction[IRP_MJ_READ] = Read;
    return IoCreateDevice(DriverObject, 0, NULL, FILE_DEVICE_NULL, 0, FALSE, &device);
}
int main(void)
{
    PDRIVER_OBJECT driver = WdmLoadDriver("copied", DriverEntry);
    for (int i = 0; i < 3; i++)
        WdmSend(driver->DeviceObject, IRP_MJ_READ, 0, 16);
    return WdmFinish();
}
"""


def copied(bench):
    """What is touched through a function of C is told by the driver's line, each line once, and how often it came. By a
    schedule these functions stand in the program."""
    path = bench.folder("copied") + "/copied.c"
    with open(path, "w", encoding="utf-8") as it:
        it.write(COPIED)
    lines = [n for n, text in enumerate(COPIED.splitlines(), 1) if "RtlCopyMemory" in text]
    for name, words in ("real threads", []), ("a schedule", ["--shake", "1"]):
        said, _ = ran(bench, *words, path)
        first = re.findall(r"FAULT PagedAtDispatch \(0xD1\): (copied.c:\d+ in Read)", said)
        again = re.findall(r"FAULT PagedAtDispatch 3 times at the same place \((copied.c:\d+ in Read)\)", said)
        well = first == again == [f"copied.c:{line} in Read" for line in lines]
        yield f"touches through a function of C, by {name}", None if well else said[-900:]


ENDED = r"""#include <wdm.h>
static IRP copy;
static NTSTATUS Read(PDEVICE_OBJECT DeviceObject, PIRP Irp)
{
    UNREFERENCED_PARAMETER(DeviceObject);
    UNREFERENCED_PARAMETER(copy);
#ifdef RIGHT
    TOUCHES;
#endif
    Irp->IoStatus.Status = STATUS_SUCCESS;
    Irp->IoStatus.Information = 0;
    IoCompleteRequest(Irp, IO_NO_INCREMENT);
#ifndef RIGHT
    TOUCHES;
#endif
    return STATUS_SUCCESS;
}
NTSTATUS DriverEntry(PDRIVER_OBJECT DriverObject, PUNICODE_STRING RegistryPath)
{
    PDEVICE_OBJECT device;
    UNREFERENCED_PARAMETER(RegistryPath);
    DriverObject->MajorFunction[IRP_MJ_READ] = Read;
    return IoCreateDevice(DriverObject, 0, NULL, FILE_DEVICE_NULL, 0, FALSE, &device);
}
"""


def ended(bench):
    """An ended packet that is copied, or counted in by an interlocked call, is told by the driver's line, by whatever
    program these functions are; before its end it isn't told."""
    path = bench.folder("ended") + "/ended.c"
    with open(path, "w", encoding="utf-8") as it:
        it.write(ENDED)
    line = max(n for n, text in enumerate(ENDED.splitlines(), 1) if "TOUCHES" in text)
    ways = [("copied", "RtlCopyMemory(&copy,Irp,sizeof(IRP))"), ("counted in", "InterlockedIncrement((LONG*)&Irp->Flags)")]
    for name, way in ways:
        for how, words in ("real threads", ["--real"]), ("a schedule", ["--shake", "1"]):
            said, status = ran(bench, *words, f"--cflag=-DTOUCHES={way}", path)
            well = status == 1 and f"FAULT Touched (used after its end): ended.c:{line} in Read(" in said
            yield f"an ended packet is {name}, by {how}", None if well else said[-900:]
        said, status = ran(bench, "--shake", "1", "--cflag=-DRIGHT", f"--cflag=-DTOUCHES={way}", path)
        yield f"a packet is {name} before its end", said[-900:] if status else None


PASSES = r"""#include <wdm.h>
typedef struct { PDEVICE_OBJECT Lower; } EXTENSION, *PEXTENSION;
static NTSTATUS Pass(PDEVICE_OBJECT DeviceObject, PIRP Irp)
{
    IoSkipCurrentIrpStackLocation(Irp);
    return IoCallDriver(((PEXTENSION)DeviceObject->DeviceExtension)->Lower, Irp);
}
static NTSTATUS Pnp(PDEVICE_OBJECT DeviceObject, PIRP Irp)
{
    PDEVICE_OBJECT lower = ((PEXTENSION)DeviceObject->DeviceExtension)->Lower;
    const UCHAR minor = IoGetCurrentIrpStackLocation(Irp)->MinorFunction;
    const NTSTATUS status = Pass(DeviceObject, Irp);
    if (minor == IRP_MN_REMOVE_DEVICE) {
        IoDetachDevice(lower);
        IoDeleteDevice(DeviceObject);
    }
    return status;
}
static NTSTATUS AddDevice(PDRIVER_OBJECT DriverObject, PDEVICE_OBJECT Pdo)
{
    PDEVICE_OBJECT device;
    NTSTATUS status = IoCreateDevice(DriverObject, sizeof(EXTENSION), NULL, FILE_DEVICE_UNKNOWN, 0, FALSE, &device);
    if (!NT_SUCCESS(status))
        return status;
    ((PEXTENSION)device->DeviceExtension)->Lower = IoAttachDeviceToDeviceStack(device, Pdo);
    device->Flags &= ~(ULONG)DO_DEVICE_INITIALIZING;
    return STATUS_SUCCESS;
}
NTSTATUS DriverEntry(PDRIVER_OBJECT DriverObject, PUNICODE_STRING RegistryPath)
{
    UNREFERENCED_PARAMETER(RegistryPath);
    for (int i = 0; i <= IRP_MJ_MAXIMUM_FUNCTION; i++)
        if ((LEAVES >> i & 1) == 0)
            DriverObject->MajorFunction[i] = i == IRP_MJ_PNP ? Pnp : Pass;
    DriverObject->DriverExtension->AddDevice = AddDevice;
    return STATUS_SUCCESS;
}
"""


def dispatches(bench):
    """Each dispatch that a driver lacks of those that have to pass on is told, whichever is asked for first; no other one."""
    path = bench.folder("dispatches") + "/passes.c"
    with open(path, "w", encoding="utf-8") as it:
        it.write(PASSES)
    majors = {"POWER": 1 << 22, "SYSTEM_CONTROL": 1 << 23, "PNP": 1 << 27}
    for left in ((), ("POWER",), ("POWER", "SYSTEM_CONTROL"), ("PNP", "POWER"), tuple(majors)):
        said, status = ran(bench, f"--cflag=-DLEAVES={sum(majors[it] for it in left)}", path)
        told = re.findall(r"FAULT NotPassedDown .*? has no dispatch for IRP_MJ_(\w+),", said)
        well = sorted(told) == sorted(left) and status == bool(left)
        yield f"a driver without a dispatch for {' and '.join(left) or 'nothing'}", None if well else f"{told} {said[-700:]}"
    said, status = ran(bench, "--json", f"{path}.json", f"--cflag=-DLEAVES={1 << 3}", path)
    with open(f"{path}.json", encoding="utf-8") as it:
        reads = [it["name"] for it in json.load(it)["situations"] if it["name"].startswith("a read")]
    yield "no situation of a read counts where no driver gets one", None if not status and not reads else f"{reads} {said[-700:]}"


STARVED = r"""#include <wdm.h>
#include "wdm_test.h"
#include <pthread.h>
#include <sched.h>
#include <time.h>
static PIRP waiting;
static BOOLEAN for_ever;
static NTSTATUS Read(PDEVICE_OBJECT DeviceObject, PIRP Irp)
{
    IoMarkIrpPending(Irp);
    waiting = Irp;
    return STATUS_PENDING;
}
void WorkAndComplete(void)
{
    struct timespec t;
    do
        clock_gettime(CLOCK_THREAD_CPUTIME_ID, &t);
    while (for_ever || t.tv_nsec < 6000000);
    waiting->IoStatus.Status = STATUS_SUCCESS;
    waiting->IoStatus.Information = 0;
    IoCompleteRequest(waiting, IO_NO_INCREMENT);
}
NTSTATUS DriverEntry(PDRIVER_OBJECT DriverObject, PUNICODE_STRING RegistryPath)
{
    PDEVICE_OBJECT device;
    DriverObject->MajorFunction[IRP_MJ_READ] = Read;
    return IoCreateDevice(DriverObject, 0, NULL, FILE_DEVICE_NULL, 0, FALSE, &device);
}
static void *work(void *context)
{
    const struct sched_param none = { 0 };
    if (!for_ever)
        sched_setscheduler(0, SCHED_IDLE, &none);
    WorkAndComplete();
    return context;
}
int main(int argc, char **argv)
{
    PDEVICE_OBJECT top = WdmLoadDriver("starved", DriverEntry)->DeviceObject;
    IO_STATUS_BLOCK iosb;
    KEVENT done;
    cpu_set_t one;
    pthread_t t;
    CPU_ZERO(&one);
    CPU_SET(0, &one);
    for_ever = argc > 1 && argv[1];
    if (!for_ever)
        sched_setaffinity(0, sizeof one, &one);
    KeInitializeEvent(&done, NotificationEvent, FALSE);
    IoCallDriver(top, WdmBuildIrp(top, IRP_MJ_READ, 0, 4, &iosb, &done));
    pthread_create(&t, NULL, work, NULL);
    KeWaitForSingleObject(&done, Executive, KernelMode, FALSE, NULL);
    pthread_join(t, NULL);
    return WdmFinish();
}
"""


def starved(bench):
    """A thread that gets hardly any of the processor, since another program has it, isn't stuck; one that runs for ever is."""
    folder = bench.folder("starved")
    with open(folder + "/starved.c", "w", encoding="utf-8") as it:
        it.write(STARVED)
    program = bench.build(folder, [folder + "/starved.c"])
    words = [sys.executable, "-c", "import os\nos.sched_setaffinity(0, {0})\nprint(flush=True)\nwhile True: pass"]
    with subprocess.Popen(words, stdout=subprocess.PIPE) as busy:
        try:
            busy.stdout.readline()
            said = bench.run(folder, program, patience=1).said
        finally:
            busy.kill()
    yield "a thread that gets no processor isn't stuck", said[-600:] if "FAULT Hang" in said else None
    said = bench.run(folder, program, args="forever", patience=1).said
    yield "a thread that runs for ever is", None if "FAULT Hang" in said else said[-600:]


def mistakes_told(bench, mistake):
    """The mistake is told first by the run that mistakes.py names, as the rule and where it names."""
    folder = bench.folder("mistake " + mistake.name)
    mistake.write(f"{folder}/{mistake.file}")
    flags = [word for key, value in mistake.flags.items()
             for word in ([f"--{key}"] if value is True else [f"--{key}", value])]
    made = bench.ran("--controls", mistakes.CONTROLS[mistake.file], *flags, f"{folder}/{mistake.file}")
    told = next((it for it in made.stderr.splitlines() if "FAULT" in it or "STOPPED" in it), "nothing is told")
    well = re.match(rf"host: (?:FAULT )?{mistake.rule}\b.*{re.escape(mistake.place)}\b", told)
    yield f"mistake: {mistake.name}", None if well else f"it isn't {mistake.rule} {mistake.place}: {told}"


def missing_rules(names):
    """Returns the rules of the host that no case breaks, or that VERIFIER.md doesn't have, or None."""
    rules = re.findall(r'^    \{ "(\w+)", ', host_files.text("checks.c"), re.M)
    with open(HERE + "/VERIFIER.md", encoding="utf-8") as it:
        page = set(re.findall(r"^\| (\w+) \|", it.read(), re.M))
    with open(HERE + "/races/untested/pends.c", encoding="utf-8") as it: # see reaching.py
        tried = {it.split("_")[0] for it in names} | set(re.findall(r"/\* told: (\w+) \*/", it.read()))
    tried |= as_windows.rules()
    tried |= {row[3] for row in reaching.BUGS}
    tried |= set(re.findall(r"FAULT (\w+)", " ".join(told for tells in planted.HOSTILE.values() for told in tells)))
    missing = [f"{it} has no case" for it in rules if it not in tried]
    missing += [f"{it} has no row" for it in rules if it not in page]
    missing += [f"{it} is a row, and no rule" for it in sorted(page - set(rules) - {"Rule"})]
    return "; ".join(missing) or None
