"""The host's own test: it finds mistakes off the usual way, tells what never ran, and is silent over right drivers."""

import json
import os
import re
from xml.etree import ElementTree

import controls
import planted

HERE = os.path.dirname(os.path.abspath(__file__))
MISTAKES = HERE + "/untested/mistakes.c"
PENDS = HERE + "/races/untested/pends.c"
NO_COMPLAINT = None


def run(bench, *words):
    """Returns what `run` prints, and its exit status."""
    made = bench.ran(*words)
    return made.stdout + made.stderr, made.returncode


def line_of(function):
    """Returns the place of a function of mistakes.c, as it is told."""
    with open(MISTAKES, encoding="utf-8") as it:
        number = next(n for n, line in enumerate(it, 1) if re.match(rf"static NTSTATUS {function}\(.*[^;]$", line))
    return f"{function} (mistakes.c:{number})"


def mistakes(bench):
    """Gives a complaint for each mistake that isn't told, and for what never ran."""
    said, _ = run(bench, MISTAKES)
    for rule, function in planted.MISTAKES:
        told = re.search(rf"^host: FAULT {rule}\b.*{re.escape(function)}\b", said, re.M)
        yield f"the host's own test finds {rule} {function}", NO_COMPLAINT if told else said[-1500:]
    said, status = run(bench, "--coverage", "--cflag=-DRIGHT", MISTAKES)
    number = line_of("Volume").split(":")[1][:-1]
    wanted = [rf"^never ran   {re.escape(line_of('Volume'))}$", "^never came  QUERY_VOLUME_INFORMATION to Volume$",
              rf"^lines       mistakes\.c:.*\b{number}\b"]
    missing = [it for it in wanted if not re.search(it, said, re.M)]
    yield "the host's own test over a right driver tells what never ran", \
        f"status {status}, no {missing}: {said[-1500:]}" if status or missing else NO_COMPLAINT


def situations(bench):
    """The last line says what `clean` covers; what wasn't made is told with its reason, also to programs, and fails with
    --strict."""
    folder = bench.folder("situations")
    out = [f"{folder}/{it}" for it in ("out.json", "out.xml")]
    words = ["--json", out[0], "--junit", out[1], "--cflag=-DRIGHT", MISTAKES]
    said, status = run(bench, *words)
    line = re.search(r"^clean: (\d+) of (\d+) situations; not made: (.*)$", said, re.M)
    with open(out[0], encoding="utf-8") as it:
        made = json.load(it)
    unmade = [it["name"] for it in made["situations"] if not it["made"]]
    reasons = [re.search(f"^not made .*{re.escape(it['name'])}.*: {re.escape(it['because'])}$", said, re.M)
               for it in made["situations"] if not it["made"]]
    well = line and status == 0 and unmade == line[3].split("; ") and int(line[2]) - int(line[1]) == len(unmade) and all(reasons)
    yield "what clean covers is told", NO_COMPLAINT if well else said[-900:]
    well = "QUERY_VOLUME_INFORMATION to Volume" in made["never"]["majors"] and made["status"] == 0
    yield "and what never came, to programs", NO_COMPLAINT if well else str(made["never"])
    suite = ElementTree.parse(out[1]).getroot()
    skipped = [it.get("name") for it in suite.iter("testcase") if it.find("skipped") is not None]
    yield "and to test servers", NO_COMPLAINT if skipped == unmade and suite.get("failures") == "0" else str(skipped)
    said, status = run(bench, "--strict", *words)
    failed = ElementTree.parse(out[1]).getroot().get("failures")
    well = status == 1 and re.search("^NOT CLEAN: ", said, re.M) and failed == str(len(unmade))
    yield "and fails where all are wanted", NO_COMPLAINT if well else f"status {status}, {failed}: {said[-600:]}"


def without_its_test(bench, name):
    """Returns a copy of a stack whose own test is left out."""
    with open(f"{HERE}/stacks/{name}.c", encoding="utf-8") as it:
        text = it.read()
    source = f"{bench.folder('own test')}/its_{name}.c"
    text = text.replace("int main(void)", "static int __attribute__((unused)) its_main(void)")
    with open(source, "w", encoding="utf-8") as it:
        it.write(text.replace('"common.h"', f'"{HERE}/stacks/common.h"'))
    return source


def silent(bench, name):
    """Gives a complaint where the host's own test isn't clean over a stack."""
    said, status = run(bench, without_its_test(bench, name))
    yield f"the host's own test over stack {name}", NO_COMPLAINT if not status else said[-900:]


def children(bench):
    """Gives a complaint where a filter doesn't come onto a bus's children, or is told of where it isn't there."""
    bus, known = without_its_test(bench, "enumerate"), re.compile(r"^never ran .*Filter(?!Fail)", re.M)
    said, status = run(bench, bus, "--on", "Port", HERE + "/samples/filter.c")
    well = not status and not known.search(said) and "was met by FilterReadDone" in said
    yield "the host's own test with a filter on a bus's children", NO_COMPLAINT if well else said[-900:]
    said, status = run(bench, bus)
    yield "and without it", NO_COMPLAINT if not status and "Filter" not in said else said[-900:]


def samples(bench):
    """Gives a complaint where the host's own test isn't clean over the samples."""
    said, status = run(bench, *(f"{HERE}/samples/{it}.c" for it in ("bus", "toaster", "filter")))
    yield "the host's own test over the samples", NO_COMPLAINT if not status else said[-900:]


def line_in_pends(rule):
    with open(PENDS, encoding="utf-8") as it:
        return next(n for n, line in enumerate(it, 1) if f"/* told: {rule} */" in line)


def held_at_removal(bench):
    """Gives a complaint where a driver whose removal leaves reads in its queue isn't told, by its line, or where it is told
    of one that ends them: plainly, and in every order."""
    told = re.compile(rf"^host: FAULT NotDrained .*: pends\.c:{line_in_pends('NotDrained')} in Pnp .*pends\.c:\d+ in Read ", re.M)
    kept = re.compile(rf"^host: FAULT KeptOverSurprise .*: pends\.c:{line_in_pends('KeptOverSurprise')} in Read: ", re.M)
    orders = ["--every-order", "--preemptions", "1", "--processes", "1", "--judge", "2", "--scenario"]
    for name, words in (("plainly", []), ("removed, every order", [*orders, "remove"]),
                        ("gone by surprise, every order", [*orders, "surprise"])):
        said, status = run(bench, "--cflag=-DRIGHT", "--cflag=-DUNDRAINED", *words, PENDS)
        well = status == 1 and told.search(said) and bool(kept.search(said)) == ("remove" not in words)
        yield f"reads are held at a removal, {name}", NO_COMPLAINT if well else said[-900:]
        said, status = run(bench, "--cflag=-DRIGHT", *words, PENDS)
        yield f"reads are ended by a removal, {name}", NO_COMPLAINT if not status and "FAULT" not in said else said[-900:]
    said, status = run(bench, "--cflag=-DRIGHT", "--cflag=-DLATE", *orders, "surprise", PENDS)
    well = status == 1 and kept.search(said)
    yield "a read that comes when the device is gone is held, every order", NO_COMPLAINT if well else said[-900:]
    held = re.compile(rf"^host: FAULT InFlight .*: pends\.c:{line_in_pends('InFlight')} in Pnp .*which D1 \(pends\) holds ", re.M)
    for flags, name, is_told in (("LATE", "fails by its remove lock", False), ("LATE IGNORES", "is held", True)):
        said, status = run(bench, "--cflag=-DRIGHT", *(f"--cflag=-D{it}" for it in flags.split()), PENDS)
        others = set(re.findall(r"FAULT (\w+)", said)) - {"KeptOverCleanup"}  # the late read is held over that, too
        well = status == 1 and bool(held.search(said)) == is_told and (is_told or not others)
        yield f"a read that comes while the device is removed {name}", NO_COMPLAINT if well else said[-900:]


def named_file(bench):
    """Gives a complaint where a source that names FileObject has no request held over its removal."""
    source = f"{bench.folder('named file')}/named_file.c"
    with open(PENDS, encoding="utf-8") as it, open(source, "w", encoding="utf-8") as out:
        out.write(it.read() + "/* It looks at no FileObject, and sets no FsContext. */\n")
    said, status = run(bench, "--cflag=-DRIGHT", "--cflag=-DUNDRAINED", source)
    well = status == 1 and "FAULT NotDrained" in said and "FAULT KeptOverSurprise" in said
    yield "reads are held over a removal where the source names FileObject", NO_COMPLAINT if well else said[-900:]


# A read of 4,095 bytes is completed twice; a control stops the system where it comes beside itself.
SELDOM = r"""#include <wdm.h>
#define IOCTL_SELDOM_WORK CTL_CODE(FILE_DEVICE_UNKNOWN, 0x850, METHOD_BUFFERED, FILE_ANY_ACCESS)
static LONG busy, inside;
static NTSTATUS Complete(PIRP Irp, NTSTATUS Status)
{
    Irp->IoStatus.Status = Status;
    Irp->IoStatus.Information = 0;
    IoCompleteRequest(Irp, IO_NO_INCREMENT);
    return Status;
}
static NTSTATUS Read(PDEVICE_OBJECT DeviceObject, PIRP Irp)
{
    UNREFERENCED_PARAMETER(DeviceObject);
    if (IoGetCurrentIrpStackLocation(Irp)->Parameters.Read.Length == TWICE)
        Complete(Irp, STATUS_SUCCESS);
    return Complete(Irp, STATUS_SUCCESS);
}
static NTSTATUS Control(PDEVICE_OBJECT DeviceObject, PIRP Irp)
{
    UNREFERENCED_PARAMETER(DeviceObject);
    if (IoGetCurrentIrpStackLocation(Irp)->Parameters.DeviceIoControl.IoControlCode != IOCTL_SELDOM_WORK)
        return Complete(Irp, STATUS_INVALID_DEVICE_REQUEST);
#ifdef RIGHT
    if (InterlockedCompareExchange(&busy, 1, 0))
        return Complete(Irp, STATUS_DEVICE_BUSY);
#else
    if (busy)
        return Complete(Irp, STATUS_DEVICE_BUSY);
    busy = 1;
#endif
    if (InterlockedIncrement(&inside) != 1)
        KeBugCheckEx(0xE2, 0, 0, 0, 0);
    InterlockedDecrement(&inside);
    InterlockedExchange(&busy, 0);
    return Complete(Irp, STATUS_SUCCESS);
}
static NTSTATUS Open(PDEVICE_OBJECT DeviceObject, PIRP Irp)
{
    UNREFERENCED_PARAMETER(DeviceObject);
    return Complete(Irp, STATUS_SUCCESS);
}
NTSTATUS DriverEntry(PDRIVER_OBJECT DriverObject, PUNICODE_STRING RegistryPath)
{
    PDEVICE_OBJECT device;
    UNREFERENCED_PARAMETER(RegistryPath);
    DriverObject->MajorFunction[IRP_MJ_CREATE] = DriverObject->MajorFunction[IRP_MJ_CLEANUP] = Open;
    DriverObject->MajorFunction[IRP_MJ_CLOSE] = Open;
    DriverObject->MajorFunction[IRP_MJ_READ] = Read;
    DriverObject->MajorFunction[IRP_MJ_DEVICE_CONTROL] = Control;
    return IoCreateDevice(DriverObject, 0, NULL, FILE_DEVICE_UNKNOWN, 0, FALSE, &device);
}
"""


def seldom(bench):
    """--verify has all that the plain run tries, and --every-order has controls beside themselves: it tells which it made."""
    source = bench.folder("seldom") + "/seldom.c"
    with open(source, "w", encoding="utf-8") as it:
        it.write(SELDOM)
    said, status = run(bench, "--verify", "--minutes", "0.2", "--processes", "1", "--cflag=-DTWICE=4095", source)
    well = status == 1 and re.search("FAULT CompletedTwice .*seldom.c:", said)
    yield "--verify tells what the plain run does", NO_COMPLAINT if well else said[-900:]
    orders = ["--every-order", "--processes", "1", "--cflag=-DTWICE=1000"]
    said, status = run(bench, *orders, source)
    well = status == 1 and "IOCTL_SELDOM_WORK beside itself" in said and re.search("FAULT BugCheck.* in Control", said)
    yield "every order has a control beside itself", NO_COMPLAINT if well else said[-900:]
    said, status = run(bench, "--cflag=-DRIGHT", *orders, source)
    line = re.search(r"^clean: (\d+) of (\d+) situations$", said, re.M)
    well = status == 0 and line and line[1] == line[2] and re.search("^IOCTL_SELDOM_WORK beside itself: every", said, re.M)
    yield "and says which pieces it made", NO_COMPLAINT if well else said[-900:]


def place_in(source, text):
    """Returns the place of the only line of a file that has this text."""
    with open(source, encoding="utf-8") as it:
        (number,) = [n for n, line in enumerate(it, 1) if text in line]
    return f"{os.path.basename(source)}:{number}"


def asleep(bench):
    """A timer that goes off while its device has no power gets a note, which is no fault; one that is cancelled gets none."""
    source = HERE + "/untested/ticks.c"
    said, status = run(bench, source)
    told = f"note, a timer in D3: the timer that was set at {place_in(source, 'KeSetTimerEx(')} goes off while D" in said
    yield "a timer that goes off without power", NO_COMPLAINT if told and not status else f"status {status}: {said[-900:]}"
    said, _ = run(bench, "--verify", "--minutes", "0.05", "--processes", "1", source)
    told = re.search(r"^host: note, a timer in D3: .*\n  again with  run ", said, re.M)
    yield "--verify tells that note", NO_COMPLAINT if told else said[-900:]
    said, status = run(bench, "--cflag=-DRIGHT", source)
    yield "and one that is cancelled before", NO_COMPLAINT if not status and "a timer in D3" not in said else said[-900:]


def own_packet(bench):
    """A driver's own packet that is freed at the removal is on its way then where the device below takes its time."""
    source = HERE + "/untested/beats.c"
    for name, words, is_told in (("at once below", [], False), ("pended below", ["--pend", "1"], True),
                                 ("pended below, and waited for", ["--pend", "1", "--cflag=-DRIGHT"], False)):
        said, status = run(bench, *words, source)
        told = re.search(rf"FAULT InFlight .*{re.escape(place_in(source, 'told: InFlight'))} in Pnp.*IoFreeIrp", said)
        well = bool(told) == is_told and status == is_told
        yield f"an own packet at the removal, {name}", NO_COMPLAINT if well else f"status {status}: {said[-900:]}"


# Control codes by macros of CTL_CODE, by one of the driver's own over it, in an enum, a table, a comparison, and without it.
CODES = """#include <wdm.h>
#define MINE(n) CTL_CODE(FILE_DEVICE_UNKNOWN, 0x800 + (n), METHOD_BUFFERED, FILE_ANY_ACCESS)
#define IOCTL_A MINE(1)
#define OTHER ((0x22u << 16) | (0x903 << 2))
enum { IOCTL_B = CTL_CODE(FILE_DEVICE_UNKNOWN, 0x810, METHOD_NEITHER, FILE_ANY_ACCESS) };
static const ULONG table[] = { MINE(7) };
ULONG Find(ULONG code, ULONG other)
{
    switch (code) {
    case IOCTL_A: return 1;
    case MINE(2): return 2;
    case IOCTL_B: return table[0];
    case OTHER: return 3;
    }
    return code == other || code == MINE(3);
}
"""
FOUND = {0x222004: "IOCTL_A", 0x222008: "MINE(2)", 0x22200C: "MINE(3)", 0x222043: "IOCTL_B", 0x22240C: "OTHER",
         0x22201C: "CTL_CODE(FILE_DEVICE_UNKNOWN, 0x800 + (7), METHOD_BUFFERED, 0)"}
# A driver that knows a code which stands nowhere.
HIDDEN = """#include <wdm.h>
static NTSTATUS Control(PDEVICE_OBJECT DeviceObject, PIRP Irp)
{
    const ULONG code = IoGetCurrentIrpStackLocation(Irp)->Parameters.DeviceIoControl.IoControlCode;
    UNREFERENCED_PARAMETER(DeviceObject);
    const NTSTATUS status = (code >> 2 & 0xfff) == 0x977 ? STATUS_SUCCESS : STATUS_INVALID_DEVICE_REQUEST;
    Irp->IoStatus.Status = status;
    Irp->IoStatus.Information = 0;
    IoCompleteRequest(Irp, IO_NO_INCREMENT);
    return status;
}
static NTSTATUS Open(PDEVICE_OBJECT DeviceObject, PIRP Irp)
{
    UNREFERENCED_PARAMETER(DeviceObject);
    Irp->IoStatus.Status = STATUS_SUCCESS;
    IoCompleteRequest(Irp, IO_NO_INCREMENT);
    return STATUS_SUCCESS;
}
NTSTATUS DriverEntry(PDRIVER_OBJECT DriverObject, PUNICODE_STRING RegistryPath)
{
    PDEVICE_OBJECT device;
    UNREFERENCED_PARAMETER(RegistryPath);
    DriverObject->MajorFunction[IRP_MJ_CREATE] = DriverObject->MajorFunction[IRP_MJ_CLOSE] = Open;
    DriverObject->MajorFunction[IRP_MJ_CLEANUP] = Open;
    DriverObject->MajorFunction[IRP_MJ_DEVICE_CONTROL] = Control;
    return IoCreateDevice(DriverObject, 0, NULL, FILE_DEVICE_UNKNOWN, 0, FALSE, &device);
}
"""


def codes(bench):
    """Control codes are found in whatever way a source makes them; where a dispatch takes none that is known, that is told."""
    folder = bench.folder("codes")
    for name, text in (("codes", CODES), ("hidden", HIDDEN)):
        with open(f"{folder}/{name}.c", "w", encoding="utf-8") as it:
            it.write(text)
    made = controls.candidates(bench.cc, ["-fshort-wchar", f"-I{HERE}/include"], [f"{folder}/codes.c"])
    yield "control codes in a source", NO_COMPLAINT if made == FOUND else str({hex(it): made[it] for it in made})
    said, status = run(bench, f"{folder}/hidden.c")
    told = re.search("^no code     was known to Control: give --controls$", said, re.M)
    unmade = re.search("^not made .*each control code that the source names.*: no driver took a control code", said, re.M)
    yield "a dispatch whose codes aren't known", NO_COMPLAINT if told and unmade and not status else said[-900:]
    said, status = run(bench, "--controls", "0x2225dc", f"{folder}/hidden.c")
    yield "and where one is given", NO_COMPLAINT if not status and "no code " not in said else said[-900:]


# Drivers of untested/ with a mistake: its number, what it is, the rule, where that is told, and of what; the run's flags.
BUGS = [("holds", 1, "power comes back, and what is held isn't answered", "NotRestored", "NotRestored", "IRP_MN_SET_POWER to PowerDeviceD0"),
        ("holds", 2, "power comes back, and all is still held", "NotRestored", "NotRestored", "IRP_MN_SET_POWER to PowerDeviceD0"),
        ("holds", 3, "a removal is called off, and all is still held", "NotRestored", "NotRestored", "IRP_MN_CANCEL_REMOVE_DEVICE"),
        ("holds", 4, "a stop is called off, and all is still held", "NotRestored", "NotRestored", "IRP_MN_CANCEL_STOP_DEVICE"),
        ("holds", 5, "a device starts again, and all is still held", "NotRestored", "NotRestored", "IRP_MN_START_DEVICE"),
        ("usage", 1, "a paging file counts that is refused below", "UsageKept", "UsageKept", "DO_POWER_PAGABLE cleared"),
        ("usage", 2, "the flag stays for one that is refused below", "UsageKept", "UsageKept", "DO_POWER_PAGABLE cleared"),
        ("usage", 3, "only the count stays", "UsageKept", "UsageKept", "0x1 at byte 8 of its device extension"),
        ("waits", 1, "a queue gives a request of another file", "CleanupOfAnother", "CleanupOfAnother", "IRP_MJ_CLEANUP of the file"),
        ("waits", 2, "a file is closed, and its waits are held", "KeptOverCleanup", "KeptOverCleanup", "still holds it"),
        ("waits", 3, "STATUS_PENDING for a wait that isn't kept", "Returned", None, "in Control, dispatch for DEVICE_CONTROL"),
        ("waits", 4, "the same, which isn't completed", "Returned", None, "in Control, dispatch for DEVICE_CONTROL"),
        ("adds", 1, "two requests add to a sum at once", "LostUpdate", "LostUpdate", "one of the two changes is lost",
         "--every-order", "--preemptions", "1", "--processes", "1", "--scenario", "overlap"),
        ("answers", 1, "a variable that isn't set goes to a program", "Unwritten", "Unwritten", "a variable that isn't set was copied to"),
        ("answers", 2, "a block that isn't set goes to a program", "Unwritten", "Unwritten", "a block that isn't set was copied to"),
        ("answers", 3, "an open with a name is completed twice", "CompletedTwice", None, "in Complete"),
        ("answers", 4, "a length of the input is trusted", "PoolOverrun", "PoolOverrun", "in TakeName", "--page-ends"),
        ("signals", 1, "an object of any type is taken by a program's handle", "HandleType", "HandleType", "with NULL in place of a type"),
        ("signals", 3, "a program's event is never given back", "LeftBehind", "HandleType", "a reference to a program's event"),
        ("signals", 4, "a program's handle is taken in a work item", "HandleContext", "HandleType", "in a thread that isn't the program's"),
        ("inside", 1, "an internal control is completed twice", "CompletedTwice", "CompletedTwice", "in Complete"),
        ("inside", 2, "an internal control beside itself", "BugCheck", None, "in Inside",
         "--every-order", "--processes", "1", "--judge", "1")]


def bugs(bench, name):
    """Gives a complaint where a mistake of such a driver isn't told by rule, driver, file and line, or where its right
    counterpart isn't clean."""
    source, flags = f"{HERE}/untested/{name}.c", []
    for number, what, rule, at, words, *flags in ((it[1:]) for it in BUGS if it[0] == name):
        said, status = run(bench, *flags, "--cflag", f"-DBUG={number}", source)
        place = re.escape(place_in(source, f"told: {at}")) if at else rf"{name}\.c:\d+"
        told = re.search(rf"^host: FAULT {rule}\b.*: {place} .*{re.escape(words)}", said, re.M)
        yield f"{what}: {rule}", NO_COMPLAINT if told and status == 1 else f"status {status}: {said[-1200:]}"
    said, status = run(bench, *flags, source)
    yield f"{name} without a mistake", NO_COMPLAINT if not status else f"status {status}: {said[-1200:]}"


def packed(bench):
    """A handle is sent where a structure of the source's own has it."""
    source = HERE + "/untested/signals.c"
    for number in 0, 1:
        said, status = run(bench, "--cflag=-DPACKED", f"--cflag=-DBUG={number}", source)
        well = status == number and (not number or "FAULT HandleType" in said)
        yield f"a handle in a packed structure, bug {number}", NO_COMPLAINT if well else said[-900:]


def inside(bench):
    """What drivers take from each other alone is sent as an internal control, and isn't told as never taken."""
    said, status = run(bench, HERE + "/untested/inside.c")
    well = not status and "never taken" not in said and not re.search("^not made .*internal control", said, re.M)
    yield "an internal control that the source names", NO_COMPLAINT if well else said[-900:]
    said, status = run(bench, "--cflag=-DMETHOD=METHOD_NEITHER", HERE + "/untested/inside.c")
    told = re.search("^not made .*each internal control that the source names: a structure of the sender's", said, re.M)
    well = told and not status and "never taken IOCTL_INSIDE_WORK" in said
    yield "and one that has a structure of its sender's", NO_COMPLAINT if well else said[-900:]


def with_its_flag(bench):
    """Gives a complaint where a driver that sets DO_BUFFERED_IO has no system buffer. Without it hostile/ tells that."""
    said, status = run(bench, "--cflag=-DRIGHT", HERE + "/hostile/has_no_buffer.c")
    yield "a read has a system buffer by DO_BUFFERED_IO", NO_COMPLAINT if not status else said[-900:]


def tests(bench):
    """Returns the tests: of each a name, and a call that gives names and complaints."""
    return [("own test, mistakes", lambda: mistakes(bench)), ("own test, situations", lambda: situations(bench)), ("own test, samples", lambda: samples(bench)),
            ("own test, packed", lambda: packed(bench)), ("own test, held at removal", lambda: held_at_removal(bench)),
            ("own test, a named file", lambda: named_file(bench)), ("own test, seldom", lambda: seldom(bench)),
            ("own test, asleep", lambda: asleep(bench)), ("own test, an own packet", lambda: own_packet(bench)),
            ("own test, a buffer's flag", lambda: with_its_flag(bench)),
            ("own test, codes", lambda: codes(bench)),
            ("own test, inside", lambda: inside(bench)),
            *((f"own test, bugs of {it}", lambda it=it: bugs(bench, it)) for it in ("holds", "usage", "waits", "adds", "answers", "signals", "inside")),
            ("own test, children", lambda: children(bench)),
            *((f"own test, stack {it}", lambda it=it: silent(bench, it)) for it in planted.FOR_OWN_TEST)]
