"""What drivers of the last ten years call: each file of newer/ and each of its stacks right, and made wrong. A comment says
what is told, and by which run: `told 3: Rule`, or `told 5, by --every-order: Rule`. Who builds with -DWRONG=3 gets it; the tests
build a file once, and say the number when it runs (newer/wrong.h)."""

import os
import re
import subprocess

HERE = os.path.dirname(os.path.abspath(__file__))
TOLD = re.compile(r"/\* told (\d+)(?:, by ([-\w ]+))?: (\w+) \*/")
STACKS = ["clock", "mover"]
AT_RUN = ["-include", HERE + "/newer/wrong.h"]
# What such drivers call, by name.
NAMES = """IoGetRelatedDeviceObject MmGetSystemRoutineAddress RtlInitializeBitMap RtlSetBits RtlClearBits RtlFindClearBitsAndSet
    ExAllocateTimer ExSetTimer ExCancelTimer ExDeleteTimer KeSetCoalescableTimer IoConnectInterruptEx IoDisconnectInterruptEx
    ExInitializeLookasideListEx ExAllocateFromLookasideListEx ExAcquireSpinLockExclusive ExAcquireSpinLockShared
    ExAcquirePushLockExclusive ExAcquirePushLockShared IoInitializeWorkItem IoQueueWorkItemEx ExQueueWorkItem ExCreateCallback
    ExRegisterCallback ObOpenObjectByPointer IoCheckShareAccess IoSetShareAccess IoRemoveShareAccess RtlULongAdd RtlULongMult
    MmAllocatePagesForMdlEx PoRegisterPowerSettingCallback PoFxRegisterDevice KeStackAttachProcess IoGetDmaAdapter
    AllocateCommonBuffer GetScatterGatherList MapTransfer""".split()


def files():
    """Returns the paths of all files, below this folder."""
    return [f"newer/{it}" for it in sorted(os.listdir(HERE + "/newer")) if it.endswith(".c")] + [f"stacks/{it}.c" for it in STACKS]


def mistakes_in(path):
    """Gives for each mistake its number, the run that tells it, its rule, and the lines at which it may be told."""
    found = {}
    with open(f"{HERE}/{path}", encoding="utf-8") as it:
        for number, line in enumerate(it, 1):
            for wrong, run, rule in TOLD.findall(line):
                found.setdefault((int(wrong), run, rule), []).append(f"{os.path.basename(path)}:{number}")
    return sorted(found.items())


def run_of(bench, path, number, way, program):
    """Returns what a run with this mistake says, and whether all is well: of the program that has all of them, or in
    another way, for which it is built alone."""
    if way:
        made = bench.ran(f"--cflag=-DWRONG={number}", *way.split(), f"{HERE}/{path}")
        return made.stderr + made.stdout, not made.returncode
    run = bench.run(os.path.dirname(program), program, timeout=600, settings={"WRONG": str(number)})
    return run.said, not run.complaints()


def whole(bench, path, kind="newer"):
    """The file is clean, and each of its mistakes is told first, by its rule and at its line."""
    program = bench.build(bench.folder(path), [f"{HERE}/{path}"], flags=AT_RUN)
    run = bench.run(os.path.dirname(program), program, timeout=600)
    yield f"{kind}: {path}", "; ".join([*run.complaints(), run.said[-600:]]) if run.complaints() else None
    for (number, way, rule), lines in mistakes_in(path):
        said, is_well = run_of(bench, path, number, way, program)
        first = next((it for it in said.splitlines() if re.search("FAULT|STOPPED", it)), "nothing is told")
        is_told = re.search(rf"FAULT {rule}\b", first) and any(f"{it} in " in first for it in lines) and not is_well
        yield f"{kind}: {path}, {number}: {rule}", None if is_told else f"it isn't {rule} at {' or '.join(lines)}: {first}"


def right(bench, path, *words):
    """It is clean in such a run."""
    made = bench.ran(*words, f"{HERE}/{path}")
    said = made.stderr + made.stdout
    well = made.returncode in (0, 3) and not re.search("FAULT|STOPPED|NOT CLEAN", said)
    yield f"newer: {path} {' '.join(words)}", None if well else said[-600:]


LACKS = """#include <wdm.h>
void Call(POHANDLE handle, PDMA_ADAPTER adapter)
{
    PoFxCompleteDirectedPowerDown(handle);
    adapter->DmaOperations->JoinDmaDomain(adapter, 0);
}
"""


def names(bench):
    """What newer drivers call is there; of what isn't, a compile gives the name."""
    made = subprocess.run([HERE + "/interface", "--count"], capture_output=True, text=True, check=False)
    yield "newer: names", made.stdout if made.returncode else None
    source = bench.folder("newer lacks") + "/lacks.c"
    with open(source, "w", encoding="utf-8") as it:
        it.write(LACKS)
    said = bench.ran("--missing", source).stdout
    wanted = ("PoFxCompleteDirectedPowerDown (power)", "the member JoinDmaDomain (DMA)")
    yield "newer: what isn't there", None if all(f": {it}\n" in said for it in wanted) else said


def tests(bench):
    """Returns the tests: of each a name, and a call that gives names and complaints."""
    found = [(f"newer {it}", lambda it=it: whole(bench, it)) for it in files()]
    found += [(f"newer {it} verified", lambda it=it: right(bench, it, "--verify", "--minutes", "0.4", "--processes", "1"))
              for it in files()]
    found += [(f"newer pofx version {it}", lambda it=it: right(bench, "newer/pofx.c", f"--cflag=-DPO_FX_VERSION={it}")) for it in (2, 3)]
    return found + [("newer names", lambda: names(bench))]
