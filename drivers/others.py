"""Two drivers by hands that know WDM and had never seen this host (others/), with twenty mistakes that they have met in code
reviews and crash dumps. They wrote down what Windows would say of each, and where, before any run. A row has the mistake, the
WDK's page or rule, the run that tells it first, and how: by which rule, in which function; and the seconds that a processor
took for the run, compilers and all (of `--verify`, which waits more than it works, for all of its five minutes at most). Who
builds with `--cflag=-DMISTAKE_N` gets mistake N. The tests try those that a plain run tells."""

import os
import re

HERE = os.path.dirname(os.path.abspath(__file__))
FILTER, FUNCTION = HERE + "/others/rdmeter.c", HERE + "/others/sampler"
PLAIN, SEEDS, VERIFY, EVERY_ORDER = "plain", "--seeds 1..5 --threads 4", "--verify", "--every-order"
MISTAKES = [
    (1, FILTER, "a routine doesn't pass PendingReturned on", "Implementing an IoCompletion Routine", PLAIN, "Mark",
     "MeterReadDone", 1.0),
    (2, FILTER, "pool isn't looked at", "Low Resources Simulation", VERIFY, "STOPPED", "MeterRead", 6.9),
    (3, FILTER, "a skip, and then a completion routine", "IoSkipCurrentIrpStackLocation", PLAIN, "AfterSkip", "MeterRead",
     1.1),
    (4, FILTER, "IoReleaseRemoveLock in a removal", "Using Remove Locks", PLAIN, "NotDrained", "MeterPnp", 1.1),
    (5, FILTER, "IoStatus read after IoCallDriver", "IoCallDriver", PLAIN, "Touched", "MeterRead", 1.1),
    (6, FILTER, "a routine isn't called for errors", "IoSetCompletionRoutine", PLAIN, "NotDrained", "MeterPnp", 1.2),
    (7, FILTER, "a start is completed twice", "bug check 0x44", PLAIN, "CompletedTwice", "MeterPnp", 1.1),
    (8, FILTER, "a fast mutex in a completion routine", "ExAcquireFastMutex", SEEDS, "IrqlTooHigh", "MeterReadDone", 1.9),
    (9, FILTER, "a power request isn't passed down", "Passing Power IRPs", PLAIN, "NotPassedDown", "MeterPower", 1.3),
    (10, FILTER, "a context is read after ExFreePool", "Special Pool", SEEDS, "UsedAfterFree", "MeterReadDone", 1.8),
    (11, FUNCTION, "Irp->Cancel isn't looked at", "Synchronizing IRP Cancellation", PLAIN, "AlreadyCancelled",
     "SamplerRead", 1.5),
    (12, FUNCTION, "a cancel routine that has begun isn't minded", "bug check 0x44", SEEDS, "ListCorrupt", "SamplerCancel", 2.4),
    (13, FUNCTION, "OutputBufferLength isn't looked at", "Failure to Check the Size of Buffers", PLAIN, "STOPPED",
     "SamplerControl", 1.6),
    (14, FUNCTION, "STATUS_PENDING without the mark", "IoMarkIrpPending", PLAIN, "Returned", "SamplerRead", 1.6),
    (15, FUNCTION, "a completion under a spin lock", "IoCompleteRequest", PLAIN, "UnderSpinLock", "SamplerTick", 1.6),
    (16, FUNCTION, "no KeFlushQueuedDpcs before the device goes", "KeFlushQueuedDpcs", EVERY_ORDER, "UsedInFreedMemory",
     "SamplerTick", 1.7),
    (17, FUNCTION, "the cancel lock is released with another level", "IoReleaseCancelSpinLock", PLAIN, "IrqlReturn",
     "SamplerCancel", 1.6),
    (18, FUNCTION, "a removal doesn't complete what is queued", "Handling an IRP_MN_REMOVE_DEVICE Request", PLAIN,
     "NotDrained", "SamplerPnp", 1.8),
    (19, FUNCTION, "paged pool is touched in a deferred routine", "Force IRQL Checking", PLAIN, "PagedAtDispatch",
     "SamplerArm", 1.6),
    (20, FUNCTION, "PoRequestPowerIrp's failure isn't looked at", "bug check 0x9F", VERIFY, "Hang",
     "SamplerSystemPowerDone", 6.3),
]


def ran(bench, *words):
    """Returns what `run` prints."""
    made = bench.ran(*words)
    return made.stderr + made.stdout


def told(bench, number, source, rule, function):
    """The plain run tells the mistake first by its rule and in its function."""
    said = ran(bench, f"--cflag=-DMISTAKE_{number}", source)
    first = next((it for it in said.splitlines() if re.search("FAULT|STOPPED", it)), "nothing is told")
    well = re.match(rf"host: (?:FAULT )?{rule}\b.* in {function}\b", first)
    yield f"a mistake of others, {number}", None if well else f"it isn't {rule} in {function}: {first}"


def right(bench, *words):
    """A right driver of others is clean, and the system's power packets came to it."""
    said = ran(bench, *words)
    names = ", ".join(os.path.basename(it) for it in words)
    well = "; clean" in said and not re.search("^never ran .*SystemPowerDone", said, re.M)
    yield f"right drivers of others: {names}", None if well else said[-400:]


def tests(bench):
    """Returns the tests: of each a name, and a call that gives names and complaints."""
    found = [(f"others {n}", lambda n=n, its=its, rule=rule, where=where: told(bench, n, its, rule, where))
             for n, its, _, _, run, rule, where, _ in MISTAKES if run == PLAIN]
    return [*found, *((f"others {len(its)}, right", lambda its=its: right(bench, *its))
                      for its in ((FILTER,), (FUNCTION, FILTER), ("--routines-high", FUNCTION)))]
