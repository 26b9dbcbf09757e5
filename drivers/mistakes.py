"""Two drivers that stand for those of a driver writer (written/), and twenty mistakes in them. Whoever wrote both knew
the host's rules: mistakes of somebody else would say more of what the host misses.

Each row has the sentence of the WDK that the mistake breaks, by the page's title, and what follows from it: the rule,
and the function in which Windows, or Driver Verifier, would stop. `flags` is the run that comes to it, where the plain
one needn't. A mistake without a rule isn't told, and its row says why. A race is told by some runs, and not by all:
the tests leave it out."""

import os

HERE = os.path.dirname(os.path.abspath(__file__))
CONTROLS = {"mailbox.c": "0x222000", "meter.c": "0x222400"}


class Mistake:
    """An edit of a driver: what stands in its place, what is told first, and where."""

    def __init__(self, name, file, old, new, page, rule, place, flags=None, is_race=False):
        self.name, self.file, self.old, self.new, self.page = name, file, old, new, page
        self.rule, self.place, self.flags, self.is_race = rule, place, flags or {}, is_race

    def write(self, path):
        """Writes the driver with the mistake in it."""
        with open(f"{HERE}/written/{self.file}", encoding="utf-8") as it:
            text = it.read()
        if text.count(self.old) != 1:
            raise ValueError(f"{self.name}: {text.count(self.old)} places")
        with open(path, "w", encoding="utf-8") as it:
            it.write(text.replace(self.old, self.new))


def mailbox(*words, **more):
    return Mistake(words[0], "mailbox.c", *words[1:], **more)


def meter(*words, **more):
    return Mistake(words[0], "meter.c", *words[1:], **more)


MISTAKES = [
    mailbox("a read is kept and not marked", "    IoMarkIrpPending(Irp);\n", "",
            "IoMarkIrpPending: a dispatch that returns STATUS_PENDING has marked the packet",
            "Returned", "in MailboxRead"),
    mailbox("the cancel routine keeps the cancel lock", "    IoReleaseCancelSpinLock(Irp->CancelIrql);\n", "",
            "Implementing a Cancel Routine: it releases the cancel spin lock before it completes the packet",
            "UnderSpinLock", "in CancelRead"),
    mailbox("a cancelled read stays in the queue", "    RemoveEntryList(&Irp->Tail.Overlay.ListEntry);\n", "",
            "IoCompleteRequest: who completes a packet doesn't access it any more; whoever next takes a read does",
            "Touched", "in TakeRead"),
    mailbox("a read is completed whose cancel routine runs", "        if (IoSetCancelRoutine(irp, NULL) != NULL)\n",
            "        IoSetCancelRoutine(irp, NULL);\n        if (irp)\n",
            "IoSetCancelRoutine: where it returns NULL, the cancel routine takes the packet from the queue, which by then isn't in "
            "it (bug check 0x139), and completes it (bug check 0x44)",
            "ListCorrupt", "in CancelRead", flags={"cancel": "2@10"}),
    mailbox("a read that is cancelled already is queued",
            "    if (Irp->Cancel && IoSetCancelRoutine(Irp, NULL) != NULL) {", "    if (0) {",
            "Cancel Routines: Irp->Cancel is looked at once the routine is set, else nobody calls it",
            "AlreadyCancelled", "in MailboxRead"),
    mailbox("memory isn't checked in a write", "    if (length && copy == NULL) {", "    if (0) {",
            "ExAllocatePoolWithTag: returns NULL where there is no memory",
            "STOPPED", "in MailboxWrite", flags={"refuse": "3"}),
    mailbox("a cancelled read is completed under the lock",
            "    KeReleaseSpinLock(&extension->QueueLock, irql);\n    CompleteRequest(Irp, STATUS_CANCELLED, 0);\n"
            "    IoReleaseRemoveLock(&extension->RemoveLock, Irp);\n}",
            "    CompleteRequest(Irp, STATUS_CANCELLED, 0);\n    KeReleaseSpinLock(&extension->QueueLock, irql);\n"
            "    IoReleaseRemoveLock(&extension->RemoveLock, Irp);\n}",
            "Preventing Errors and Deadlocks While Using Spin Locks: no IoCompleteRequest while one is held",
            "UnderSpinLock", "in CancelRead"),
    mailbox("a write's copy is freed only where a read waits",
            "    if (copy)\n        ExFreePoolWithTag", "    if (copy && read)\n        ExFreePoolWithTag",
            "Pool Tracking: a driver has freed all its pool when it is unloaded (0xC4/0x62)",
            "PoolLeak", "in MailboxWrite"),
    mailbox("the timer's routine takes a fast mutex",
            "    InterlockedIncrement((LONG *)&extension->Counts.TimedOut);\n",
            "    ExAcquireFastMutex(&extension->CountsMutex);\n    extension->Counts.TimedOut++;\n"
            "    ExReleaseFastMutex(&extension->CountsMutex);\n",
            "ExAcquireFastMutex: IRQL <= APC_LEVEL; a deferred routine runs at DISPATCH_LEVEL",
            "IrqlTooHigh", "in ReadTimedOut"),
    # Not told: the timer is armed only by a read that comes while the removal runs. The host's own test sends none
    # then, as Windows doesn't once the last handle is closed. A test of the driver's own has to.
    mailbox("the timer is armed when the device goes",
            "    IoReleaseRemoveLockAndWait(&Extension->RemoveLock, Irp);\n    KeCancelTimer(&Extension->Timer);\n"
            "    KeFlushQueuedDpcs();\n", "    IoReleaseRemoveLockAndWait(&Extension->RemoveLock, Irp);\n",
            "Bug Check 0xC7: memory with an armed timer goes", None, None),
    mailbox("a read tells the write's length", "        CompleteRequest(read, STATUS_SUCCESS, room);",
            "        CompleteRequest(read, STATUS_SUCCESS, length);",
            "Errors in Buffered I/O: Information is at most the length of the output buffer",
            "InformationTooLong", "in MailboxWrite"),
    mailbox("an empty read keeps the remove lock",
            "        CompleteRequest(Irp, STATUS_SUCCESS, 0);\n"
            "        IoReleaseRemoveLock(&extension->RemoveLock, Irp);\n",
            "        CompleteRequest(Irp, STATUS_SUCCESS, 0);\n",
            "IoReleaseRemoveLockAndWait: returns once each IoAcquireRemoveLock has its release",
            "NotDrained", "in RemoveDevice"),
    meter("the routine doesn't mark", "    if (Irp->PendingReturned)\n        IoMarkIrpPending(Irp);\n", "",
          "Implementing an IoCompletion Routine: one that returns another status than STATUS_MORE_PROCESSING_REQUIRED "
          "marks where PendingReturned is set", "Mark", "in TransferDone"),
    meter("the length is read after the send",
          "    IoSetCompletionRoutine(Irp, TransferDone, transfer, TRUE, TRUE, TRUE);\n"
          "    return IoCallDriver(ext->Lower, Irp);\n",
          "    IoSetCompletionRoutine(Irp, TransferDone, transfer, TRUE, TRUE, TRUE);\n"
          "    status = IoCallDriver(ext->Lower, Irp);\n    ext->Transfers += stack->Parameters.Read.Length > 0;\n"
          "    return status;\n",
          "Passing IRPs Down the Driver Stack: no access after IoCallDriver; the bottom has completed it by then",
          "Touched", "in MeterTransfer"),
    meter("its own control isn't waited for", "    if (status == STATUS_PENDING) {\n"
          "        KeWaitForSingleObject(&event", "    if (0) {\n        KeWaitForSingleObject(&event",
          "IoBuildDeviceIoControlRequest: the status block and the event are there until the packet's end",
          "StackBlock", "in AskState", flags={"pend": "1", "scenario": "0x222400", "schedule": "usual"}),
    meter("two locks in two orders",
          "    KeQuerySystemTime(&now);\n    KeAcquireSpinLock(&ext->Lock, &irql);\n",
          "    KIRQL outer;\n    KeQuerySystemTime(&now);\n    KeAcquireSpinLock(&ext->StateLock, &outer);\n"
          "    KeAcquireSpinLock(&ext->Lock, &irql);\n    KeReleaseSpinLock(&ext->Lock, irql);\n"
          "    KeReleaseSpinLock(&ext->StateLock, outer);\n    KeAcquireSpinLock(&ext->Lock, &irql);\n",
          "Deadlock Detection: two locks are taken in one order everywhere; transfers come before the control",
          "LockOrder", "in MeterAsk"),
    meter("the routine waits for a mutex", "    KeQuerySystemTime(&now);\n",
          "    KeQuerySystemTime(&now);\n"
          "    KeWaitForSingleObject(&ext->LogMutex, Executive, KernelMode, FALSE, NULL);\n"
          "    KeReleaseMutex(&ext->LogMutex, FALSE);\n",
          "KeWaitForSingleObject: IRQL <= APC_LEVEL without a timeout of zero; a completion routine may run at "
          "DISPATCH_LEVEL", "IrqlTooHigh", "in TransferDone", flags={"routines-high": True}),
    meter("the work item isn't waited for",
          "    KeWaitForSingleObject(&ext->WorkDone, Executive, KernelMode, FALSE, NULL);\n", "",
          "IoFreeWorkItem: the work item isn't queued any more", "QueuedTwice", "in MeterPnp", is_race=True),
    meter("a transfer's memory isn't checked", "    if (transfer == NULL) {", "    if (0) {",
          "ExAllocatePoolWithTag: returns NULL where there is no memory",
          "STOPPED", "in MeterTransfer", flags={"refuse": "3"}),
    meter("a transfer's memory has the size of a pointer", "ExAllocatePoolWithTag(NonPagedPool, sizeof(TRANSFER)",
          "ExAllocatePoolWithTag(NonPagedPool, sizeof(PTRANSFER)",
          "Special Pool: an access behind a block's end stops there (0xCD)",
          "PoolOverrun", "in MeterTransfer", flags={"page-ends": True}),
]
