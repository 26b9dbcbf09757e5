"""The faults that `test` plants, one at a time: an edit of a sample or of a stack, or a wrong shape, and what is told.

`tells` is looked for in the first line that says FAULT: the rule, the function or the place, and the driver or device
that is named. `verdict` is the word of `irpx check`; `refused` a refusal that the transcript has. Where time would decide
what is told, every order with at most `by_order` preemptions is made, and the first one that fails is judged."""

import os

SAMPLES, STACKS, SHAPES = "samples", "stacks", "shapes"


class Fault:
    def __init__(self, name, where, file, edits, tells, verdict="legal", refused=None, args="", by_order=None,
                 settings=None):
        self.name, self.where, self.file, self.edits, self.tells = name, where, file, edits, tells
        self.verdict, self.refused, self.args, self.by_order, self.settings = verdict, refused, args, by_order, settings


def sample(name, file, edits, tells, **more):
    return Fault(name, SAMPLES, file, edits, tells, **more)


def stack(name, file, edits, tells, **more):
    return Fault(name, STACKS, file, edits, tells, **more)


def shape(name, tells, **more):
    return Fault("shape " + name, SHAPES, None, [], tells, args=f"{name} {more.pop('ending', 0)}", **more)


WRITE_DONE = "    return BusComplete(Irp, STATUS_SUCCESS, length);\n"
TAKE_OUT = ("        if (IoSetCancelRoutine(next, NULL) != NULL) { "
            "/* else its cancel routine runs, and waits for the lock */\n")
LOOK_AT_CANCEL = """    if (Irp->Cancel && IoSetCancelRoutine(Irp, NULL) != NULL) {
        KeReleaseSpinLock(&ext->Lock, irql);
        return BusComplete(Irp, STATUS_CANCELLED, 0);
    }
"""
MARK = "    IoMarkIrpPending(Irp);\n"
MARK_AND_QUEUE = """    IoMarkIrpPending(Irp);
    InsertTailList(&ext->Reads, &Irp->Tail.Overlay.ListEntry);
    KeReleaseSpinLock(&ext->Lock, irql);
"""
FILTER_FORWARD = """    IoCopyCurrentIrpStackLocationToNext(Irp);
    IoSetCompletionRoutine(Irp, FilterReadDone, ext, TRUE, TRUE, TRUE);
"""
FILTER_SEND = FILTER_FORWARD + "    return IoCallDriver(ext->Lower, Irp);\n"
ROUTINE_MARKS = "    if (Irp->PendingReturned)\n        IoMarkIrpPending(Irp);\n"
OWN = "    PIRP read = IoAllocateIrp(ext->Lower->StackSize, FALSE);\n"
OWN_WRITE = """    PIRP own = IoAllocateIrp(ext->Lower->StackSize, FALSE);
    IoGetNextIrpStackLocation(own)->MajorFunction = IRP_MJ_WRITE;
    IoGetNextIrpStackLocation(own)->Parameters.Write.Length = 6;
    IoCallDriver(ext->Lower, own);
"""
TOO_SHORT = """    PIRP own = IoAllocateIrp(1, FALSE);
    IoGetNextIrpStackLocation(own)->MajorFunction = IRP_MJ_POWER;
    IoSetCompletionRoutine(own, ToasterControlDone, Irp, TRUE, TRUE, TRUE);
    IoCallDriver(DeviceObject, own);
    IoFreeIrp(own);
"""

FAULTS = [
    sample("completed twice", "bus.c", [(WRITE_DONE, "    BusComplete(Irp, STATUS_SUCCESS, length);\n" + WRITE_DONE)],
           ["CompletedTwice (0x44)", "bus.c:", "BusComplete", "BusWrite, dispatch for WRITE", "by D0 (bus)",
            "completed before at bus.c:"], refused="Ended"),
    sample("completed with the cancel routine set", "bus.c", [(TAKE_OUT, "        if (next) {\n")],
           ["CancelRoutineSet (0x48)", "bus.c:", "by D0 (bus)", "set before at bus.c:"], refused="CancelRoutineSet"),
    sample("touched after its end", "bus.c", [(WRITE_DONE, "    BusComplete(Irp, STATUS_SUCCESS, length);\n"
                                               "    return Irp->IoStatus.Status;\n")],
           ["Touched", "bus.c:", " in BusWrite", "D0 (bus)", "completed at bus.c:"]),
    sample("routine forgets the mark", "filter.c", [(ROUTINE_MARKS, "")],
           ["Mark ", "FilterReadDone, completion routine of D2 (filter)", "doesn't mark"], verdict="illegal"),
    sample("STATUS_PENDING unmarked", "bus.c", [("    IoMarkIrpPending(Irp);\n    InsertTail", "    InsertTail")],
           ["Returned ", "BusRead, dispatch for READ of D0 (bus)", "marked nothing"], verdict="illegal"),
    sample("marked, and another status returned", "toaster.c",
           [("    status = IoCallDriver(ext->Lower, Irp);\n    return STATUS_PENDING;",
             "    status = IoCallDriver(ext->Lower, Irp);\n    return status;")],
           ["Returned ", "ToasterReadWrite, dispatch for WRITE of D1 (toaster)", "returned 0"], verdict="illegal"),
    sample("skipped, then a routine set", "filter.c",
           [(FILTER_SEND, "    IoSkipCurrentIrpStackLocation(Irp);\n"
             "    IoSetCompletionRoutine(Irp, FilterReadDone, ext, TRUE, FALSE, FALSE);\n"
             "    return IoCallDriver(ext->Lower, Irp);\n")],
           ["AfterSkip ", "filter.c:", "FilterRead", "IoSetCompletionRoutine", "by D2 (filter)"], refused="AfterSkip"),
    sample("remove lock released twice", "toaster.c",
           [("    IoReleaseRemoveLock(&ext->RemoveLock, Irp);\n    return STATUS_CONTINUE",
             "    IoReleaseRemoveLock(&ext->RemoveLock, Irp);\n    IoReleaseRemoveLock(&ext->RemoveLock, Irp);\n"
             "    return STATUS_CONTINUE")],
           ["NotHeld ", "toaster.c:", "ToasterDone", "D1 (toaster)"]),
    sample("deleted without waiting", "toaster.c", [("IoReleaseRemoveLockAndWait", "IoReleaseRemoveLock")],
           ["NotDrained ", "toaster.c:", "in ToasterPnp: IoDeleteDevice", "D1 (toaster)"],
           refused="NotDrained"),
    sample("marked after it was queued", "bus.c",
           [(MARK_AND_QUEUE, MARK_AND_QUEUE.replace(MARK, "") + MARK)],
           ["D0 (bus)"], verdict=None, args="60", by_order=2),
    sample("completed with an error, success returned", "bus.c",
           [(WRITE_DONE, "    BusComplete(Irp, STATUS_UNSUCCESSFUL, 0);\n    return STATUS_SUCCESS;\n")],
           ["Status ", "BusWrite, dispatch for WRITE of D0 (bus)", "0xc0000001", "returned 0"], verdict="illegal"),
    sample("Irp->Cancel isn't looked at", "bus.c", [(LOOK_AT_CANCEL, "")],
           ["AlreadyCancelled ", "BusRead, dispatch for READ of D0 (bus)", "set at bus.c:"], verdict="illegal"),
    sample("completed with STATUS_PENDING", "bus.c",
           [(WRITE_DONE, "    IoMarkIrpPending(Irp);\n    return BusComplete(Irp, STATUS_PENDING, 0);\n")],
           ["BadStatus ", "bus.c:", "BusWrite, dispatch for WRITE", "by D0 (bus)"], refused="BadStatus"),
    sample("freed after its routine freed it", "toaster.c",
           [("    IoCallDriver(ext->Lower, read);\n", "    IoCallDriver(ext->Lower, read);\n    IoFreeIrp(read);\n")],
           ["NoIrp ", "toaster.c:", "ToasterControl", "IoFreeIrp", "freed before at toaster.c:"], refused="NoIrp"),
    sample("location copied by hand, with its routine", "filter.c",
           [(FILTER_FORWARD, "    *IoGetNextIrpStackLocation(Irp) = *IoGetCurrentIrpStackLocation(Irp);\n")],
           ["CopiedByHand", "filter.c:", "FilterRead", "keep_for_me"], verdict=None),
    sample("touched after it was sent down", "toaster.c",
           [("    status = IoCallDriver(ext->Lower, Irp);\n    return STATUS_PENDING;",
             "    status = IoCallDriver(ext->Lower, Irp);\n    ext->Started = Irp->IoStatus.Status == 0;\n"
             "    return STATUS_PENDING;")],
           ["Touched", "toaster.c:", " in ToasterReadWrite", "D1 (toaster)"]),
    sample("own packet that no routine keeps", "toaster.c", [(OWN, OWN_WRITE + OWN)],
           ["NotKept", "bus.c:", "allocated it at toaster.c:"]),
    sample("own packet with too few locations", "toaster.c", [(OWN, TOO_SHORT + OWN)],
           ["TooShort (0x35)", "toaster.c:", "ToasterControl", "IoCallDriver"], refused="TooShort"),
    sample("filter completes what it has sent", "filter.c",
           [(FILTER_SEND, FILTER_FORWARD + "    status = IoCallDriver(ext->Lower, Irp);\n"
             "    IoCompleteRequest(Irp, IO_NO_INCREMENT);\n    return status;\n")],
           ["NotOwner ", "filter.c:", "FilterRead, dispatch for READ of D2 (filter)",
            "by D2 (filter), sent before at toaster.c:", "; the packet is with D0 (bus)"],
           refused="NotOwner"),
    stack("a thread completes twice", "removal.c",
          [("            IoReleaseRemoveLock(&ext->RemoveLock, irp);\n        }\n    }",
            "            IoCompleteRequest(irp, IO_NO_INCREMENT);\n"
            "            IoReleaseRemoveLock(&ext->RemoveLock, irp);\n        }\n    }")],
          ["CompletedTwice (0x44)", "removal.c:", "in Reader: IoCompleteRequest", "by D1 (removal)",
           "completed before at common.h:"], refused="NotOwner", by_order=0),
    stack("a deferred call completes with the cancel routine set", "serial.c",
          [("        if (IoSetCancelRoutine(irp, NULL) != NULL) {", "        if (irp) {")],
          ["CancelRoutineSet (0x48)", "Sent, work of", "by D0 (serial)", "set before at serial.c:"],
          refused="CancelRoutineSet"),
    stack("a work item completes twice", "power.c",
          [("    IoCompleteRequest(irp, IO_NO_INCREMENT);\n", "    IoCompleteRequest(irp, IO_NO_INCREMENT);\n" * 2)],
          ["CompletedTwice (0x44)", "power.c:", "Ready, work of D1 (power)", "by D1 (power)",
           "completed before at power.c:"],
          refused="Ended", by_order=0),
    stack("a thread sends what isn't prepared", "retry.c",
          [("            SendDown(ext, CONTAINING_RECORD(e, IRP, Tail.Overlay.ListEntry));",
            "            IoCallDriver(ext->Lower, CONTAINING_RECORD(e, IRP, Tail.Overlay.ListEntry));")],
          ["NotPrepared ", "retry.c:", "in Retry", "by D1 (retry)"], refused="NotPrepared"),
    stack("a deferred call frees what is in flight", "watchdog.c",
          [("    IoCancelIrp(w->Own);\n", "    IoFreeIrp(w->Own);\n"),
           ("&w->Timer, Milliseconds(1)", "&w->Timer, Milliseconds(0)")],
          ["InFlight ", "watchdog.c:", "TooLong", "IoFreeIrp", "sent before at watchdog.c:"], refused="InFlight",
          by_order=2),
    stack("a routine frees its caller's packet", "keyboard.c",
          [("    return Irp->IoStatus.Status;\n}", "    IoFreeIrp(Irp);\n    return STATUS_SUCCESS;\n}")],
          ["InFlight ", "keyboard.c:", "ReadDone, completion routine of D1 (keyboard)", "IoFreeIrp"], verdict=None,
          refused="InFlight"),
    stack("a child without room for its parent's stack", "children.c",
          [("    child->StackSize = (CCHAR)(Parent->StackSize + 1);\n", "")],
          ["TooShort (0x35)", "children.c:", "ChildRead"], refused="TooShort"),
    stack("a child is reported without a reference", "enumerate.c",
          [("            ObReferenceObject(Bus->Children[i]);\n", "")],
          ["Relations", "D2 (enumerate)", "without a reference: ObReferenceObject is missing"]),
    stack("what is no device is reported as a child", "enumerate.c",
          [("= Bus->Children[i];\n        }", "= Bus->Children[i]->DeviceExtension;\n        }")],
          ["Relations", "what is no device is reported as a child"]),
    stack("a child that is gone stays on its bus's list", "enumerate.c",
          [("    if (goes)\n        ForgetChild(Child->Bus->DeviceExtension, device);\n", "    (void)ForgetChild;\n")],
          ["DeviceGone", "enumerate.c:", "RemoveBus", "IoDeleteDevice", "D3 (enumerate)"], refused="DeviceGone"),
    stack("a child that is gone keeps its device", "enumerate.c",
          [("    const BOOLEAN goes = !Child->IsPresent;", "    const BOOLEAN goes = FALSE;")],
          ["Relations", "D3 (enumerate)", "isn't reported any more and was removed"]),
    stack("relations that aren't pool", "enumerate.c",
          [("    PDEVICE_RELATIONS relations = ExAllocatePoolWithTag(PagedPool, sizeof(DEVICE_RELATIONS) +\n"
            "                                                        MAX_CHILDREN * sizeof(PDEVICE_OBJECT), 'sleR');\n",
            "    static DEVICE_RELATIONS room[MAX_CHILDREN];\n    PDEVICE_RELATIONS relations = room;\n")],
          ["NotPool", "ExFreePool"]),
    stack("a remove lock isn't given back", "removal.c",
          [("    Complete(Irp, STATUS_CANCELLED, 0);\n    IoReleaseRemoveLock(&ext->RemoveLock, Irp);\n}",
            "    Complete(Irp, STATUS_CANCELLED, 0);\n}")],
          ["NotDrained ", "removal.c:", "Pnp, dispatch for PNP of D1 (removal)", "tag ", "in Read (dispatch for READ)"],
          refused="NotDrained"),
    stack("deleted with reads in flight", "removal.c",
          [("        StopReader(ext);\n        IoReleaseRemoveLockAndWait(&ext->RemoveLock, Irp);\n"
            "        KeWaitForSingleObject(ext->Thread, Executive, KernelMode, FALSE, NULL);\n",
            "        IoReleaseRemoveLock(&ext->RemoveLock, Irp);\n"),
           ("        KeSetEvent(&ext->Work, IO_NO_INCREMENT, FALSE);\n    Irp->", "        Pause(1);\n    Irp->")],
          ["InFlight ", "removal.c:", "Pnp, dispatch for PNP of D1 (removal)", "IoDeleteDevice", "D1 (removal)"],
          verdict=None, refused="InFlight", by_order=0),
    stack("a resource is released twice", "shared.c",
          [("        ExReleaseResourceAndLeaveCriticalRegion(&ext->Resource);\n",
            "        ExReleaseResourceLite(&ext->Resource);\n"
            "        ExReleaseResourceAndLeaveCriticalRegion(&ext->Resource);\n")],
          ["Resource", "shared.c:", "Write, dispatch for WRITE of D0 (shared)", "released by a thread that doesn't have it"]),
    stack("rundown protection is released twice", "shared.c",
          [("    ExReleaseRundownProtection(&ext->Rundown);\n    return Complete(Irp, entry",
            "    ExReleaseRundownProtection(&ext->Rundown);\n    ExReleaseRundownProtection(&ext->Rundown);\n"
            "    return Complete(Irp, entry")],
          ["Rundown", "shared.c:", "Write", "released more often"]),
    stack("a packet is started unmarked", "port.c", [("    IoMarkIrpPending(Irp);\n    IoStartPacket", "    IoStartPacket")],
          ["MarkedLate ", "port.c:", "Read, dispatch for READ of D0 (port)", "is started by a dispatch"]),
    stack("an interrupt is disconnected twice", "port.c",
          [("    IoDeleteDevice(DriverObject->DeviceObject);\n}",
            "    IoDisconnectInterrupt(((PEXTENSION)DriverObject->DeviceObject->DeviceExtension)->Interrupt);\n"
            "    IoDeleteDevice(DriverObject->DeviceObject);\n}")],
          ["NotConnected", "port.c:", "Unload", "IoDisconnectInterrupt"]),
    stack("an MDL is freed while its pages are locked", "direct.c",
          [("    IoBuildPartialMdl(Whole, part, at, Length);\n",
            "    MmProbeAndLockPages(part, KernelMode, IoReadAccess);\n")],
          ["MdlLocked", "direct.c:", "PartDone", "IoFreeMdl", "locked since direct.c:"]),
    stack("a partial MDL reaches beyond its source", "direct.c",
          [("Irp->MdlAddress, half, half)", "Irp->MdlAddress, half, half + 1)")],
          ["MdlRange", "direct.c:", "ReadPart", "IoBuildPartialMdl"]),
    stack("an event by handle is dereferenced twice", "settings.c",
          [("    ObDereferenceObject(Ext->Enough);\n", "    ObDereferenceObject(Ext->Enough);\n" * 2)],
          ["NotReferenced", "settings.c:", "GiveBackEvent", "ObDereferenceObject"]),
    stack("an interface's link isn't freed", "settings.c", [("    RtlFreeUnicodeString(&Ext->Link);\n", "")],
          ["PoolLeak", "settings.c:", "in AddDevice: never freed"]),
    stack("a file's context isn't freed", "direct.c",
          [("    if (stack->MajorFunction == IRP_MJ_CLOSE)\n"
            "        ExFreePoolWithTag(stack->FileObject->FsContext, 'tceD');\n", "    (void)stack;\n")],
          ["PoolLeak", "direct.c:", "in Create: never freed"]),
    stack("StartIo doesn't look at who is started", "port.c",
          [("    if (DeviceObject->CurrentIrp != Irp) {", "    if (0) {")],
          ["NotOwner", "port.c:", "StartIo, work of D0 (port)", "IoSetCancelRoutine"], refused="NotOwner",
          settings={"WDM_CANCEL": "1@7"}),
    stack("a file is dereferenced twice", "direct.c",
          [("    IoDeleteDevice(DriverObject->DeviceObject);\n}",
            "    ObDereferenceObject(((PEXTENSION)DriverObject->DeviceObject->DeviceExtension)->LowerFile);\n"
            "    IoDeleteDevice(DriverObject->DeviceObject);\n}")],
          ["NotReferenced", "direct.c:", "Unload", "ObDereferenceObject"]),
    stack("a master counts one part less than it has", "mirror.c", [("IrpCount = SIDES;", "IrpCount = SIDES - 1;")],
          ["NoMaster", "its master has ended before"], verdict=None),
    stack("a routine frees what was built, and lets it go on", "mirror.c",
          [("    Complete(read, status, length);\n    return STATUS_MORE_PROCESSING_REQUIRED;",
            "    Complete(read, status, length);\n    return STATUS_CONTINUE_COMPLETION;")],
          ["GivenAway", "ReadDone, completion routine of (mirror) for its own packet"], verdict=None),
    stack("a file's handle is closed twice", "journal.c",
          [("        ZwClose(Ext->File);\n", "        ZwClose(Ext->File), ZwClose(Ext->File);\n")],
          ["NotOpen", "journal.c:", "Close", "ZwClose"]),
    stack("a list of who is allowed isn't freed", "journal.c",
          [("        ExFreePoolWithTag(Ext->Allowed, 'nruJ');\n", "        (void)0;\n")],
          ["PoolLeak", "journal.c:", "in AllowAll: never freed"]),
    stack("own memory is freed while its packet is in flight", "reserve.c",
          [("    SendHalf(ext, Irp, own);\n", "    SendHalf(ext, Irp, own);\n    ExFreePool(own);\n")],
          ["InFlight", "reserve.c:", "in Read", "ExFreePool", "sent before at reserve.c:"], refused="InFlight", by_order=0),
    stack("a packet in own memory is freed by IoFreeIrp", "reserve.c", [("ExFreePoolWithTag(Irp, 'vseR');", "IoFreeIrp(Irp);")],
          ["NotAllocated", "reserve.c:", "in HalfDone", "IoFreeIrp", "(reserve) initialized it at reserve.c:",
           "ExFreePool"]),
    stack("a packet is initialized while it is in flight", "reserve.c",
          [("    SendHalf(ext, Irp, own);\n", "    SendHalf(ext, Irp, own);\n    IoInitializeIrp(own, IoSizeOfIrp(1), 1);\n")],
          ["InFlight", "reserve.c:", "in Read", "IoInitializeIrp", "sent before at reserve.c:"], refused="InFlight", by_order=0),
    stack("a device is deleted with a packet in flight in its extension", "reserve.c",
          [("        IoDeleteDevice(DeviceObject);\n",
            "        static KEVENT done;\n        IoInitializeIrp(&ext->Spare.Irp, sizeof ext->Spare, 1);\n"
            "        IoGetNextIrpStackLocation(&ext->Spare.Irp)->MajorFunction = IRP_MJ_READ;\n"
            "        IoSetCompletionRoutine(&ext->Spare.Irp, FlushDone, &done, TRUE, TRUE, TRUE);\n"
            "        IoCallDriver(ext->Lower, &ext->Spare.Irp);\n        IoDeleteDevice(DeviceObject);\n")],
          ["InFlight", "in Pnp", "IoDeleteDevice", "sent before at reserve.c:"], refused="InFlight", by_order=0),
    stack("a packet is initialized in too few bytes", "reserve.c",
          [("NonPagedPool, IoSizeOfIrp(ext->Lower->StackSize),", "NonPagedPool, sizeof(IRP),")],
          ["PacketMemory", "reserve.c:", "in SendHalf", "IoInitializeIrp", "allocate IoSizeOfIrp(StackSize) bytes"]),
    stack("a packet is initialized in paged pool", "reserve.c",
          [("NonPagedPool, IoSizeOfIrp(ext->Lower->StackSize),", "PagedPool, IoSizeOfIrp(ext->Lower->StackSize),")],
          ["PacketMemory", "reserve.c:", "in SendHalf", "IoInitializeIrp", "allocate it from NonPagedPool"]),
    stack("a packet is initialized with no location", "reserve.c",
          [("IoSizeOfIrp(locations), locations);", "IoSizeOfIrp(locations), 0);")],
          ["BadSize", "reserve.c:", "in SendHalf", "IoInitializeIrp", "take the StackSize of the target"], refused="BadSize"),
    stack("a packet in own memory isn't kept", "reserve.c",
          [("    KeSetEvent(Context, IO_NO_INCREMENT, FALSE);\n    return STATUS_MORE_PROCESSING_REQUIRED;",
            "    KeSetEvent(Context, IO_NO_INCREMENT, FALSE);\n    return STATUS_CONTINUE_COMPLETION;")],
          ["NotKept", "no routine kept it for (reserve), which initialized it at reserve.c:"]),
    stack("a packet lies on the stack of what has returned", "reserve.c",
          [("    PIRP own = ExAllocatePoolWithTag(NonPagedPool, IoSizeOfIrp(ext->Lower->StackSize), 'vseR');\n",
            "    UCHAR room[1000];\n    PIRP own = (PIRP)room;\n")],
          ["StackBlock", "reserve.c:", "in SendHalf", "IoInitializeIrp", "lies on the stack of Read"], by_order=0),
    stack("what is cancelled stays in its device queue", "elevator.c",
          [("    KeRemoveEntryDeviceQueue(&ext->Queue, &Irp->Tail.Overlay.DeviceQueueEntry);\n    IoReleaseCancelSpinLock(Irp->",
            "    (void)ext;\n    IoReleaseCancelSpinLock(Irp->")],
          ["CompletedTwice", "elevator.c:", "in Served", "by D0 (elevator)", "in CancelQueued"], refused="NotOwner", by_order=2),
    stack("a level that was raised isn't lowered", "elevator.c", [("    KeLowerIrql(irql);\n", "    (void)irql;\n")],
          ["IrqlReturn", "elevator.c:", "in Flush", "the level is raised here", "returns at DISPATCH_LEVEL"]),
    stack("a deferred call is made by hand, and stays queued", "elevator.c",
          [("    if (KeRemoveQueueDpc(&ext->Dpc))\n", "    if (ext->Current)\n")],
          ["CompletedTwice", "elevator.c:", "in Served, called at elevator.c:", "completed before at common.h:"], by_order=2),
    stack("a fast mutex is released that nobody took", "monitor.c",
          [("!ExTryToAcquireFastMutex(&ext->Reporting)", "FALSE")],
          ["NotAcquired", "monitor.c:", "in Report", "ExReleaseFastMutex"]),
    stack("a fast mutex is kept", "monitor.c", [("    ExReleaseFastMutex(&ext->Reporting);\n", "")],
          ["LockKept", "Report, dispatch for DEVICE_CONTROL of D0 (monitor)", "fast mutex"]),
    stack("a section's handle is closed twice", "monitor.c",
          [("    ZwClose(ext->Section);\n    IoDelete", "    ZwClose(ext->Section), ZwClose(ext->Section);\n    IoDelete")],
          ["NotOpen", "monitor.c:", "in Unload", "ZwClose"]),
    stack("a device for administrators is left", "monitor.c",
          [("    ZwClose(ext->Section);\n    IoDeleteDevice(DriverObject->DeviceObject);\n", "    ZwClose(ext->Section);\n")],
          ["LeftBehind", "monitor.c:", "in DriverEntry", "IoCreateDevice"]),
    stack("a notification is left", "listener.c", [("    IoUnregisterPlugPlayNotification(ext->OnArrival);\n", "")],
          ["LeftBehind", "listener.c:", "in DriverEntry", "IoRegisterPlugPlayNotification", "the notification is there"]),
    stack("a notification is ended twice", "listener.c",
          [("    IoUnregisterPlugPlayNotification(ext->OnArrival);\n", "    IoUnregisterPlugPlayNotification(ext->OnArrival);\n" * 2)],
          ["NotRegistered", "listener.c:", "in Unload", "IoUnregisterPlugPlayNotification"]),
    stack("a cancel routine doesn't complete", "serial.c",
          [("    Complete(Irp, STATUS_CANCELLED, 0);\n}", "    (void)Irp;\n}")],
          ["CancelledAndHeld", "serial.c:57", "D0 (serial) still holds it", "its cancel routine has run",
           "CancelQueued", "Sent at common.h:"], verdict=None, by_order=2),
    stack("a cancel routine keeps the cancel spin lock", "serial.c",
          [("    IoReleaseCancelSpinLock(Irp->CancelIrql);\n", "")],
          ["UnderSpinLock", "CancelQueued, cancel routine of D0 (serial)", "IoCompleteRequest",
           "the cancel spin lock held since"]),
    stack("a spin lock is released by nobody", "serial.c",
          [("    KeAcquireSpinLockAtDpcLevel(&ext->Lock);\n", "")],
          ["NotAcquired (0xC4/0x1007)", "serial.c:", "Sent, work of", "KeReleaseSpinLock"]),
    stack("a routine gives its packet away and continues", "retry.c",
          [("1, FALSE);\n    return STATUS_MORE_PROCESSING_REQUIRED;", "1, FALSE);\n    IoCompleteRequest(Irp, 0);\n"
            "    return STATUS_SUCCESS;")],
          ["GivenAway", "ReadDone, completion routine of D1 (retry)"], verdict=None, by_order=2),
    shape("CompletesWhatItSent", ["CompletedTwice (0x44)", "wrong.c:", "by D2 (middle)",
                                  "completed before at lower.c:"],
          refused="Ended"),
    shape("NothingPrepared", ["NotPrepared ", "wrong.c:", "NothingPrepared", "by D2 (middle)"], refused="NotPrepared"),
    shape("Lost", ["Lost", "dispatch for DEVICE_CONTROL of D2 (middle)"], verdict="illegal"),
    shape("RoutineThenCopy", ["RoutineLost", "wrong.c:", "IoCopyCurrentIrpStackLocationToNext"]),
    shape("OtherStatus", ["Status ", "D2 (middle)", "returned 0x102, the driver below 0"], verdict="illegal"),
    shape("SkipThenComplete", ["AfterSkip ", "D2 (middle)", "IoCompleteRequest"]),
    shape("MarksInRoutine", ["Mark ", "MarksUnmarked, completion routine of D2 (middle)", "marks, and"],
          verdict="illegal"),
    shape("SetsAndReturns", ["Returned ", "MiddleControl, dispatch for DEVICE_CONTROL of D2 (middle)", "returned 0"],
          verdict="illegal"),
    shape("SetsInRoutine", ["Mark ", "SetsUnmarked, completion routine of D2 (middle)", "marks, and"], verdict="illegal"),
    shape("MarksAndWaits", ["Returned ", "MiddleControl, dispatch for DEVICE_CONTROL of D2 (middle)",
                            "marked the packet pending in its routine"], verdict="illegal", ending=1),
    shape("InitializesInFlight", ["InFlight ", "wrong.c:", "IoInitializeIrp", "is initialized while it is in flight"],
          verdict=None, ending=1, by_order=0),
    shape("WaitsForEver", ["Hang", "wrong.c:", "WaitsForEver",
                           "is in MiddleControl, dispatch for DEVICE_CONTROL of D2 (middle)",
                           "kept by NeverSignals"], verdict=None),
]

# Hosts made wrong: edits of the host's files. Each is judged illegal on one of the runs, but for the last.
# When an entry was begun, and when its call returned, stand behind it.
ORDER = [("recording.c", "    Entry *e = calloc(1, sizeof *e);\n", "    Entry *e = calloc(1, sizeof *e + 2 * sizeof stamp);\n"),
         ("recording.c", "    return e;\n}\n\n/* The entry gets the next number",
          "    ((size_t *)(e + 1))[0] = stamp++;\n    return e;\n}\n\n/* The entry gets the next number"),
         ("recording.c", "/* A new entry,", "size_t stamp;\n\n/* A new entry,"),
         ("recording.c", "    e->number = n_history;\n",
          "    e->number = n_history;\n    ((size_t *)(e + 1))[1] = stamp++;\n"),
         ("sending.c", "    e->reply = STATUS;\n",
          "    extern size_t stamp;\n    ((size_t *)(e + 1))[1] = stamp++;\n    e->reply = STATUS;\n"),
         ("transcript.c", "    begin_hash(&t);\n",
          "    begin_hash(&t);\n    qsort(history, n_history, sizeof *history, by_order);\n"
          "    for (size_t i = 0; i < n_history; i++)\n        history[i]->number = i;\n"),
         ("transcript.c", "/* The history up to", "static int by_order(const void *a, const void *b)\n{\n"
          "    const Entry *x = *(Entry *const *)a, *y = *(Entry *const *)b;\n"
          "    const size_t m = ((const size_t *)(x + 1))[KEY], n = ((const size_t *)(y + 1))[KEY];\n"
          "    return m < n ? -1 : m > n;\n}\n\n/* The history up to")]


def by(key):
    return [(file, old, new.replace("KEY", key)) for file, old, new in ORDER]


WRONG_HOSTS = [
    ("numbers given at the start of a call", by("0")),
    ("numbers given at the return of a call", by("1")),
    ("a cancel recorded a moment late",
     [("cancelling.c", "        answered(e, CANCELLED, 0);\n        if (run_own_cancel(p, irql))\n"
       "            return TRUE;\n        release_cancel_lock(irql);\n",
       "        if (run_own_cancel(p, irql))\n            return TRUE;\n        release_cancel_lock(irql);\n"
       "        let_driver_run();\n        KeStallExecutionProcessor(300);\n"
       "        driver_came_back();\n        answered(e, CANCELLED, 0);\n")]),
    ("PendingReturned is never set",
     [("completion.c", "p->irp->PendingReturned = p->returned = l.pending;",
       "p->irp->PendingReturned = p->returned = false;")]),
    ("a kept packet is the originator's", [("settling.c", "    p->owner = f->device;\n    p->asking",
                                            "    p->owner = ORIGINATOR;\n    p->asking")]),
    ("a skip is written as a forward", [("transcript.c", ".plan = (IrpxPlan)a->plan,", ".plan = a->plan == SKIPS ? IRPX_FORWARD : (IrpxPlan)a->plan,")]),
    ("the pending bit isn't passed up",
     [("completion.c", "else if (l.pending && j < p->size)", "else if (0 && j < p->size)")]),
    ("routines on error are always asked",
     [("completion.c", "(!NT_SUCCESS(p->status) && (set->flags", "((set->flags")]),
    ("a kept packet's status is written down wrong, in all places",
     [("settling.c", "a->new_status = p->status = status;", "a->new_status = p->status = 1;")]),
]

# What the host's own test finds in untested/mistakes.c: rules, each with the function that it is told of.
MISTAKES = [("Touched", "in Write"), ("PoolOverrun", "in Write"), ("IrqlReturn", "in CancelWait"),
            ("InformationTooLong", "in Control"), ("Mark", "ReadDone"), ("Status", "in Flush, dispatch for FLUSH_BUFFERS"),
            ("KeptOverCleanup", "in Wait"), ("NotOwner", "in Start"), ("Lost", "in Pnp, dispatch for PNP"), ("InFlight", "in Pnp")]
# The right shapes. The wrong ones are in FAULTS.
RIGHT_SHAPES = """
    SkipDown ForwardUnmarked ForwardMarked MarkedRoutineSilent MarkedTwice ForwardNoRoutine OnErrorOnly
    OtherParameters ChangeUnmarked MarkThenComplete MarkAndSkip SetAndTakenBack LookInRoutine LookAndFinish
    LookAndSkip SkipByHand ForwardAndWait TimedWait WaitElsewhere WaitInVain ForwardSynchronously
    MarkedSynchronously KeepChanged MarksAndKeeps Retry CompleteInRoutine ToAWorker WaitForAWorker OwnAndWait OnItsStack
    MarksByHand RoutineMarksByHand SplitTransfer SendElsewhere SkipElsewhere ElsewhereAndKeep BuiltForNobody
""".split()
# Stacks that the host's own test is clean over. The others have no PnP, or want settings that their tests make.
FOR_OWN_TEST = ["handover", "keyboard", "children", "policy", "power", "removal", "split", "serial", "shared", "late",
                "settings", "reserve"]

# Drivers of hostile/ that go on until their seconds are over, however few these are; all others have more than they want.
ENDLESS = {"loops_without_end": 8, "prints_without_end": 8}
LONGEST = 600
# The drivers of hostile/: what is told of each, beside the transcript. None is clean.
STOPPED = "STOPPED: "


def at(name, text):
    """Returns the place of the only line of a driver of hostile/ that has this text."""
    with open(f"{os.path.dirname(os.path.abspath(__file__))}/hostile/{name}.c", encoding="utf-8") as it:
        (number,) = [n for n, line in enumerate(it, 1) if text in line]
    return f"{name}.c:{number}"


HOSTILE = {
    "touches_null": [STOPPED + "it touches what is no memory at address 0x10",
                     "at touches_null.c:6 in Helper, called at touches_null.c:10 in Read"],
    "has_no_buffer": [STOPPED + "it touches what is no memory at address 0, at has_no_buffer.c:8 in Read",
                      "(READ) has no MdlAddress and no SystemBuffer, because D0 (has_no_buffer) doesn't set DO_BUFFERED_IO or "
                      "DO_DIRECT_IO"],
    "calls_no_function": [STOPPED + "there is no function at address 0x10", "at calls_no_function.c:8 in Read"],
    "has_a_bad_dispatch": [STOPPED + "there is no function at address 0x1234",
                           "0x1234, which is no function), dispatch for WRITE of D0 (has_a_bad_dispatch)"],
    "recurses_without_end": [STOPPED + "it touches", "recurses_without_end.c:12 in Deeper, called at",
                             "Read, dispatch for READ of D0"],
    "aborts": [STOPPED + "abort, at aborts.c:7 in Read"],
    "divides_by_zero": [STOPPED + "a division by zero, at divides_by_zero.c:8 in Read"],
    "loops_without_end": [STOPPED + "its time is over, at loops_without_end.c:8 in Read"],
    "calls_exit": [STOPPED + "the program ends before WdmFinish, at calls_exit.c:7 in Read"],
    "ends_its_thread": [STOPPED + "a thread ends in a dispatch", "at ends_its_thread.c:8 in Read"],
    "closes_standard_error": ["CompletedTwice", "called at closes_standard_error.c:10 in Read"],
    "crashes_in_a_thread": [STOPPED + "it touches", "at crashes_in_a_thread.c:10 in Thread",
                            "thread 0 is in Read, dispatch for READ"],
    "crashes_in_a_dpc": [STOPPED + "it touches", "at crashes_in_a_dpc.c:9 in Deferred"],
    "spoils_the_heap": [STOPPED + "abort, at spoils_the_heap.c:8 in Read"],
    "prints_without_end": [STOPPED + "its time is over, at prints_without_end.c:7 in Read", "bytes are left out"],
    "writes_the_location": ["Overwritten", "hostile.h:13 in Complete, called at writes_the_location.c:8 in Read",
                            "the current location was 1 of 1, and 0 was written"],
    "writes_the_stack_count": ["Overwritten", "called at writes_the_stack_count.c:7 in Read",
                               "Irp->StackCount was 1, and 100 was written"],
    "writes_the_device": ["Overwritten", "called at writes_the_device.c:8 in Read",
                          "DriverObject of the device object of D0 (writes_the_device) was written to"],
    "hands_over_no_device": [STOPPED + "a pointer that is no device", "at hands_over_no_device.c:7"],
    "keeps_a_cancelled_packet": ["FAULT CancelledAndHeld", "keeps_a_cancelled_packet.c:13 in Read",
                                 "if (Irp->Cancel && IoSetCancelRoutine(Irp, NULL) != NULL) complete it"],
    "keeps_over_surprise": ["FAULT KeptOverSurprise", "keeps_over_surprise.c:26 in Read", "still holds it when"],
    "leaves_a_status_block": ["FAULT StackBlock", "leaves_a_status_block.c:11 in Read", "its IoStatusBlock lies on the"],
    "leaves_an_event": ["FAULT StackBlock", "leaves_an_event.c:12 in Read", "its event lies on the stack of Read"],
    "fails_in_driver_entry": ["FAULT DriverEntry", "DriverEntry of fails_in_driver_entry returned 0xc000000e"],
    "fails_in_add_device": ["FAULT AddDevice", "AddDevice of fails_in_add_device returned 0xc000000e"],
    "leaves_its_device": ["FAULT LeftBehind", "in Begin: IoCreateDevice: the device D0 (leaves_its_device)"],
    "leaves_a_timer": ["FAULT LeftBehind: leaves_a_timer.c:15 in Read: KeSetTimer"],
    "leaves_a_dpc": ["FAULT LeftBehind: leaves_a_dpc.c:15 in UnloadAtOnce: KeInsertQueueDpc: the deferred call that was queued"],
    "leaves_a_thread": ["FAULT LeftBehind: leaves_a_thread.c:14 in DriverEntry: PsCreateSystemThread"],
    "leaves_a_packet": ["FAULT LeftBehind: leaves_a_packet.c:6 in Read: IoAllocateIrp(IRP "],
    "leaves_a_work_item": ["FAULT LeftBehind: leaves_a_work_item.c:6 in Read: IoAllocateWorkItem"],
    "leaves_a_loaded_link": ["FAULT LeftBehind: leaves_a_loaded_link.c:13 in DriverEntry: IoCreateSymbolicLink"],
    "stays_away": ["FAULT NotRestored", "IRP_MN_CANCEL_REMOVE_DEVICE, at hostile.h:13 in Complete, called at stays_away.c:12 in Write"],
    "frees_a_locked_mdl": ["FAULT MdlLocked: frees_a_locked_mdl.c:13 in Ended", "IoFreeMdl", "call MmUnlockPages before"],
    "deletes_its_device": ["FAULT DeviceGone: deletes_its_device.c:7 in Read", "was deleted before, at deletes_its_device.c:7"],
    "loses_in_a_routine": ["FAULT CancelledAndHeld", "in Keeps", "its completion routine answered STATUS_MORE_PROCESSING_REQUIRED"],
    "leaves_its_packets": ["FAULT PacketLeak (0xC4/0x62): leaves_its_packets.c:20 in Read: IoAllocateIrp"],
    "leaves_a_link": ["FAULT LeftBehind: leaves_a_link.c:9 in DriverEntry: IoCreateSymbolicLink"],
    "polls": ["FAULT CancelledAndHeld", "FAULT Hang", "while other threads go on; IRP 1.2 (READ), which D0 (polls) holds",
              "KeDelayExecutionThread at polls.c:8"],  # it waits there, or has just gone on: its last call
    "arms_again": ["FAULT Hang: arms_again.c:18 in Read", "while other threads go on; IRP 1.2 (READ), which is in Read",
                   "thread 0 holds a mutex since arms_again.c:17"],
    "takes_two_mutexes": ["LockOrder", "FAULT Hang: takes_two_mutexes.c:12", "takes_two_mutexes.c:12 for a mutex that thread",
                          "thread 1 holds a mutex since takes_two_mutexes.c:9"],
    "leaves_by_longjmp": [STOPPED + "Read, dispatch for READ of D0 (leaves_by_longjmp) is left by longjmp, at "
                          + at("leaves_by_longjmp", "longjmp(outside, 1)") + " in Deeper, called at "
                          + at("leaves_by_longjmp", "Deeper(Irp);") + " in Read"],
    "exits_in_unload": [STOPPED + "the program ends before WdmFinish, at " + at("exits_in_unload", "exit(0)") + " in Leave"],
    "stops_itself": [STOPPED + "a signal has stopped it (SIGSTOP or the like), at " + at("stops_itself", "raise(SIGSTOP)")
                     + " in Read; in Read, dispatch for READ of D0 (stops_itself)"],
    "ignores_crashes": [STOPPED + "it touches what is no memory at address 0, at " + at("ignores_crashes", "*nothing = 1")],
    "forks": [STOPPED + "a driver forks, and a second process would go on with the run, at " + at("forks", "fork();") + " in Read"],
    "spins": [" in Spin", " runs on", "KeWaitForSingleObject at " + at("spins", "KeWaitForSingleObject"),
              "IRP 1.2 (READ), which is in Read"],
    "forgets_after_paging": ["FAULT NotDrained", "6 held: tag ", "in Pnp (dispatch for PNP), left by Pnp after IoCallDriver at "
                             + at("forgets_after_paging", "return IoCallDriver(Ext->Lower, Irp);"),
                             ", and by forgets_after_paging.c:", " in UsageDone"],
    "uses_no_packet": [STOPPED + "a pointer that is no packet", "at uses_no_packet.c:7"],
}
