/* wrong.c: shapes with one fault each. */
#include "shapes.h"

static NTSTATUS CompletesWhatItSent(PEXTENSION Ext, PIRP Irp)
{
    IoMarkIrpPending(Irp);
    IoSkipCurrentIrpStackLocation(Irp);
    IoCallDriver(Ext->Lower, Irp);
    IoCompleteRequest(Irp, IO_NO_INCREMENT);
    return STATUS_PENDING;
}

static NTSTATUS NothingPrepared(PEXTENSION Ext, PIRP Irp)
{
    const NTSTATUS status = IoCallDriver(Ext->Lower, Irp);
    return Done(Irp, status);
}

static NTSTATUS Lost(PEXTENSION Ext, PIRP Irp)
{
    UNREFERENCED_PARAMETER(Ext), UNREFERENCED_PARAMETER(Irp);
    return STATUS_SUCCESS;
}

static NTSTATUS RoutineThenCopy(PEXTENSION Ext, PIRP Irp)
{
    IoSetCompletionRoutine(Irp, Watch, NULL, TRUE, TRUE, TRUE);
    IoCopyCurrentIrpStackLocationToNext(Irp);
    return IoCallDriver(Ext->Lower, Irp);
}

static NTSTATUS OtherStatus(PEXTENSION Ext, PIRP Irp)
{
    ForwardWith(Ext, Irp, Watch, NULL);
    return STATUS_TIMEOUT;
}

static NTSTATUS SkipThenComplete(PEXTENSION Ext, PIRP Irp)
{
    UNREFERENCED_PARAMETER(Ext);
    IoSkipCurrentIrpStackLocation(Irp);
    return Done(Irp, STATUS_SUCCESS);
}

static NTSTATUS MarksUnmarked(PDEVICE_OBJECT DeviceObject, PIRP Irp, PVOID Context)
{
    UNREFERENCED_PARAMETER(DeviceObject), UNREFERENCED_PARAMETER(Context);
    IoMarkIrpPending(Irp);
    return STATUS_CONTINUE_COMPLETION;
}

/* The same, without the call. */
static NTSTATUS SetsUnmarked(PDEVICE_OBJECT DeviceObject, PIRP Irp, PVOID Context)
{
    UNREFERENCED_PARAMETER(DeviceObject), UNREFERENCED_PARAMETER(Context);
    IoGetCurrentIrpStackLocation(Irp)->Control |= SL_PENDING_RETURNED;
    return STATUS_CONTINUE_COMPLETION;
}

/* Sets the bit by hand, and returns what the driver below did. */
static NTSTATUS SetsAndReturns(PEXTENSION Ext, PIRP Irp)
{
    IoGetCurrentIrpStackLocation(Irp)->Control |= SL_PENDING_RETURNED;
    return ForwardWith(Ext, Irp, Watch, NULL);
}

static NTSTATUS SetsInRoutine(PEXTENSION Ext, PIRP Irp) { return ForwardWith(Ext, Irp, SetsUnmarked, NULL); }

/* Its routine marks always, and the dispatch hasn't. */
static NTSTATUS MarksInRoutine(PEXTENSION Ext, PIRP Irp) { return ForwardWith(Ext, Irp, MarksUnmarked, NULL); }

static NTSTATUS NeverSignals(PDEVICE_OBJECT DeviceObject, PIRP Irp, PVOID Context)
{
    UNREFERENCED_PARAMETER(DeviceObject), UNREFERENCED_PARAMETER(Irp), UNREFERENCED_PARAMETER(Context);
    return STATUS_MORE_PROCESSING_REQUIRED;
}

/* Waits for an event that its routine doesn't set. */
static NTSTATUS WaitsForEver(PEXTENSION Ext, PIRP Irp)
{
    KEVENT event;
    KeInitializeEvent(&event, NotificationEvent, FALSE);
    ForwardWith(Ext, Irp, NeverSignals, NULL);
    KeWaitForSingleObject(&event, Executive, KernelMode, FALSE, NULL);
    return Done(Irp, STATUS_SUCCESS);
}

/* Initializes the packet while the driver below has it. */
static NTSTATUS InitializesInFlight(PEXTENSION Ext, PIRP Irp)
{
    const CCHAR locations = Irp->StackCount;
    KEVENT event;
    KeInitializeEvent(&event, NotificationEvent, FALSE);
    ForwardWith(Ext, Irp, Signal, &event);
    IoInitializeIrp(Irp, IoSizeOfIrp(locations), locations);
    KeWaitForSingleObject(&event, Executive, KernelMode, FALSE, NULL);
    return Done(Irp, Irp->IoStatus.Status);
}

static NTSTATUS MarkAndSignal(PDEVICE_OBJECT DeviceObject, PIRP Irp, PVOID Context)
{
    if (Irp->PendingReturned)
        IoMarkIrpPending(Irp);
    return Signal(DeviceObject, Irp, Context);
}

/* Its routine marks and keeps, and the dispatch returns the final status. */
static NTSTATUS MarksAndWaits(PEXTENSION Ext, PIRP Irp)
{
    KEVENT event;
    KeInitializeEvent(&event, NotificationEvent, FALSE);
    ForwardWith(Ext, Irp, MarkAndSignal, &event);
    KeWaitForSingleObject(&event, Executive, KernelMode, FALSE, NULL);
    return Done(Irp, Irp->IoStatus.Status);
}

const NAMED_SHAPE WrongShapes[] = {
    { "CompletesWhatItSent", CompletesWhatItSent }, { "NothingPrepared", NothingPrepared }, { "Lost", Lost },
    { "RoutineThenCopy", RoutineThenCopy }, { "OtherStatus", OtherStatus }, { "SkipThenComplete", SkipThenComplete },
    { "SetsAndReturns", SetsAndReturns }, { "SetsInRoutine", SetsInRoutine },
    { "MarksInRoutine", MarksInRoutine }, { "WaitsForEver", WaitsForEver }, { "MarksAndWaits", MarksAndWaits },
    { "InitializesInFlight", InitializesInFlight },
    { NULL, NULL },
};
