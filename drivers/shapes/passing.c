/* passing.c: right shapes that finish the packet or pass it down. */
#include "shapes.h"

static NTSTATUS SkipDown(PEXTENSION Ext, PIRP Irp)
{
    IoSkipCurrentIrpStackLocation(Irp);
    return IoCallDriver(Ext->Lower, Irp);
}

static NTSTATUS ForwardUnmarked(PEXTENSION Ext, PIRP Irp) { return ForwardWith(Ext, Irp, Watch, NULL); }

static NTSTATUS ForwardMarked(PEXTENSION Ext, PIRP Irp)
{
    IoMarkIrpPending(Irp);
    ForwardWith(Ext, Irp, Watch, NULL);
    return STATUS_PENDING;
}

/* The commonest form there is: the dispatch has marked, so the routine needs not. */
static NTSTATUS SaysNothing(PDEVICE_OBJECT DeviceObject, PIRP Irp, PVOID Context)
{
    UNREFERENCED_PARAMETER(DeviceObject), UNREFERENCED_PARAMETER(Irp), UNREFERENCED_PARAMETER(Context);
    return STATUS_CONTINUE_COMPLETION;
}

static NTSTATUS MarkedRoutineSilent(PEXTENSION Ext, PIRP Irp)
{
    IoMarkIrpPending(Irp);
    ForwardWith(Ext, Irp, SaysNothing, NULL);
    return STATUS_PENDING;
}

/* The routine marks always: the dispatch has marked before, so that changes nothing. */
static NTSTATUS MarksAlways(PDEVICE_OBJECT DeviceObject, PIRP Irp, PVOID Context)
{
    UNREFERENCED_PARAMETER(DeviceObject), UNREFERENCED_PARAMETER(Context);
    IoMarkIrpPending(Irp);
    return STATUS_CONTINUE_COMPLETION;
}

static NTSTATUS MarkedTwice(PEXTENSION Ext, PIRP Irp)
{
    IoMarkIrpPending(Irp);
    ForwardWith(Ext, Irp, MarksAlways, NULL);
    return STATUS_PENDING;
}

static NTSTATUS ForwardNoRoutine(PEXTENSION Ext, PIRP Irp)
{
    IoCopyCurrentIrpStackLocationToNext(Irp);
    return IoCallDriver(Ext->Lower, Irp);
}

static NTSTATUS OnErrorOnly(PEXTENSION Ext, PIRP Irp)
{
    IoCopyCurrentIrpStackLocationToNext(Irp);
    IoSetCompletionRoutine(Irp, Watch, NULL, FALSE, TRUE, FALSE);
    return IoCallDriver(Ext->Lower, Irp);
}

/* Unmarked, and the driver below gets other parameters. */
static NTSTATUS OtherParameters(PEXTENSION Ext, PIRP Irp)
{
    IoCopyCurrentIrpStackLocationToNext(Irp);
    IoGetNextIrpStackLocation(Irp)->Parameters.DeviceIoControl.InputBufferLength = 77;
    IoSetCompletionRoutine(Irp, Watch, NULL, TRUE, TRUE, TRUE);
    return IoCallDriver(Ext->Lower, Irp);
}

static NTSTATUS Mend(PDEVICE_OBJECT DeviceObject, PIRP Irp, PVOID Context)
{
    Irp->IoStatus.Information += 100;
    return Watch(DeviceObject, Irp, Context);
}

static NTSTATUS ChangeUnmarked(PEXTENSION Ext, PIRP Irp) { return ForwardWith(Ext, Irp, Mend, NULL); }

static NTSTATUS MarkThenComplete(PEXTENSION Ext, PIRP Irp)
{
    UNREFERENCED_PARAMETER(Ext);
    IoMarkIrpPending(Irp);
    Irp->IoStatus.Information = 11;
    Done(Irp, STATUS_SUCCESS);
    return STATUS_PENDING;
}

static NTSTATUS MarkAndSkip(PEXTENSION Ext, PIRP Irp)
{
    IoMarkIrpPending(Irp);
    IoSkipCurrentIrpStackLocation(Irp);
    IoCallDriver(Ext->Lower, Irp);
    return STATUS_PENDING;
}

/* Its cancel routine is set and taken back within the dispatch. */
static VOID NeverCalled(PDEVICE_OBJECT DeviceObject, PIRP Irp)
{
    UNREFERENCED_PARAMETER(DeviceObject);
    IoReleaseCancelSpinLock(Irp->CancelIrql);
}

static NTSTATUS SetAndTakenBack(PEXTENSION Ext, PIRP Irp)
{
    IoSetCancelRoutine(Irp, NeverCalled);
    if (IoSetCancelRoutine(Irp, NULL) == NULL)
        return STATUS_PENDING;
    return SkipDown(Ext, Irp);
}

/* Looks at the next location, and fills nothing there. */
static NTSTATUS LookAndContinue(PDEVICE_OBJECT DeviceObject, PIRP Irp, PVOID Context)
{
    const BOOLEAN failed = IoGetNextIrpStackLocation(Irp)->MajorFunction == IRP_MJ_READ;
    return failed ? STATUS_CONTINUE_COMPLETION : Watch(DeviceObject, Irp, Context);
}

static NTSTATUS LookInRoutine(PEXTENSION Ext, PIRP Irp) { return ForwardWith(Ext, Irp, LookAndContinue, NULL); }

static NTSTATUS LookAndFinish(PEXTENSION Ext, PIRP Irp)
{
    UNREFERENCED_PARAMETER(Ext);
    const BOOLEAN failed = IoGetNextIrpStackLocation(Irp)->MajorFunction == IRP_MJ_READ;
    return Done(Irp, failed ? STATUS_UNSUCCESSFUL : STATUS_SUCCESS);
}

static NTSTATUS LookAndSkip(PEXTENSION Ext, PIRP Irp)
{
    return IoGetNextIrpStackLocation(Irp)->MajorFunction == IRP_MJ_READ ? STATUS_UNSUCCESSFUL : SkipDown(Ext, Irp);
}

/* IoSkipCurrentIrpStackLocation, written by hand. */
static NTSTATUS SkipByHand(PEXTENSION Ext, PIRP Irp)
{
    Irp->CurrentLocation++;
    Irp->Tail.Overlay.CurrentStackLocation++;
    return IoCallDriver(Ext->Lower, Irp);
}

const NAMED_SHAPE PassingShapes[] = {
    { "SkipDown", SkipDown }, { "ForwardUnmarked", ForwardUnmarked }, { "ForwardMarked", ForwardMarked },
    { "MarkedRoutineSilent", MarkedRoutineSilent }, { "MarkedTwice", MarkedTwice },
    { "ForwardNoRoutine", ForwardNoRoutine }, { "OnErrorOnly", OnErrorOnly }, { "OtherParameters", OtherParameters },
    { "ChangeUnmarked", ChangeUnmarked }, { "MarkThenComplete", MarkThenComplete }, { "MarkAndSkip", MarkAndSkip },
    { "SetAndTakenBack", SetAndTakenBack }, { "LookInRoutine", LookInRoutine }, { "LookAndFinish", LookAndFinish },
    { "LookAndSkip", LookAndSkip }, { "SkipByHand", SkipByHand }, { NULL, NULL },
};
