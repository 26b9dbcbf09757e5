/* packets.c: a packet touched after it was sent; more data than there is room; requests of Plug and Play. */
#include "rules.h"

static NTSTATUS Sent(PDEVICE_OBJECT DeviceObject, PIRP Irp, PVOID Context)
{
    UNREFERENCED_PARAMETER(DeviceObject), UNREFERENCED_PARAMETER(Context);
    if (Irp->PendingReturned)
        IoMarkIrpPending(Irp);
    return STATUS_CONTINUE_COMPLETION;
}

/* The device below pends, and completes later. */
static NTSTATUS TouchesLate(PEXTENSION Ext, PIRP Irp, BOOLEAN Wrong)
{
    IoCopyCurrentIrpStackLocationToNext(Irp);
    IoSetCompletionRoutine(Irp, Sent, Ext, TRUE, TRUE, TRUE);
    NTSTATUS status = IoCallDriver(Ext->Lower, Irp);
    if (Wrong)
        Ext->Step = Irp->StackCount; /* told: TouchedAfterSend */
    return status;
}

static NTSTATUS SaysTooMuch(PEXTENSION Ext, PIRP Irp, BOOLEAN Wrong)
{
    UNREFERENCED_PARAMETER(Ext);
    Irp->IoStatus.Status = STATUS_SUCCESS;
    Irp->IoStatus.Information = Wrong ? 17 : 16;
    IoCompleteRequest(Irp, IO_NO_INCREMENT); /* told: InformationTooLong */
    return STATUS_SUCCESS;
}

/* Of a write of no bytes, say, there is nothing to be said. */
static NTSTATUS SaysNothing(PEXTENSION Ext, PIRP Irp, BOOLEAN Wrong)
{
    UNREFERENCED_PARAMETER(Ext);
    if (!Wrong)
        Irp->IoStatus.Status = STATUS_SUCCESS;
    Irp->IoStatus.Information = 0;
    IoCompleteRequest(Irp, IO_NO_INCREMENT); /* told: NoStatus */
    return STATUS_SUCCESS;
}

/* The right one succeeds the start once the drivers below have, and fails a removal that it is asked for. */
static NTSTATUS StartsAlone(PEXTENSION Ext, PIRP Irp, BOOLEAN Wrong)
{
    NTSTATUS status = STATUS_SUCCESS;
    if (IoGetCurrentIrpStackLocation(Irp)->MinorFunction != IRP_MN_START_DEVICE)
        return PassDown(Ext, Irp);
    if (!Wrong) {
        IoCopyCurrentIrpStackLocationToNext(Irp);
        status = IoForwardIrpSynchronously(Ext->Lower, Irp) ? Irp->IoStatus.Status : STATUS_UNSUCCESSFUL;
    }
    Irp->IoStatus.Status = status;
    IoCompleteRequest(Irp, IO_NO_INCREMENT); /* told: NotPassedDown */
    return status;
}

static NTSTATUS ChangesUnknown(PEXTENSION Ext, PIRP Irp, BOOLEAN Wrong)
{
    if (Wrong && IoGetCurrentIrpStackLocation(Irp)->MinorFunction == 0x7f)
        Irp->IoStatus.Status = STATUS_SUCCESS;
    IoSkipCurrentIrpStackLocation(Irp);
    return IoCallDriver(Ext->Lower, Irp); /* told: PnpStatusChanged */
}

static NTSTATUS FailsUnknown(PEXTENSION Ext, PIRP Irp, BOOLEAN Wrong)
{
    if (!Wrong || IoGetCurrentIrpStackLocation(Irp)->MinorFunction != 0x7f)
        return PassDown(Ext, Irp);
    Irp->IoStatus.Status = STATUS_INVALID_DEVICE_REQUEST;
    IoCompleteRequest(Irp, IO_NO_INCREMENT); /* told: PnpStatusChanged_Completed */
    return STATUS_INVALID_DEVICE_REQUEST;
}

static NTSTATUS Ended(PDEVICE_OBJECT DeviceObject, PIRP Irp, PVOID Context)
{
    UNREFERENCED_PARAMETER(DeviceObject), UNREFERENCED_PARAMETER(Context);
    IoFreeIrp(Irp);
    return STATUS_MORE_PROCESSING_REQUIRED;
}

/* A removal that the device gets in the middle. */
static NTSTATUS FailsRemoval(PEXTENSION Ext, PIRP Irp, BOOLEAN Wrong)
{
    const UCHAR minor = IoGetCurrentIrpStackLocation(Irp)->MinorFunction;
    if (minor != IRP_MN_QUERY_REMOVE_DEVICE && !(Wrong && minor == IRP_MN_REMOVE_DEVICE && !Ext->Step++))
        return PassDown(Ext, Irp);
    Irp->IoStatus.Status = STATUS_UNSUCCESSFUL;
    IoCompleteRequest(Irp, IO_NO_INCREMENT); /* told: RemoveFailed */
    return STATUS_UNSUCCESSFUL;
}

static NTSTATUS AsksForRemoval(PEXTENSION Ext, PIRP Irp, BOOLEAN Wrong)
{
    PIRP own = IoAllocateIrp(Ext->Self->StackSize, FALSE);
    own->IoStatus.Status = STATUS_NOT_SUPPORTED;
    IoGetNextIrpStackLocation(own)->MajorFunction = IRP_MJ_PNP;
    IoGetNextIrpStackLocation(own)->MinorFunction = Wrong ? IRP_MN_REMOVE_DEVICE : IRP_MN_QUERY_REMOVE_DEVICE;
    IoSetCompletionRoutine(own, Ended, NULL, TRUE, TRUE, TRUE);
    IoCallDriver(Ext->Self, own);
    return Done(Irp);
}

/* The controls have four bytes of input, and room for sixteen. A structure may leave some bytes out. */
static NTSTATUS AnswersInPart(PEXTENSION Ext, PIRP Irp, BOOLEAN Wrong)
{
    PUCHAR out = Irp->AssociatedIrp.SystemBuffer;
    UNREFERENCED_PARAMETER(Ext);
    RtlZeroMemory(out, Wrong ? 5 : 8);
    out[15] = 1;
    Irp->IoStatus.Status = STATUS_SUCCESS;
    Irp->IoStatus.Information = 16;
    IoCompleteRequest(Irp, IO_NO_INCREMENT); /* told: Unwritten */
    return STATUS_SUCCESS;
}

/* A program's pointer. Of the controls that have a buffer of the system's there is none. */
static NTSTATUS ReadsPointer(PEXTENSION Ext, PIRP Irp, BOOLEAN Wrong)
{
    volatile UCHAR *in = IoGetCurrentIrpStackLocation(Irp)->Parameters.DeviceIoControl.Type3InputBuffer;
    if (in && !Wrong)
        ProbeForRead((PVOID)in, 1, 1);
    if (in)
        Ext->Step = *in; /* told: Unprobed */
    return Done(Irp);
}

/* What is probed may be paged out yet, unless its pages are locked. */
static NTSTATUS ReadsUnderLock(PEXTENSION Ext, PIRP Irp, BOOLEAN Wrong)
{
    volatile UCHAR *in = IoGetCurrentIrpStackLocation(Irp)->Parameters.DeviceIoControl.Type3InputBuffer;
    PMDL mdl = in ? IoAllocateMdl((PVOID)in, 16, FALSE, FALSE, NULL) : NULL;
    KIRQL irql;
    if (!mdl)
        return Done(Irp);
    ProbeForRead((PVOID)in, 16, 1);
    if (!Wrong)
        MmProbeAndLockPages(mdl, Irp->RequestorMode, IoReadAccess);
    KeAcquireSpinLock(&Ext->Lock, &irql);
    Ext->Step = *in; /* told: PagedAtDispatch_Program */
    KeReleaseSpinLock(&Ext->Lock, irql);
    if (!Wrong)
        MmUnlockPages(mdl);
    IoFreeMdl(mdl);
    return Done(Irp);
}

/* The kernel's pointers need no probe, and this one is a program's. */
static NTSTATUS LocksAsKernel(PEXTENSION Ext, PIRP Irp, BOOLEAN Wrong)
{
    PVOID in = IoGetCurrentIrpStackLocation(Irp)->Parameters.DeviceIoControl.Type3InputBuffer;
    PMDL mdl = in ? IoAllocateMdl(in, 16, FALSE, FALSE, NULL) : NULL;
    UNREFERENCED_PARAMETER(Ext);
    if (!mdl)
        return Done(Irp);
    MmProbeAndLockPages(mdl, Wrong ? KernelMode : Irp->RequestorMode, IoReadAccess); /* told: Unprobed_Locked_Program */
    MmUnlockPages(mdl);
    IoFreeMdl(mdl);
    return Done(Irp);
}

static NTSTATUS SetsNone(PEXTENSION Ext, PIRP Irp, BOOLEAN Wrong)
{
    IoCopyCurrentIrpStackLocationToNext(Irp);
    IoSetCompletionRoutine(Irp, NULL, NULL, Wrong, FALSE, FALSE); /* told: NullRoutine */
    return IoCallDriver(Ext->Lower, Irp);
}

const CASE_ROW PacketCases[] = {
    { "NullRoutine", SetsNone, NULL, NULL }, { "Unwritten", AnswersInPart, NULL, NULL }, { "Unprobed", ReadsPointer, NULL, NULL },
    { "PagedAtDispatch_Program", ReadsUnderLock, NULL, NULL }, { "Unprobed_Locked_Program", LocksAsKernel, NULL, NULL },
    { "NoStatus", SaysNothing, NULL, NULL },
    { "TouchedAfterSend", TouchesLate, NULL, NULL }, { "InformationTooLong", SaysTooMuch, NULL, NULL },
    { "NotPassedDown", NULL, StartsAlone, NULL }, { "PnpStatusChanged", NULL, ChangesUnknown, NULL },
    { "PnpStatusChanged_Completed", NULL, FailsUnknown, NULL }, { "RemoveFailed", AsksForRemoval, FailsRemoval, NULL },
    { NULL, NULL, NULL, NULL },
};
