/* own.c: right shapes that send a packet of the driver's own, or theirs to another stack. */
#include "shapes.h"

static NTSTATUS OwnAndWait(PEXTENSION Ext, PIRP Irp)
{
    KEVENT event;
    PIRP own = IoAllocateIrp(Ext->Lower->StackSize, FALSE);
    if (own == NULL)
        return Done(Irp, STATUS_INSUFFICIENT_RESOURCES);
    KeInitializeEvent(&event, NotificationEvent, FALSE);
    PIO_STACK_LOCATION next = IoGetNextIrpStackLocation(own);
    *next = *IoGetCurrentIrpStackLocation(Irp);
    next->Control = 0;
    next->CompletionRoutine = NULL;
    IoSetCompletionRoutine(own, Signal, &event, TRUE, TRUE, TRUE);
    IoCallDriver(Ext->Lower, own);
    KeWaitForSingleObject(&event, Executive, KernelMode, FALSE, NULL);
    Irp->IoStatus = own->IoStatus;
    const NTSTATUS status = own->IoStatus.Status;
    IoFreeIrp(own);
    return Done(Irp, status);
}

/* A packet on its own stack, which it initializes twice and waits for. */
static NTSTATUS OnItsStack(PEXTENSION Ext, PIRP Irp)
{
    union { IRP Irp; UCHAR Room[sizeof(IRP) + 4 * sizeof(IO_STACK_LOCATION)]; } own;
    KEVENT event;
    if (Ext->Lower->StackSize > 4)
        return Done(Irp, STATUS_INSUFFICIENT_RESOURCES);
    for (CCHAR locations = Ext->Lower->StackSize; locations <= 4; locations += 3) {
        KeInitializeEvent(&event, NotificationEvent, FALSE);
        IoInitializeIrp(&own.Irp, IoSizeOfIrp(locations), locations);
        *IoGetNextIrpStackLocation(&own.Irp) = *IoGetCurrentIrpStackLocation(Irp);
        IoSetCompletionRoutine(&own.Irp, Signal, &event, TRUE, TRUE, TRUE);
        IoCallDriver(Ext->Lower, &own.Irp);
        KeWaitForSingleObject(&event, Executive, KernelMode, FALSE, NULL);
    }
    Irp->IoStatus = own.Irp.IoStatus;
    return Done(Irp, own.Irp.IoStatus.Status);
}

typedef struct { PIRP Parent; PDEVICE_OBJECT Lower; int Left; ULONG_PTR Sum; } SPLIT;

static VOID Fill(PIRP Own, ULONG Ending)
{
    PIO_STACK_LOCATION next = IoGetNextIrpStackLocation(Own);
    next->MajorFunction = IRP_MJ_DEVICE_CONTROL;
    next->Parameters.DeviceIoControl.OutputBufferLength = ROOM + Ending;
    next->Parameters.DeviceIoControl.InputBufferLength = 10;
}

static NTSTATUS SplitDone(PDEVICE_OBJECT DeviceObject, PIRP Irp, PVOID Context)
{
    SPLIT *s = Context;
    UNREFERENCED_PARAMETER(DeviceObject);
    s->Sum += Irp->IoStatus.Information;
    if (s->Left--) {
        IoReuseIrp(Irp, STATUS_SUCCESS);
        Fill(Irp, (ULONG)s->Left % 2);
        IoSetCompletionRoutine(Irp, SplitDone, s, TRUE, TRUE, TRUE);
        IoCallDriver(s->Lower, Irp);
    } else {
        IoFreeIrp(Irp);
        s->Parent->IoStatus.Information = s->Sum;
        Done(s->Parent, STATUS_SUCCESS);
        ExFreePool(s);
    }
    return STATUS_MORE_PROCESSING_REQUIRED;
}

/* One packet of its own, used four times. Its routine is set before it is filled. */
static NTSTATUS SplitTransfer(PEXTENSION Ext, PIRP Irp)
{
    SPLIT *s = ExAllocatePool2(POOL_FLAG_NON_PAGED, sizeof *s, 'tilS');
    PIRP own = s ? IoAllocateIrp(Ext->Lower->StackSize, FALSE) : NULL;
    if (own == NULL) {
        if (s)
            ExFreePool(s);
        return Done(Irp, STATUS_INSUFFICIENT_RESOURCES);
    }
    *s = (SPLIT){ Irp, Ext->Lower, 3, 0 };
    const ULONG ending = IoGetCurrentIrpStackLocation(Irp)->Parameters.DeviceIoControl.OutputBufferLength - ROOM;
    IoMarkIrpPending(Irp);
    IoSetCompletionRoutine(own, SplitDone, s, TRUE, TRUE, TRUE);
    Fill(own, ending);
    IoCallDriver(Ext->Lower, own);
    return STATUS_PENDING;
}

/* To a device that isn't the one below: as a child of a bus sends to its parent's stack. */
static NTSTATUS SendElsewhere(PEXTENSION Ext, PIRP Irp)
{
    IoMarkIrpPending(Irp);
    IoCopyCurrentIrpStackLocationToNext(Irp);
    IoSetCompletionRoutine(Irp, Watch, NULL, TRUE, TRUE, TRUE);
    IoCallDriver(Ext->Elsewhere, Irp);
    return STATUS_PENDING;
}

static NTSTATUS SkipElsewhere(PEXTENSION Ext, PIRP Irp)
{
    IoSkipCurrentIrpStackLocation(Irp);
    return IoCallDriver(Ext->Elsewhere, Irp);
}

static NTSTATUS ElsewhereAndKeep(PEXTENSION Ext, PIRP Irp)
{
    KEVENT event;
    KeInitializeEvent(&event, NotificationEvent, FALSE);
    IoMarkIrpPending(Irp);
    IoCopyCurrentIrpStackLocationToNext(Irp);
    IoSetCompletionRoutine(Irp, Signal, &event, TRUE, TRUE, TRUE);
    IoCallDriver(Ext->Elsewhere, Irp);
    KeWaitForSingleObject(&event, Executive, KernelMode, FALSE, NULL);
    IoCompleteRequest(Irp, IO_NO_INCREMENT);
    return STATUS_PENDING;
}

/* A packet that the I/O manager builds and frees: nobody wants its status. */
static NTSTATUS BuiltForNobody(PEXTENSION Ext, PIRP Irp)
{
    const ULONG code = IoGetCurrentIrpStackLocation(Irp)->Parameters.DeviceIoControl.IoControlCode;
    PIRP own = IoBuildDeviceIoControlRequest(code, Ext->Lower, NULL, 0, NULL, AT_ONCE, FALSE, NULL, NULL);
    if (own)
        IoCallDriver(Ext->Lower, own);
    return Done(Irp, own ? STATUS_SUCCESS : STATUS_INSUFFICIENT_RESOURCES);
}

const NAMED_SHAPE OwnShapes[] = {
    { "OwnAndWait", OwnAndWait }, { "OnItsStack", OnItsStack }, { "SplitTransfer", SplitTransfer },
    { "SendElsewhere", SendElsewhere }, { "SkipElsewhere", SkipElsewhere }, { "ElsewhereAndKeep", ElsewhereAndKeep },
    { "BuiltForNobody", BuiltForNobody }, { NULL, NULL },
};
