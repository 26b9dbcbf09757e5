/* elevator.c: a disk-like driver with a device queue of its own: its reads are served by their offsets, one at a time, by
   a deferred call that stands for the hardware. A flush serves what is under way at once. */
#include "common.h"

typedef struct {
    PDEVICE_OBJECT Self;
    KDEVICE_QUEUE Queue;
    KDPC Dpc;
    PIRP Current;   /* the one that is under way, and no other one is by that time */
    ULONG Head;     /* the offset at which it is */
    LONG Backwards; /* how often the head went back: to the smallest offset, after the greatest */
} EXTENSION, *PEXTENSION;

static ULONG OffsetOf(PIRP Irp)
{
    return (ULONG)IoGetCurrentIrpStackLocation(Irp)->Parameters.Read.ByteOffset.QuadPart;
}

static VOID Serve(PEXTENSION Ext, PIRP Irp)
{
    Ext->Backwards += OffsetOf(Irp) < Ext->Head;
    Ext->Head = OffsetOf(Irp);
    Ext->Current = Irp;
    KeInsertQueueDpc(&Ext->Dpc, NULL, NULL);
}

/* What waits has a cancel routine, which takes it out of the queue under the cancel spin lock. */
static VOID Served(PKDPC Dpc, PVOID Context, PVOID Argument1, PVOID Argument2)
{
    PEXTENSION ext = Context;
    PIRP irp = ext->Current, next = NULL;
    KIRQL irql;
    UNREFERENCED_PARAMETER(Dpc), UNREFERENCED_PARAMETER(Argument1), UNREFERENCED_PARAMETER(Argument2);
    IoAcquireCancelSpinLock(&irql);
    PKDEVICE_QUEUE_ENTRY entry = KeRemoveByKeyDeviceQueue(&ext->Queue, ext->Head);
    if (entry) {
        next = CONTAINING_RECORD(entry, IRP, Tail.Overlay.DeviceQueueEntry);
        IoSetCancelRoutine(next, NULL);
    }
    IoReleaseCancelSpinLock(irql);
    if (next)
        Serve(ext, next);
    Complete(irp, STATUS_SUCCESS, 4);
}

static VOID CancelQueued(PDEVICE_OBJECT DeviceObject, PIRP Irp)
{
    PEXTENSION ext = DeviceObject->DeviceExtension;
    KeRemoveEntryDeviceQueue(&ext->Queue, &Irp->Tail.Overlay.DeviceQueueEntry);
    IoReleaseCancelSpinLock(Irp->CancelIrql);
    Complete(Irp, STATUS_CANCELLED, 0);
}

static NTSTATUS Read(PDEVICE_OBJECT DeviceObject, PIRP Irp)
{
    PEXTENSION ext = DeviceObject->DeviceExtension;
    KIRQL irql;
    IoMarkIrpPending(Irp);
    IoAcquireCancelSpinLock(&irql);
    const BOOLEAN waits = KeInsertByKeyDeviceQueue(&ext->Queue, &Irp->Tail.Overlay.DeviceQueueEntry, OffsetOf(Irp));
    if (waits)
        IoSetCancelRoutine(Irp, CancelQueued);
    if (waits && Irp->Cancel && IoSetCancelRoutine(Irp, NULL) != NULL) {
        KeRemoveEntryDeviceQueue(&ext->Queue, &Irp->Tail.Overlay.DeviceQueueEntry);
        IoReleaseCancelSpinLock(irql);
        Complete(Irp, STATUS_CANCELLED, 0);
        return STATUS_PENDING;
    }
    IoReleaseCancelSpinLock(irql);
    if (!waits)
        Serve(ext, Irp);
    return STATUS_PENDING;
}

/* The deferred call is made here, where it is queued yet. */
static NTSTATUS Flush(PDEVICE_OBJECT DeviceObject, PIRP Irp)
{
    PEXTENSION ext = DeviceObject->DeviceExtension;
    const KIRQL irql = KeRaiseIrqlToDpcLevel();
    if (KeRemoveQueueDpc(&ext->Dpc))
        Served(&ext->Dpc, ext, NULL, NULL);
    KeLowerIrql(irql);
    return Complete(Irp, STATUS_SUCCESS, 0);
}

static VOID Unload(PDRIVER_OBJECT DriverObject)
{
    KeFlushQueuedDpcs();
    IoDeleteDevice(DriverObject->DeviceObject);
}

NTSTATUS DriverEntry(PDRIVER_OBJECT DriverObject, PUNICODE_STRING RegistryPath)
{
    PDEVICE_OBJECT device;
    UNREFERENCED_PARAMETER(RegistryPath);
    DriverObject->MajorFunction[IRP_MJ_READ] = Read;
    DriverObject->MajorFunction[IRP_MJ_FLUSH_BUFFERS] = Flush;
    DriverObject->DriverUnload = Unload;
    NTSTATUS status = IoCreateDevice(DriverObject, sizeof(EXTENSION), NULL, FILE_DEVICE_DISK, 0, FALSE, &device);
    if (!NT_SUCCESS(status))
        return status;
    PEXTENSION ext = device->DeviceExtension;
    ext->Self = device;
    KeInitializeDeviceQueue(&ext->Queue);
    KeInitializeDpc(&ext->Dpc, Served, ext);
    return STATUS_SUCCESS;
}

static void start_at(REQUEST *r, PDEVICE_OBJECT top, ULONG offset)
{
    KeInitializeEvent(&r->Done, NotificationEvent, FALSE);
    r->Irp = WdmBuildIrp(top, IRP_MJ_READ, 0, 4, NULL, NULL);
    IoGetNextIrpStackLocation(r->Irp)->Parameters.Read.ByteOffset.QuadPart = offset;
    IoSetCompletionRoutine(r->Irp, KeepRequest, r, TRUE, TRUE, TRUE);
    IoCallDriver(top, r->Irp);
}

int main(void)
{
    REQUEST r[4];
    static const ULONG offsets[4] = { 30, 10, 40, 20 };
    PDRIVER_OBJECT driver = WdmLoadDriver("elevator", DriverEntry);
    PDEVICE_OBJECT disk = driver->DeviceObject;
    const ULONG rounds = WdmRounds(3);
    for (ULONG i = 0; i < rounds; i++) {
        for (int k = 0; k < 4; k++)
            start_at(&r[k], disk, offsets[k]);
        IoCancelIrp(r[3].Irp);
        WdmSend(disk, IRP_MJ_FLUSH_BUFFERS, 0, 0);
        for (int k = 0; k < 4; k++)
            Finish(&r[k]);
    }
    WDM_CHECK(((PEXTENSION)disk->DeviceExtension)->Backwards <= (LONG)(3 * rounds));
    WdmUnloadDriver(driver);
    WdmExpectEntries(2 + 32 * rounds);
    return WdmFinish();
}
