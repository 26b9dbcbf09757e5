/* cancel_flag.c: 1 preemption, AlreadyCancelled. The dispatch looks at Irp->Cancel before it sets the cancel routine, and
   not after. It is preempted between both, and the cancel comes there. */
#include "race.h"

typedef struct { KSPIN_LOCK Lock; LIST_ENTRY Reads; } EXTENSION, *PEXTENSION;
static PDEVICE_OBJECT device;

static VOID CancelRead(PDEVICE_OBJECT DeviceObject, PIRP Irp)
{
    PEXTENSION ext = DeviceObject->DeviceExtension;
    KIRQL irql;
    IoReleaseCancelSpinLock(Irp->CancelIrql);
    KeAcquireSpinLock(&ext->Lock, &irql);
    RemoveEntryList(&Irp->Tail.Overlay.ListEntry);
    KeReleaseSpinLock(&ext->Lock, irql);
    Complete(Irp, STATUS_CANCELLED, 0);
}

static NTSTATUS Read(PDEVICE_OBJECT DeviceObject, PIRP Irp)
{
    PEXTENSION ext = DeviceObject->DeviceExtension;
    KIRQL irql;
    if (Irp->Cancel)
        return Complete(Irp, STATUS_CANCELLED, 0);
    IoMarkIrpPending(Irp);
    KeAcquireSpinLock(&ext->Lock, &irql);
    InsertTailList(&ext->Reads, &Irp->Tail.Overlay.ListEntry);
    IoSetCancelRoutine(Irp, CancelRead); /* the fault: a cancel may have come between */
#ifdef RIGHT
    if (Irp->Cancel && IoSetCancelRoutine(Irp, NULL)) {
        RemoveEntryList(&Irp->Tail.Overlay.ListEntry);
        KeReleaseSpinLock(&ext->Lock, irql);
        Complete(Irp, STATUS_CANCELLED, 0);
        return STATUS_PENDING;
    }
#endif
    KeReleaseSpinLock(&ext->Lock, irql);
    return STATUS_PENDING;
}

NTSTATUS DriverEntry(PDRIVER_OBJECT DriverObject, PUNICODE_STRING RegistryPath)
{
    UNREFERENCED_PARAMETER(RegistryPath);
    DriverObject->MajorFunction[IRP_MJ_READ] = Read;
    NTSTATUS status = IoCreateDevice(DriverObject, sizeof(EXTENSION), NULL, FILE_DEVICE_UNKNOWN, 0, FALSE, &device);
    if (NT_SUCCESS(status)) {
        KeInitializeSpinLock(&((PEXTENSION)device->DeviceExtension)->Lock);
        InitializeListHead(&((PEXTENSION)device->DeviceExtension)->Reads);
    }
    return status;
}

static void *cancel(void *irp)
{
    IoCancelIrp(irp);
    return irp;
}

int main(void)
{
    WdmLoadDriver("cancel_flag", DriverEntry);
    for (int i = 0; i < ROUNDS; i++) {
        REQUEST r;
        pthread_t t;
        KeInitializeEvent(&r.Done, NotificationEvent, FALSE);
        r.Irp = WdmBuildIrp(device, IRP_MJ_READ, 0, 4, NULL, NULL);
        IoSetCompletionRoutine(r.Irp, KeepRequest, &r, TRUE, TRUE, TRUE);
        pthread_create(&t, NULL, cancel, r.Irp);
        IoCallDriver(device, r.Irp);
        pthread_join(t, NULL);
        Finish(&r);
    }
    return WdmFinish();
}
