/* cancel_complete.c: 1 preemption, CompletedTwice. The completer takes the cancel routine back, and doesn't look whether it
   was still set. Main is preempted in its cancel, when the routine is taken and hasn't the lock yet; the interrupt
   completes, and then the routine does. Without a preemption one of the two comes whole before the other. */
#include "race.h"

typedef struct { KSPIN_LOCK Lock; PIRP Current; } EXTENSION, *PEXTENSION;
static PDEVICE_OBJECT device;

static VOID CancelRead(PDEVICE_OBJECT DeviceObject, PIRP Irp)
{
    PEXTENSION ext = DeviceObject->DeviceExtension;
    KIRQL irql;
    IoReleaseCancelSpinLock(Irp->CancelIrql);
    KeAcquireSpinLock(&ext->Lock, &irql);
    if (ext->Current == Irp)
        ext->Current = NULL;
    KeReleaseSpinLock(&ext->Lock, irql);
    Complete(Irp, STATUS_CANCELLED, 0);
}

static NTSTATUS Read(PDEVICE_OBJECT DeviceObject, PIRP Irp)
{
    PEXTENSION ext = DeviceObject->DeviceExtension;
    KIRQL irql;
    KeAcquireSpinLock(&ext->Lock, &irql);
    IoSetCancelRoutine(Irp, CancelRead);
    if (Irp->Cancel && IoSetCancelRoutine(Irp, NULL) != NULL) {
        KeReleaseSpinLock(&ext->Lock, irql);
        return Complete(Irp, STATUS_CANCELLED, 0);
    }
    IoMarkIrpPending(Irp);
    ext->Current = Irp;
    KeReleaseSpinLock(&ext->Lock, irql);
    return STATUS_PENDING;
}

static VOID OnInterrupt(VOID)
{
    PEXTENSION ext = device->DeviceExtension;
    KIRQL irql;
    KeAcquireSpinLock(&ext->Lock, &irql);
    PIRP irp = ext->Current;
    ext->Current = NULL;
#ifdef RIGHT
    if (irp && !IoSetCancelRoutine(irp, NULL))
        irp = NULL;
#else
    if (irp)
        IoSetCancelRoutine(irp, NULL); /* the fault: what it returns isn't looked at */
#endif
    KeReleaseSpinLock(&ext->Lock, irql);
    if (irp)
        Complete(irp, STATUS_SUCCESS, 1);
}

NTSTATUS DriverEntry(PDRIVER_OBJECT DriverObject, PUNICODE_STRING RegistryPath)
{
    UNREFERENCED_PARAMETER(RegistryPath);
    DriverObject->MajorFunction[IRP_MJ_READ] = Read;
    NTSTATUS status = IoCreateDevice(DriverObject, sizeof(EXTENSION), NULL, FILE_DEVICE_UNKNOWN, 0, FALSE, &device);
    if (NT_SUCCESS(status))
        KeInitializeSpinLock(&((PEXTENSION)device->DeviceExtension)->Lock);
    return status;
}

static void *interrupt(void *context) { OnInterrupt(); return context; }

int main(void)
{
    WdmLoadDriver("cancel_complete", DriverEntry);
    for (int i = 0; i < ROUNDS; i++) {
        REQUEST r;
        pthread_t t;
        Start(&r, device, IRP_MJ_READ, 4);
        pthread_create(&t, NULL, interrupt, NULL);
        IoCancelIrp(r.Irp);
        pthread_join(t, NULL);
        Finish(&r);
    }
    return WdmFinish();
}
