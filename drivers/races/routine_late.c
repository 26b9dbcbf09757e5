/* routine_late.c: 1 preemption, Ended. The dispatch sets the cancel routine after it has given the queue's lock back. It is
   preempted between both; the interrupt takes the packet, finds no routine to take back, and completes. */
#include "race.h"

typedef struct { KSPIN_LOCK Lock; PIRP Current; } EXTENSION, *PEXTENSION;
static PDEVICE_OBJECT device;

static PIRP TakeCurrent(PEXTENSION Ext)
{
    KIRQL irql;
    KeAcquireSpinLock(&Ext->Lock, &irql);
    PIRP irp = Ext->Current;
    Ext->Current = NULL;
    KeReleaseSpinLock(&Ext->Lock, irql);
    return irp;
}

static VOID CancelRead(PDEVICE_OBJECT DeviceObject, PIRP Irp)
{
    IoReleaseCancelSpinLock(Irp->CancelIrql);
    if (TakeCurrent(DeviceObject->DeviceExtension) == Irp)
        Complete(Irp, STATUS_CANCELLED, 0);
}

static NTSTATUS Read(PDEVICE_OBJECT DeviceObject, PIRP Irp)
{
    PEXTENSION ext = DeviceObject->DeviceExtension;
    KIRQL irql;
    IoMarkIrpPending(Irp);
    KeAcquireSpinLock(&ext->Lock, &irql);
    ext->Current = Irp;
#ifdef RIGHT
    IoSetCancelRoutine(Irp, CancelRead);
#endif
    KeReleaseSpinLock(&ext->Lock, irql);
#ifndef RIGHT
    IoSetCancelRoutine(Irp, CancelRead); /* the fault */
#endif
    return STATUS_PENDING;
}

static void *interrupt(void *context)
{
    PIRP irp;
    while (!(irp = TakeCurrent(device->DeviceExtension)))
        Pause(1);
    IoSetCancelRoutine(irp, NULL);
    Complete(irp, STATUS_SUCCESS, 1);
    return context;
}

NTSTATUS DriverEntry(PDRIVER_OBJECT DriverObject, PUNICODE_STRING RegistryPath)
{
    UNREFERENCED_PARAMETER(RegistryPath);
    device = MakeDevice(DriverObject, sizeof(EXTENSION), Read);
    KeInitializeSpinLock(&((PEXTENSION)device->DeviceExtension)->Lock);
    return STATUS_SUCCESS;
}

int main(void)
{
    pthread_t t;
    WdmLoadDriver("routine_late", DriverEntry);
    pthread_create(&t, NULL, interrupt, NULL);
    WdmSend(device, IRP_MJ_READ, 0, 4);
    pthread_join(t, NULL);
    return WdmFinish();
}
