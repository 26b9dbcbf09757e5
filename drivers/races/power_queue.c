/* power_queue.c: 1 preemption, Hang. A read that finds the device asleep is queued, and the queue is emptied when it wakes.
   The read is preempted between its look and its insertion, and the device wakes there: nobody comes again. */
#include "race.h"

typedef struct { KSPIN_LOCK Lock; LIST_ENTRY Waiting; BOOLEAN Awake; } EXTENSION, *PEXTENSION;
static PDEVICE_OBJECT device;

static NTSTATUS Read(PDEVICE_OBJECT DeviceObject, PIRP Irp)
{
    PEXTENSION ext = DeviceObject->DeviceExtension;
    KIRQL irql;
    KeAcquireSpinLock(&ext->Lock, &irql);
    const BOOLEAN awake = ext->Awake;
#ifndef RIGHT
    KeReleaseSpinLock(&ext->Lock, irql); /* the fault: what was seen may be over */
#endif
    if (!awake) {
        IoMarkIrpPending(Irp);
#ifndef RIGHT
        KeAcquireSpinLock(&ext->Lock, &irql);
#endif
        InsertTailList(&ext->Waiting, &Irp->Tail.Overlay.ListEntry);
        KeReleaseSpinLock(&ext->Lock, irql);
        return STATUS_PENDING;
    }
#ifdef RIGHT
    KeReleaseSpinLock(&ext->Lock, irql);
#endif
    return Complete(Irp, STATUS_SUCCESS, 0);
}

static void *wake(void *context)
{
    PEXTENSION ext = device->DeviceExtension;
    PLIST_ENTRY e;
    KIRQL irql;
    KeAcquireSpinLock(&ext->Lock, &irql);
    ext->Awake = TRUE;
    KeReleaseSpinLock(&ext->Lock, irql);
    while ((e = ExInterlockedRemoveHeadList(&ext->Waiting, &ext->Lock)))
        Complete(CONTAINING_RECORD(e, IRP, Tail.Overlay.ListEntry), STATUS_SUCCESS, 0);
    return context;
}

NTSTATUS DriverEntry(PDRIVER_OBJECT DriverObject, PUNICODE_STRING RegistryPath)
{
    UNREFERENCED_PARAMETER(RegistryPath);
    device = MakeDevice(DriverObject, sizeof(EXTENSION), Read);
    PEXTENSION ext = device->DeviceExtension;
    KeInitializeSpinLock(&ext->Lock);
    InitializeListHead(&ext->Waiting);
    return STATUS_SUCCESS;
}

int main(void)
{
    pthread_t t;
    WdmLoadDriver("power_queue", DriverEntry);
    pthread_create(&t, NULL, wake, NULL);
    WdmSend(device, IRP_MJ_READ, 0, 4);
    pthread_join(t, NULL);
    return WdmFinish();
}
