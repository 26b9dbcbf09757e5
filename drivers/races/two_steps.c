/* two_steps.c: 2 preemptions, Hang. A read that finds the device stopped is queued, and the queue is emptied when it starts
   again. The packet is lost where the read looks between stop and start, and queues behind the start. The thread that stops
   has to be preempted between both, and the read between its look and its insertion; with one preemption the read comes
   whole at one time, or its look comes while the device runs. */
#include "race.h"

typedef struct { KSPIN_LOCK Lock; LIST_ENTRY Waiting; BOOLEAN Stopped; } EXTENSION, *PEXTENSION;
static PDEVICE_OBJECT device;

static BOOLEAN IsStopped(PEXTENSION Ext)
{
    KIRQL irql;
    KeAcquireSpinLock(&Ext->Lock, &irql);
    const BOOLEAN stopped = Ext->Stopped;
    KeReleaseSpinLock(&Ext->Lock, irql);
    return stopped;
}

static VOID EmptyQueue(PEXTENSION Ext)
{
    PLIST_ENTRY e;
    while ((e = ExInterlockedRemoveHeadList(&Ext->Waiting, &Ext->Lock)))
        Complete(CONTAINING_RECORD(e, IRP, Tail.Overlay.ListEntry), STATUS_SUCCESS, 0);
}

static NTSTATUS Read(PDEVICE_OBJECT DeviceObject, PIRP Irp)
{
    PEXTENSION ext = DeviceObject->DeviceExtension;
    if (!IsStopped(ext))
        return Complete(Irp, STATUS_SUCCESS, 0);
    IoMarkIrpPending(Irp);
    ExInterlockedInsertTailList(&ext->Waiting, &Irp->Tail.Overlay.ListEntry, &ext->Lock);
#ifdef RIGHT
    if (!IsStopped(ext))
        EmptyQueue(ext);
#endif
    return STATUS_PENDING; /* the fault: it may have started again before the packet was in the queue */
}

static void set_stopped(BOOLEAN stopped)
{
    PEXTENSION ext = device->DeviceExtension;
    KIRQL irql;
    KeAcquireSpinLock(&ext->Lock, &irql);
    ext->Stopped = stopped;
    KeReleaseSpinLock(&ext->Lock, irql);
}

static void *stop_and_start(void *context)
{
    set_stopped(TRUE);
    set_stopped(FALSE);
    EmptyQueue(device->DeviceExtension);
    return context;
}

NTSTATUS DriverEntry(PDRIVER_OBJECT DriverObject, PUNICODE_STRING RegistryPath)
{
    UNREFERENCED_PARAMETER(RegistryPath);
    device = MakeDevice(DriverObject, sizeof(EXTENSION), Read);
    PEXTENSION ext = device->DeviceExtension;
    KeInitializeSpinLock(&ext->Lock);
    InitializeListHead(&ext->Waiting);
    return STATUS_SUCCESS;
}

static void *read_it(void *context)
{
    WdmSend(device, IRP_MJ_READ, 0, 4);
    return context;
}

int main(void)
{
    pthread_t a, b;
    WdmLoadDriver("two_steps", DriverEntry);
    pthread_create(&a, NULL, read_it, NULL);
    pthread_create(&b, NULL, stop_and_start, NULL);
    pthread_join(a, NULL);
    pthread_join(b, NULL);
    return WdmFinish();
}
