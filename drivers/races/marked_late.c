/* marked_late.c: 1 preemption, Ended. The dispatch marks the packet pending after it has put it where the interrupt
   finds it. It is preempted between both, and the interrupt completes there. */
#include "race.h"

typedef struct { KSPIN_LOCK Lock; LIST_ENTRY Reads; } EXTENSION, *PEXTENSION;
static PDEVICE_OBJECT device;

static NTSTATUS Read(PDEVICE_OBJECT DeviceObject, PIRP Irp)
{
    PEXTENSION ext = DeviceObject->DeviceExtension;
#ifdef RIGHT
    IoMarkIrpPending(Irp);
    ExInterlockedInsertTailList(&ext->Reads, &Irp->Tail.Overlay.ListEntry, &ext->Lock);
#else
    ExInterlockedInsertTailList(&ext->Reads, &Irp->Tail.Overlay.ListEntry, &ext->Lock);
    IoMarkIrpPending(Irp); /* the fault */
#endif
    return STATUS_PENDING;
}

static void *interrupt(void *wanted)
{
    PEXTENSION ext = device->DeviceExtension;
    for (ULONG done = 0; done < (ULONG)(ULONG_PTR)wanted;) {
        PLIST_ENTRY e = ExInterlockedRemoveHeadList(&ext->Reads, &ext->Lock);
        if (e)
            Complete(CONTAINING_RECORD(e, IRP, Tail.Overlay.ListEntry), STATUS_SUCCESS, 1);
        else
            Pause(1);
        done += e != NULL;
    }
    return NULL;
}

NTSTATUS DriverEntry(PDRIVER_OBJECT DriverObject, PUNICODE_STRING RegistryPath)
{
    UNREFERENCED_PARAMETER(RegistryPath);
    device = MakeDevice(DriverObject, sizeof(EXTENSION), Read);
    PEXTENSION ext = device->DeviceExtension;
    KeInitializeSpinLock(&ext->Lock);
    InitializeListHead(&ext->Reads);
    return STATUS_SUCCESS;
}

int main(void)
{
    pthread_t t;
    WdmLoadDriver("marked_late", DriverEntry);
    pthread_create(&t, NULL, interrupt, (void *)1);
    WdmSend(device, IRP_MJ_READ, 0, 4);
    pthread_join(t, NULL);
    return WdmFinish();
}
