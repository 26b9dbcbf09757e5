/* list_unlocked.c: 1 preemption, ListCorrupt. Two threads put packets into one list, one of them without its lock. One is
   preempted within the insertion: the other finds neighbours that don't point to each other. */
#include "race.h"

typedef struct { KSPIN_LOCK Lock; LIST_ENTRY Reads; } EXTENSION, *PEXTENSION;
static PDEVICE_OBJECT device;

static NTSTATUS Read(PDEVICE_OBJECT DeviceObject, PIRP Irp)
{
    PEXTENSION ext = DeviceObject->DeviceExtension;
    IoMarkIrpPending(Irp);
#ifdef RIGHT
    ExInterlockedInsertTailList(&ext->Reads, &Irp->Tail.Overlay.ListEntry, &ext->Lock);
#else
    InsertTailList(&ext->Reads, &Irp->Tail.Overlay.ListEntry); /* the fault */
#endif
    return STATUS_PENDING;
}

NTSTATUS DriverEntry(PDRIVER_OBJECT DriverObject, PUNICODE_STRING RegistryPath)
{
    UNREFERENCED_PARAMETER(RegistryPath);
    device = MakeDevice(DriverObject, sizeof(EXTENSION), Read);
    PEXTENSION ext = device->DeviceExtension;
    KeInitializeSpinLock(&ext->Lock);
    InitializeListHead(&ext->Reads);
    return STATUS_SUCCESS;
}

static REQUEST requests[2];

static void *start(void *context)
{
    Start(&requests[1], device, IRP_MJ_READ, 4);
    return context;
}

int main(void)
{
    pthread_t t;
    PLIST_ENTRY e;
    WdmLoadDriver("list_unlocked", DriverEntry);
    PEXTENSION ext = device->DeviceExtension;
    pthread_create(&t, NULL, start, NULL);
    Start(&requests[0], device, IRP_MJ_READ, 4);
    pthread_join(t, NULL);
    while ((e = ExInterlockedRemoveHeadList(&ext->Reads, &ext->Lock)))
        Complete(CONTAINING_RECORD(e, IRP, Tail.Overlay.ListEntry), STATUS_SUCCESS, 0);
    Finish(&requests[0]);
    Finish(&requests[1]);
    return WdmFinish();
}
