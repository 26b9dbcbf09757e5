/* objects.c: mutexes that are kept, objects that are used where their memory has gone, and a start that is handled on the
   way down. */
#include "rules.h"

typedef struct { KEVENT Event; KTIMER Timer; KDPC Dpc; KSPIN_LOCK Lock; KEVENT Begun; } OBJECTS, *POBJECTS;
enum { TIMER = 1, LOCK, DPC_CALL, EVENT };

static POBJECTS Allocate(VOID)
{
    POBJECTS objects = ExAllocatePoolWithTag(NonPagedPool, sizeof *objects, 'sjbO');
    KeInitializeEvent(&objects->Event, NotificationEvent, FALSE);
    KeInitializeEvent(&objects->Begun, NotificationEvent, FALSE);
    KeInitializeTimer(&objects->Timer);
    KeInitializeSpinLock(&objects->Lock);
    return objects;
}

static VOID TakeMutex(PEXTENSION Ext, BOOLEAN Wrong)
{
    KeWaitForSingleObject(&Ext->Plain, Executive, KernelMode, FALSE, NULL); /* told: MutexKept */ /* told: MutexKept_Thread */
    if (!Wrong)
        KeReleaseMutex(&Ext->Plain, FALSE);
}

static NTSTATUS KeepsMutex(PEXTENSION Ext, PIRP Irp, BOOLEAN Wrong)
{
    TakeMutex(Ext, Wrong);
    return Done(Irp);
}

static VOID MutexThread(PVOID Context)
{
    PEXTENSION ext = Context;
    TakeMutex(ext, ext->Wrong);
}

static NTSTATUS ThreadKeepsMutex(PEXTENSION Ext, PIRP Irp, BOOLEAN Wrong)
{
    UNREFERENCED_PARAMETER(Wrong);
    RunThread(Ext, MutexThread);
    return Done(Irp);
}

static VOID Deferred(PKDPC Dpc, PVOID Context, PVOID A, PVOID B)
{
    UNREFERENCED_PARAMETER(Dpc), UNREFERENCED_PARAMETER(Context), UNREFERENCED_PARAMETER(A), UNREFERENCED_PARAMETER(B);
}

static NTSTATUS SetsTimer(PEXTENSION Ext, PIRP Irp, BOOLEAN Wrong)
{
    POBJECTS objects = Allocate();
    UNREFERENCED_PARAMETER(Ext);
    if (Wrong)
        ExFreePool(objects);
    KeSetTimer(&objects->Timer, (LARGE_INTEGER){ .QuadPart = -100000000 }, NULL); /* told: UsedInFreedMemory_Timer */
    KeCancelTimer(&objects->Timer);
    if (!Wrong)
        ExFreePool(objects);
    return Done(Irp);
}

static NTSTATUS TakesLock(PEXTENSION Ext, PIRP Irp, BOOLEAN Wrong)
{
    POBJECTS objects = Allocate();
    KIRQL irql;
    UNREFERENCED_PARAMETER(Ext);
    if (Wrong) {
        ExFreePool(objects);
        KeInitializeSpinLock(&objects->Lock);
    }
    KeAcquireSpinLock(&objects->Lock, &irql); /* told: UsedInFreedMemory_Lock */
    KeReleaseSpinLock(&objects->Lock, irql);
    if (!Wrong)
        ExFreePool(objects);
    return Done(Irp);
}

static NTSTATUS QueuesCall(PEXTENSION Ext, PIRP Irp, BOOLEAN Wrong)
{
    POBJECTS objects = Allocate();
    UNREFERENCED_PARAMETER(Ext);
    if (Wrong)
        ExFreePool(objects);
    KeInitializeDpc(&objects->Dpc, Deferred, NULL);
    KeInsertQueueDpc(&objects->Dpc, NULL, NULL); /* told: UsedInFreedMemory_Call */
    KeFlushQueuedDpcs();
    if (!Wrong)
        ExFreePool(objects);
    return Done(Irp);
}

static VOID Waits(PVOID Context)
{
    POBJECTS objects = Context;
    LARGE_INTEGER limit = { .QuadPart = -10000 * 300 };
    KeSetEvent(&objects->Begun, IO_NO_INCREMENT, FALSE);
    KeWaitForSingleObject(&objects->Event, Executive, KernelMode, FALSE, &limit);
}

/* A thread waits for an event in the block, which goes. */
static NTSTATUS FreesEvent(PEXTENSION Ext, PIRP Irp, BOOLEAN Wrong)
{
    POBJECTS objects = Allocate();
    LARGE_INTEGER moment = { .QuadPart = -10000 * 100 };
    HANDLE handle;
    PVOID thread;
    UNREFERENCED_PARAMETER(Ext);
    PsCreateSystemThread(&handle, THREAD_ALL_ACCESS, NULL, NULL, NULL, Waits, objects);
    ObReferenceObjectByHandle(handle, THREAD_ALL_ACCESS, NULL, KernelMode, &thread, NULL);
    ZwClose(handle);
    KeWaitForSingleObject(&objects->Begun, Executive, KernelMode, FALSE, NULL);
    KeDelayExecutionThread(KernelMode, FALSE, &moment);
    if (Wrong)
        ExFreePool(objects); /* told: UsedInFreedMemory_Event */
    else
        KeSetEvent(&objects->Event, IO_NO_INCREMENT, FALSE);
    KeWaitForSingleObject(thread, Executive, KernelMode, FALSE, NULL);
    ObDereferenceObject(thread);
    if (!Wrong)
        ExFreePool(objects);
    return Done(Irp);
}

/* A remove lock may lie in pool, as well as in an extension. */
static NTSTATUS FreesRemoveLock(PEXTENSION Ext, PIRP Irp, BOOLEAN Wrong)
{
    PIO_REMOVE_LOCK lock = ExAllocatePoolWithTag(NonPagedPool, sizeof *lock, 'kcoL');
    UNREFERENCED_PARAMETER(Ext);
    IoInitializeRemoveLock(lock, 'kcoL', 0, 0);
    IoAcquireRemoveLock(lock, Irp);
    if (!Wrong)
        IoReleaseRemoveLockAndWait(lock, Irp);
    ExFreePoolWithTag(lock, 'kcoL'); /* told: LockInFreedMemory_RemoveLock */
    return Done(Irp);
}

static VOID Works(PDEVICE_OBJECT DeviceObject, PVOID Context)
{
    UNREFERENCED_PARAMETER(DeviceObject);
    if (Context)
        IoFreeWorkItem(Context);
}

static NTSTATUS QueuesFreedItem(PEXTENSION Ext, PIRP Irp, BOOLEAN Wrong)
{
    PIO_WORKITEM item = IoAllocateWorkItem(Ext->Self);
    if (Wrong)
        IoFreeWorkItem(item);
    IoQueueWorkItem(item, Works, DelayedWorkQueue, item); /* told: UsedInFreedMemory_WorkItem */
    return Done(Irp);
}

static PIO_WORKITEM late_item;

/* The item is queued once its device is gone. */
static NTSTATUS KeepsItem(PEXTENSION Ext, PIRP Irp, BOOLEAN Wrong)
{
    if (Wrong && !late_item)
        late_item = IoAllocateWorkItem(Ext->Self);
    return Done(Irp);
}

/* These take their objects from the extension once the device is gone. */
static NTSTATUS LocksLate(PEXTENSION Ext, PIRP Irp, BOOLEAN Wrong)
{
    Ext->Step = Wrong ? LOCK : 0;
    if (NT_SUCCESS(IoAcquireRemoveLock(&Ext->RemoveLock, Irp)))
        IoReleaseRemoveLock(&Ext->RemoveLock, Irp);
    return Done(Irp);
}

static NTSTATUS SignalsLate(PEXTENSION Ext, PIRP Irp, BOOLEAN Wrong)
{
    Ext->Step = Wrong ? EVENT : 0;
    KeSetEvent(&Ext->Event, IO_NO_INCREMENT, FALSE);
    return Done(Irp);
}

VOID UsesAfterwards(PEXTENSION Ext)
{
    if (late_item)
        IoQueueWorkItem(late_item, Works, DelayedWorkQueue, late_item); /* told: UsedInFreedMemory_ItemOfDevice */
    late_item = NULL;
    if (Ext->Wrong && Ext->Step == LOCK)
        IoAcquireRemoveLock(&Ext->RemoveLock, Ext); /* told: UsedInFreedMemory_RemoveLock */
    if (Ext->Wrong && Ext->Step == EVENT)
        KeSetEvent(&Ext->Event, IO_NO_INCREMENT, FALSE); /* told: UsedInFreedMemory_Extension */
}

static BOOLEAN Service(PKINTERRUPT Interrupt, PVOID Context)
{
    UNREFERENCED_PARAMETER(Interrupt), UNREFERENCED_PARAMETER(Context);
    return FALSE;
}

static NTSTATUS Started(PDEVICE_OBJECT DeviceObject, PIRP Irp, PVOID Context)
{
    UNREFERENCED_PARAMETER(DeviceObject), UNREFERENCED_PARAMETER(Irp);
    KeSetEvent(Context, IO_NO_INCREMENT, FALSE);
    return STATUS_MORE_PROCESSING_REQUIRED;
}

static NTSTATUS StartsEarly(PEXTENSION Ext, PIRP Irp, BOOLEAN Wrong)
{
    KEVENT event;
    NTSTATUS status;
    if (IoGetCurrentIrpStackLocation(Irp)->MinorFunction != IRP_MN_START_DEVICE)
        return PassDown(Ext, Irp);
    if (Wrong)
        IoConnectInterrupt(&Ext->Interrupt, Service, Ext, NULL, 7, 7, 7, LevelSensitive, TRUE, 1, FALSE); /* told: StartedEarly */
    KeInitializeEvent(&event, NotificationEvent, FALSE);
    IoCopyCurrentIrpStackLocationToNext(Irp);
    IoSetCompletionRoutine(Irp, Started, &event, TRUE, TRUE, TRUE);
    if (IoCallDriver(Ext->Lower, Irp) == STATUS_PENDING)
        KeWaitForSingleObject(&event, Executive, KernelMode, FALSE, NULL);
    if (!Wrong)
        IoConnectInterrupt(&Ext->Interrupt, Service, Ext, NULL, 7, 7, 7, LevelSensitive, TRUE, 1, FALSE);
    status = Irp->IoStatus.Status;
    IoCompleteRequest(Irp, IO_NO_INCREMENT);
    IoDisconnectInterrupt(Ext->Interrupt);
    return status;
}

/* A control of the driver's own for the device below, in the middle of the start; the right one sends it afterwards. */
static VOID Ask(PEXTENSION Ext)
{
    KEVENT event;
    IO_STATUS_BLOCK iosb;
    KeInitializeEvent(&event, NotificationEvent, FALSE);
    PIRP own = IoBuildDeviceIoControlRequest(0x222000, Ext->Lower, NULL, 0, NULL, 0, FALSE, &event, &iosb);
    if (IoCallDriver(Ext->Lower, own) == STATUS_PENDING) /* told: StartedEarly_Asks */
        KeWaitForSingleObject(&event, Executive, KernelMode, FALSE, NULL);
}

static NTSTATUS AsksEarly(PEXTENSION Ext, PIRP Irp, BOOLEAN Wrong)
{
    if (IoGetCurrentIrpStackLocation(Irp)->MinorFunction == IRP_MN_START_DEVICE && Wrong)
        Ask(Ext);
    return PassDown(Ext, Irp);
}

static NTSTATUS AsksLater(PEXTENSION Ext, PIRP Irp, BOOLEAN Wrong)
{
    UNREFERENCED_PARAMETER(Wrong);
    Ask(Ext);
    return Done(Irp);
}

/* An entry that is removed again after it was taken. */
static NTSTATUS RemovesTwice(PEXTENSION Ext, PIRP Irp, BOOLEAN Wrong)
{
    LIST_ENTRY head, entries[2];
    UNREFERENCED_PARAMETER(Ext);
    InitializeListHead(&head);
    InsertTailList(&head, &entries[0]);
    InsertHeadList(&head, &entries[1]);
    PLIST_ENTRY first = RemoveHeadList(&head);
    if (Wrong)
        RemoveEntryList(first); /* told: ListCorrupt */
    RemoveTailList(&head);
    return Done(Irp);
}

/* Each control enables an interface of the bottom device, which the test deletes after the removal. */
static NTSTATUS EnablesInterface(PEXTENSION Ext, PIRP Irp, BOOLEAN Wrong)
{
    static const GUID ours = { 0x2f0d9d4a, 0x6b3c, 0x4e51, { 0x9c, 0x11, 0x57, 0x0a, 0x4e, 0x62, 0x8d, 0x03 } };
    UNICODE_STRING link;
    if (!NT_SUCCESS(IoRegisterDeviceInterface(Ext->Lower, &ours, NULL, &link)))
        return Done(Irp);
    IoSetDeviceInterfaceState(&link, TRUE); /* told: InterfaceEnabled */
    if (!Wrong)
        IoSetDeviceInterfaceState(&link, FALSE);
    RtlFreeUnicodeString(&link);
    return Done(Irp);
}

const CASE_ROW ObjectCases[] = {
    { "MutexKept", KeepsMutex, NULL, NULL }, { "MutexKept_Thread", ThreadKeepsMutex, NULL, NULL },
    { "UsedInFreedMemory_Timer", SetsTimer, NULL, NULL }, { "UsedInFreedMemory_Lock", TakesLock, NULL, NULL },
    { "UsedInFreedMemory_Call", QueuesCall, NULL, NULL }, { "UsedInFreedMemory_Event", FreesEvent, NULL, NULL },
    { "UsedInFreedMemory_WorkItem", QueuesFreedItem, NULL, NULL },
    { "UsedInFreedMemory_RemoveLock", LocksLate, NULL, NULL }, { "UsedInFreedMemory_ItemOfDevice", KeepsItem, NULL, NULL },
    { "LockInFreedMemory_RemoveLock", FreesRemoveLock, NULL, NULL },
    { "UsedInFreedMemory_Extension", SignalsLate, NULL, NULL }, { "StartedEarly", NULL, StartsEarly, NULL },
    { "StartedEarly_Asks", AsksLater, AsksEarly, NULL }, { "ListCorrupt", RemovesTwice, NULL, NULL },
    { "StillInitializing", NULL, NULL, NULL }, { "InterfaceEnabled", EnablesInterface, NULL, NULL },
    { NULL, NULL, NULL, NULL },
};
