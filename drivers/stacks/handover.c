/* handover.c: a filter whose routine keeps each read and hands it over in another way each time. Whoever gets it writes
   to IoStatus at once, while the routine still runs; the routine itself changes nothing. */
#include "common.h"

enum { BY_EVENT, BY_SEMAPHORE, BY_SPIN_LOCK, BY_LIST, BY_SLIST, BY_WORK_ITEM, BY_DPC, BY_TIMER, WAYS };
typedef struct {
    PDEVICE_OBJECT Self, Lower;
    PIRP Given;
    KEVENT Came;
    KSEMAPHORE Count;
    KSPIN_LOCK Lock;
    LIST_ENTRY Listed;
    SLIST_HEADER Pushed;
    SLIST_ENTRY Push; /* of Given */
    KDPC Dpc;
    KTIMER Timer;
    LONG Stops;
} EXTENSION, *PEXTENSION;

static VOID Take(PIRP Irp)
{
    Irp->IoStatus.Information /= 2;
    KeStallExecutionProcessor(4000);
    IoCompleteRequest(Irp, IO_NO_INCREMENT);
}

static VOID Waiter(PVOID Context)
{
    PEXTENSION ext = Context;
    PVOID objects[] = { &ext->Came, &ext->Count };
    for (;;) {
        KeWaitForMultipleObjects(2, objects, WaitAny, Executive, KernelMode, FALSE, NULL, NULL);
        if (InterlockedAdd(&ext->Stops, 0))
            PsTerminateSystemThread(STATUS_SUCCESS);
        Take(ext->Given);
    }
}

static VOID Poller(PVOID Context)
{
    PEXTENSION ext = Context;
    for (;;) {
        PLIST_ENTRY e = ExInterlockedRemoveHeadList(&ext->Listed, &ext->Lock);
        if (e)
            Take(CONTAINING_RECORD(e, IRP, Tail.Overlay.ListEntry));
        else if (InterlockedPopEntrySList(&ext->Pushed))
            Take(ext->Given);
        else if (InterlockedAdd(&ext->Stops, 0))
            PsTerminateSystemThread(STATUS_SUCCESS);
        else
            Pause(1);
    }
}

typedef struct { PIO_WORKITEM Item; PIRP Irp; } JOB;

static VOID Work(PDEVICE_OBJECT DeviceObject, PVOID Context)
{
    JOB job = *(JOB *)Context;
    UNREFERENCED_PARAMETER(DeviceObject);
    IoFreeWorkItem(job.Item);
    ExFreePool(Context);
    Take(job.Irp);
}

static VOID Called(PKDPC Dpc, PVOID Context, PVOID Argument1, PVOID Argument2)
{
    UNREFERENCED_PARAMETER(Dpc), UNREFERENCED_PARAMETER(Argument1), UNREFERENCED_PARAMETER(Argument2);
    Take(((PEXTENSION)Context)->Given);
}

static VOID QueueWork(PEXTENSION Ext, PIRP Irp)
{
    JOB *job = ExAllocatePool2(POOL_FLAG_NON_PAGED, sizeof *job, 'boJH');
    PIO_WORKITEM item = job ? IoAllocateWorkItem(Ext->Self) : NULL;
    if (item == NULL) {
        if (job)
            ExFreePool(job);
        IoCompleteRequest(Irp, IO_NO_INCREMENT); /* as it is */
        return;
    }
    *job = (JOB){ item, Irp };
    IoQueueWorkItem(job->Item, Work, DelayedWorkQueue, job);
}

static VOID HandOver(PEXTENSION Ext, PIRP Irp, ULONG Way)
{
    KIRQL irql;
    Ext->Given = Irp;
    switch (Way) {
    case BY_EVENT: KeSetEvent(&Ext->Came, IO_NO_INCREMENT, FALSE); break;
    case BY_SEMAPHORE: KeReleaseSemaphore(&Ext->Count, IO_NO_INCREMENT, 1, FALSE); break;
    case BY_SPIN_LOCK:
        KeAcquireSpinLock(&Ext->Lock, &irql);
        InsertTailList(&Ext->Listed, &Irp->Tail.Overlay.ListEntry);
        KeReleaseSpinLock(&Ext->Lock, irql);
        break;
    case BY_LIST: ExInterlockedInsertTailList(&Ext->Listed, &Irp->Tail.Overlay.ListEntry, &Ext->Lock); break;
    case BY_SLIST: InterlockedPushEntrySList(&Ext->Pushed, &Ext->Push); break;
    case BY_WORK_ITEM: QueueWork(Ext, Irp); break;
    case BY_DPC: KeInsertQueueDpc(&Ext->Dpc, NULL, NULL); break;
    default: KeSetTimer(&Ext->Timer, Milliseconds(0), &Ext->Dpc);
    }
}

static NTSTATUS ReadDone(PDEVICE_OBJECT DeviceObject, PIRP Irp, PVOID Context)
{
    UNREFERENCED_PARAMETER(Context);
    HandOver(DeviceObject->DeviceExtension, Irp, IoGetCurrentIrpStackLocation(Irp)->Parameters.Read.Length % WAYS);
    KeStallExecutionProcessor(2000); /* by now IoStatus is another's */
    return STATUS_MORE_PROCESSING_REQUIRED;
}

static NTSTATUS Read(PDEVICE_OBJECT DeviceObject, PIRP Irp)
{
    IoMarkIrpPending(Irp);
    IoCopyCurrentIrpStackLocationToNext(Irp);
    IoSetCompletionRoutine(Irp, ReadDone, NULL, TRUE, TRUE, TRUE);
    IoCallDriver(((PEXTENSION)DeviceObject->DeviceExtension)->Lower, Irp);
    return STATUS_PENDING;
}

static VOID StopWaiter(PEXTENSION Ext, HANDLE Waiter)
{
    PVOID thread;
    InterlockedIncrement(&Ext->Stops);
    KeSetEvent(&Ext->Came, IO_NO_INCREMENT, FALSE);
    ObReferenceObjectByHandle(Waiter, THREAD_ALL_ACCESS, NULL, KernelMode, &thread, NULL);
    KeWaitForSingleObject(thread, Executive, KernelMode, FALSE, NULL);
    ObDereferenceObject(thread);
    ZwClose(Waiter);
}

static NTSTATUS AddDevice(PDRIVER_OBJECT DriverObject, PDEVICE_OBJECT Pdo)
{
    PDEVICE_OBJECT device;
    HANDLE waiter, poller;
    NTSTATUS status = IoCreateDevice(DriverObject, sizeof(EXTENSION), NULL, FILE_DEVICE_UNKNOWN, 0, FALSE,
                                           &device);
    if (!NT_SUCCESS(status))
        return status;
    PEXTENSION ext = device->DeviceExtension;
    ext->Self = device;
    KeInitializeEvent(&ext->Came, SynchronizationEvent, FALSE);
    KeInitializeSemaphore(&ext->Count, 0, WAYS);
    KeInitializeSpinLock(&ext->Lock);
    InitializeListHead(&ext->Listed);
    ExInitializeSListHead(&ext->Pushed);
    KeInitializeDpc(&ext->Dpc, Called, ext);
    KeInitializeTimer(&ext->Timer);
    status = PsCreateSystemThread(&waiter, THREAD_ALL_ACCESS, NULL, NULL, NULL, Waiter, ext);
    if (!NT_SUCCESS(status)) {
        IoDeleteDevice(device);
        return status;
    }
    status = PsCreateSystemThread(&poller, THREAD_ALL_ACCESS, NULL, NULL, NULL, Poller, ext);
    if (!NT_SUCCESS(status)) {
        StopWaiter(ext, waiter);
        IoDeleteDevice(device);
        return status;
    }
    ext->Lower = IoAttachDeviceToDeviceStack(device, Pdo);
    device->Flags &= ~(ULONG)DO_DEVICE_INITIALIZING;
    return STATUS_SUCCESS;
}

NTSTATUS DriverEntry(PDRIVER_OBJECT DriverObject, PUNICODE_STRING RegistryPath)
{
    UNREFERENCED_PARAMETER(RegistryPath);
    DriverObject->DriverExtension->AddDevice = AddDevice;
    DriverObject->MajorFunction[IRP_MJ_READ] = Read;
    return STATUS_SUCCESS;
}

/* handover [WAY]: where WdmRounds makes fewer rounds than there are ways, those from this one on. */
int main(int argc, char **argv)
{
    const ULONG rounds = WdmRounds(3 * WAYS), first = argc > 1 ? (ULONG)atoi(argv[1]) : 0;
    PDRIVER_OBJECT driver = WdmLoadDriver("handover", DriverEntry);
    PDEVICE_OBJECT bottom = WdmCreateBottom(FALSE);
    if (!NT_SUCCESS(AddDevice(driver, bottom)))
        return WdmFinish();
    PDEVICE_OBJECT top = IoGetAttachedDevice(bottom);
    PEXTENSION ext = top->DeviceExtension;
    WdmDeclareRule(ReadDone, "keeper");
    for (ULONG i = 0; i < rounds; i++) {
        REQUEST r;
        Start(&r, top, IRP_MJ_READ, first + i + WAYS);
        Finish(&r);
    }
    InterlockedIncrement(&ext->Stops);
    KeSetEvent(&ext->Came, IO_NO_INCREMENT, FALSE);
    Pause(10);
    WdmExpectEntries(rounds * 5);
    return WdmFinish();
}
