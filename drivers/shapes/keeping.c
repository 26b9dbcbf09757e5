/* keeping.c: right shapes that keep the packet: they wait, or hand it to a worker, or send it again. */
#include "shapes.h"

static NTSTATUS ForwardAndWait(PEXTENSION Ext, PIRP Irp)
{
    KEVENT event;
    KeInitializeEvent(&event, NotificationEvent, FALSE);
    NTSTATUS status = ForwardWith(Ext, Irp, Signal, &event);
    if (status == STATUS_PENDING) {
        KeWaitForSingleObject(&event, Executive, KernelMode, FALSE, NULL);
        status = Irp->IoStatus.Status;
    }
    return Done(Irp, status);
}

/* The same with a limit, which doesn't pass. */
static NTSTATUS TimedWait(PEXTENSION Ext, PIRP Irp)
{
    KEVENT event;
    LARGE_INTEGER limit = { .QuadPart = -100000000 };
    KeInitializeEvent(&event, NotificationEvent, FALSE);
    NTSTATUS status = ForwardWith(Ext, Irp, Signal, &event);
    while (KeWaitForSingleObject(&event, Executive, KernelMode, FALSE, &limit) == STATUS_TIMEOUT)
        ;
    status = Irp->IoStatus.Status;
    return Done(Irp, status);
}

/* The same with an event that isn't a local one. */
static NTSTATUS WaitElsewhere(PEXTENSION Ext, PIRP Irp)
{
    PKEVENT event = ExAllocatePoolWithTag(NonPagedPool, sizeof *event, 'tnvE');
    if (event == NULL)
        return Done(Irp, STATUS_INSUFFICIENT_RESOURCES);
    KeInitializeEvent(event, NotificationEvent, FALSE);
    ForwardWith(Ext, Irp, Signal, event);
    KeWaitForSingleObject(event, Executive, KernelMode, FALSE, NULL);
    ExFreePoolWithTag(event, 'tnvE');
    return Done(Irp, Irp->IoStatus.Status);
}

/* Nothing comes in the time: a poll and a short wait give STATUS_TIMEOUT. */
static NTSTATUS WaitInVain(PEXTENSION Ext, PIRP Irp)
{
    KEVENT event;
    LARGE_INTEGER none = { .QuadPart = 0 }, moment = { .QuadPart = -10000 };
    UNREFERENCED_PARAMETER(Ext);
    KeInitializeEvent(&event, SynchronizationEvent, FALSE);
    if (KeWaitForSingleObject(&event, Executive, KernelMode, FALSE, &none) != STATUS_TIMEOUT ||
        KeWaitForSingleObject(&event, Executive, KernelMode, FALSE, &moment) != STATUS_TIMEOUT)
        return Done(Irp, STATUS_UNSUCCESSFUL);
    return Done(Irp, STATUS_TIMEOUT);
}

static NTSTATUS ForwardSynchronously(PEXTENSION Ext, PIRP Irp)
{
    IoForwardIrpSynchronously(Ext->Lower, Irp);
    return Done(Irp, Irp->IoStatus.Status);
}

static NTSTATUS MarkedSynchronously(PEXTENSION Ext, PIRP Irp)
{
    IoMarkIrpPending(Irp);
    IoForwardIrpSynchronously(Ext->Lower, Irp);
    Done(Irp, Irp->IoStatus.Status);
    return STATUS_PENDING;
}

/* Keeps, with an answer of its own. */
static NTSTATUS SignalChanged(PDEVICE_OBJECT DeviceObject, PIRP Irp, PVOID Context)
{
    Irp->IoStatus.Status = STATUS_SUCCESS;
    Irp->IoStatus.Information = 55;
    return Signal(DeviceObject, Irp, Context);
}

static NTSTATUS KeepChanged(PEXTENSION Ext, PIRP Irp)
{
    KEVENT event;
    KeInitializeEvent(&event, NotificationEvent, FALSE);
    IoMarkIrpPending(Irp);
    ForwardWith(Ext, Irp, SignalChanged, &event);
    KeWaitForSingleObject(&event, Executive, KernelMode, FALSE, NULL);
    Irp->IoStatus.Information++;
    IoCompleteRequest(Irp, IO_NO_INCREMENT);
    return STATUS_PENDING;
}

/* Marks again where it keeps, as the textbook's two lines have it. */
static NTSTATUS MarkAndSignal(PDEVICE_OBJECT DeviceObject, PIRP Irp, PVOID Context)
{
    if (Irp->PendingReturned)
        IoMarkIrpPending(Irp);
    return Signal(DeviceObject, Irp, Context);
}

static NTSTATUS MarksAndKeeps(PEXTENSION Ext, PIRP Irp)
{
    KEVENT event;
    KeInitializeEvent(&event, NotificationEvent, FALSE);
    IoMarkIrpPending(Irp);
    ForwardWith(Ext, Irp, MarkAndSignal, &event);
    KeWaitForSingleObject(&event, Executive, KernelMode, FALSE, NULL);
    IoCompleteRequest(Irp, IO_NO_INCREMENT);
    return STATUS_PENDING;
}

static NTSTATUS WatchByHand(PDEVICE_OBJECT DeviceObject, PIRP Irp, PVOID Context)
{
    UNREFERENCED_PARAMETER(DeviceObject), UNREFERENCED_PARAMETER(Context);
    if (Irp->PendingReturned)
        IoGetCurrentIrpStackLocation(Irp)->Control |= SL_PENDING_RETURNED;
    return STATUS_SUCCESS;
}

/* Marks as the WDK's macro does. */
static NTSTATUS MarksByHand(PEXTENSION Ext, PIRP Irp)
{
    IoGetCurrentIrpStackLocation(Irp)->Control |= SL_PENDING_RETURNED;
    ForwardWith(Ext, Irp, WatchByHand, NULL);
    return STATUS_PENDING;
}

static NTSTATUS RoutineMarksByHand(PEXTENSION Ext, PIRP Irp)
{
    return ForwardWith(Ext, Irp, WatchByHand, NULL);
}

/* Sends the same packet down again from its routine, once, where it failed. */
static NTSTATUS RetryOnce(PDEVICE_OBJECT DeviceObject, PIRP Irp, PVOID Context)
{
    if (NT_SUCCESS(Irp->IoStatus.Status))
        return Watch(DeviceObject, Irp, Context);
    ForwardWith(DeviceObject->DeviceExtension, Irp, Watch, NULL);
    return STATUS_MORE_PROCESSING_REQUIRED;
}

static NTSTATUS Retry(PEXTENSION Ext, PIRP Irp)
{
    IoMarkIrpPending(Irp);
    ForwardWith(Ext, Irp, RetryOnce, NULL);
    return STATUS_PENDING;
}

/* Completes its own packet again, and keeps it from the unwinding that runs. */
static NTSTATUS CompleteAgain(PDEVICE_OBJECT DeviceObject, PIRP Irp, PVOID Context)
{
    UNREFERENCED_PARAMETER(DeviceObject), UNREFERENCED_PARAMETER(Context);
    IoCompleteRequest(Irp, IO_NO_INCREMENT);
    return STATUS_MORE_PROCESSING_REQUIRED;
}

static NTSTATUS CompleteInRoutine(PEXTENSION Ext, PIRP Irp)
{
    IoMarkIrpPending(Irp);
    ForwardWith(Ext, Irp, CompleteAgain, NULL);
    return STATUS_PENDING;
}

typedef struct { PIO_WORKITEM Item; PIRP Irp; KEVENT Done; } JOB;

/* Returns NULL where there is no memory. */
static JOB *NewJob(PEXTENSION Ext, PIRP Irp)
{
    JOB *job = ExAllocatePool2(POOL_FLAG_NON_PAGED, sizeof *job, 'boJM');
    if (job == NULL || (job->Item = IoAllocateWorkItem(Ext->Self)) == NULL) {
        if (job)
            ExFreePool(job);
        return NULL;
    }
    job->Irp = Irp;
    KeInitializeEvent(&job->Done, NotificationEvent, FALSE);
    return job;
}

static VOID SendDown(PDEVICE_OBJECT DeviceObject, PVOID Context)
{
    JOB *job = Context;
    ForwardWith(DeviceObject->DeviceExtension, job->Irp, Watch, NULL);
    IoFreeWorkItem(job->Item);
    ExFreePool(job);
}

/* Marks, and a work item sends it down. */
static NTSTATUS ToAWorker(PEXTENSION Ext, PIRP Irp)
{
    JOB *job = NewJob(Ext, Irp);
    if (job == NULL)
        return Done(Irp, STATUS_INSUFFICIENT_RESOURCES);
    IoMarkIrpPending(Irp);
    IoQueueWorkItem(job->Item, SendDown, DelayedWorkQueue, job);
    return STATUS_PENDING;
}

static VOID CompleteIt(PDEVICE_OBJECT DeviceObject, PVOID Context)
{
    JOB *job = Context;
    UNREFERENCED_PARAMETER(DeviceObject);
    job->Irp->IoStatus.Information = 12;
    Done(job->Irp, STATUS_SUCCESS);
    KeSetEvent(&job->Done, IO_NO_INCREMENT, FALSE);
}

/* Unmarked: a work item completes it while the dispatch waits, and the dispatch returns its status. */
static NTSTATUS WaitForAWorker(PEXTENSION Ext, PIRP Irp)
{
    JOB *job = NewJob(Ext, Irp);
    if (job == NULL)
        return Done(Irp, STATUS_INSUFFICIENT_RESOURCES);
    IoQueueWorkItem(job->Item, CompleteIt, DelayedWorkQueue, job);
    KeWaitForSingleObject(&job->Done, Executive, KernelMode, FALSE, NULL);
    IoFreeWorkItem(job->Item);
    ExFreePool(job);
    return STATUS_SUCCESS;
}

const NAMED_SHAPE KeepingShapes[] = {
    { "ForwardAndWait", ForwardAndWait }, { "TimedWait", TimedWait }, { "WaitElsewhere", WaitElsewhere },
    { "WaitInVain", WaitInVain },
    { "ForwardSynchronously", ForwardSynchronously }, { "MarkedSynchronously", MarkedSynchronously },
    { "KeepChanged", KeepChanged }, { "MarksAndKeeps", MarksAndKeeps }, { "Retry", Retry },
    { "MarksByHand", MarksByHand }, { "RoutineMarksByHand", RoutineMarksByHand },
    { "CompleteInRoutine", CompleteInRoutine }, { "ToAWorker", ToAWorker }, { "WaitForAWorker", WaitForAWorker },
    { NULL, NULL },
};
