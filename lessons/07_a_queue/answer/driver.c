/* A device whose reads wait in a queue; each write answers the oldest one.
 *
 * Why. A cancel calls the routine whenever it likes, and the routine then waits for your lock.
 * IoSetCancelRoutine(irp, NULL) gives the packet to exactly one of the two. Not NULL: the read is the write's. NULL:
 * the routine has been called and takes the read out of the list itself, so leave it there and look at the next
 * one. Or take it out and make its entry a list of its own by InitializeListHead: then the routine's
 * RemoveEntryList does no harm. */
#include <wdm.h>

static KSPIN_LOCK Lock;
static LIST_ENTRY Reads;

static NTSTATUS Complete(PIRP Irp, NTSTATUS Status, ULONG_PTR Information)
{
    Irp->IoStatus.Status = Status;
    Irp->IoStatus.Information = Information;
    IoCompleteRequest(Irp, IO_NO_INCREMENT);
    return Status;
}

static VOID CancelRead(PDEVICE_OBJECT DeviceObject, PIRP Irp)
{
    KIRQL irql;
    UNREFERENCED_PARAMETER(DeviceObject);
    IoReleaseCancelSpinLock(Irp->CancelIrql);
    KeAcquireSpinLock(&Lock, &irql);
    RemoveEntryList(&Irp->Tail.Overlay.ListEntry);
    KeReleaseSpinLock(&Lock, irql);
    Complete(Irp, STATUS_CANCELLED, 0);
}

/* Puts the read into the queue. FALSE where it is cancelled already: the caller completes it. */
static BOOLEAN Insert(PIRP Irp)
{
    BOOLEAN isIn = TRUE;
    KIRQL irql;
    KeAcquireSpinLock(&Lock, &irql);
    IoSetCancelRoutine(Irp, CancelRead);
    if (Irp->Cancel && IoSetCancelRoutine(Irp, NULL) != NULL)
        isIn = FALSE;
    else {
        IoMarkIrpPending(Irp);
        InsertTailList(&Reads, &Irp->Tail.Overlay.ListEntry);
    }
    KeReleaseSpinLock(&Lock, irql);
    return isIn;
}

/* The oldest read that isn't being cancelled, or NULL. */
static PIRP RemoveOldest(VOID)
{
    PIRP oldest = NULL;
    KIRQL irql;
    KeAcquireSpinLock(&Lock, &irql);
    for (PLIST_ENTRY e = Reads.Flink; e != &Reads && oldest == NULL; e = e->Flink) {
        PIRP irp = CONTAINING_RECORD(e, IRP, Tail.Overlay.ListEntry);
        if (IoSetCancelRoutine(irp, NULL) != NULL)
            oldest = irp;
    }
    if (oldest != NULL)
        RemoveEntryList(&oldest->Tail.Overlay.ListEntry);
    KeReleaseSpinLock(&Lock, irql);
    return oldest;
}

static NTSTATUS Read(PDEVICE_OBJECT DeviceObject, PIRP Irp)
{
    UNREFERENCED_PARAMETER(DeviceObject);
    return Insert(Irp) ? STATUS_PENDING : Complete(Irp, STATUS_CANCELLED, 0);
}

static NTSTATUS Write(PDEVICE_OBJECT DeviceObject, PIRP Irp)
{
    PIRP oldest = RemoveOldest();
    UNREFERENCED_PARAMETER(DeviceObject);
    if (oldest != NULL)
        Complete(oldest, STATUS_SUCCESS, 1);
    return Complete(Irp, STATUS_SUCCESS, IoGetCurrentIrpStackLocation(Irp)->Parameters.Write.Length);
}

/* A handle is closed: its reads are cancelled. The routine ends those for which it has been called. */
static NTSTATUS Cleanup(PDEVICE_OBJECT DeviceObject, PIRP Irp)
{
    PFILE_OBJECT file = IoGetCurrentIrpStackLocation(Irp)->FileObject;
    LIST_ENTRY cancelled;
    KIRQL irql;
    UNREFERENCED_PARAMETER(DeviceObject);
    InitializeListHead(&cancelled);
    KeAcquireSpinLock(&Lock, &irql);
    for (PLIST_ENTRY e = Reads.Flink, next = e->Flink; e != &Reads; e = next, next = e->Flink) {
        PIRP irp = CONTAINING_RECORD(e, IRP, Tail.Overlay.ListEntry);
        if (IoGetCurrentIrpStackLocation(irp)->FileObject != file || IoSetCancelRoutine(irp, NULL) == NULL)
            continue;
        RemoveEntryList(e);
        InsertTailList(&cancelled, e);
    }
    KeReleaseSpinLock(&Lock, irql);
    while (!IsListEmpty(&cancelled))
        Complete(CONTAINING_RECORD(RemoveHeadList(&cancelled), IRP, Tail.Overlay.ListEntry), STATUS_CANCELLED, 0);
    return Complete(Irp, STATUS_SUCCESS, 0);
}

static NTSTATUS Other(PDEVICE_OBJECT DeviceObject, PIRP Irp)
{
    UNREFERENCED_PARAMETER(DeviceObject);
    return Complete(Irp, STATUS_SUCCESS, 0);
}

NTSTATUS DriverEntry(PDRIVER_OBJECT DriverObject, PUNICODE_STRING RegistryPath)
{
    PDEVICE_OBJECT device;
    UNREFERENCED_PARAMETER(RegistryPath);
    KeInitializeSpinLock(&Lock);
    InitializeListHead(&Reads);
    for (int i = 0; i <= IRP_MJ_MAXIMUM_FUNCTION; i++)
        DriverObject->MajorFunction[i] = Other;
    DriverObject->MajorFunction[IRP_MJ_READ] = Read;
    DriverObject->MajorFunction[IRP_MJ_WRITE] = Write;
    DriverObject->MajorFunction[IRP_MJ_CLEANUP] = Cleanup;
    return IoCreateDevice(DriverObject, 0, NULL, FILE_DEVICE_UNKNOWN, 0, FALSE, &device);
}
