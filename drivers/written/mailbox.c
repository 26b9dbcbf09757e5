/* mailbox.c: a function driver, written by hand from the WDK's pages. A read waits until a write brings bytes for it,
   or until its time is over; a control answers with what was counted. */
#include <wdm.h>

#define MAILBOX_TAG 'xobM'
#define IOCTL_MAILBOX_COUNTS CTL_CODE(FILE_DEVICE_UNKNOWN, 0x800, METHOD_BUFFERED, FILE_ANY_ACCESS)

typedef struct { ULONG Reads, Writes, TimedOut; } COUNTS;

typedef struct {
    PDEVICE_OBJECT Self, Lower;
    IO_REMOVE_LOCK RemoveLock;
    KSPIN_LOCK QueueLock;
    LIST_ENTRY Queue;
    KTIMER Timer;
    KDPC TimerDpc;
    FAST_MUTEX CountsMutex;
    COUNTS Counts;
    PUCHAR Kept;
    ULONG KeptLength;
} DEVICE_EXTENSION, *PDEVICE_EXTENSION;

static NTSTATUS CompleteRequest(PIRP Irp, NTSTATUS Status, ULONG_PTR Information)
{
    Irp->IoStatus.Status = Status;
    Irp->IoStatus.Information = Information;
    IoCompleteRequest(Irp, IO_NO_INCREMENT);
    return Status;
}

static VOID CancelRead(PDEVICE_OBJECT DeviceObject, PIRP Irp)
{
    PDEVICE_EXTENSION extension = DeviceObject->DeviceExtension;
    KIRQL irql;
    IoReleaseCancelSpinLock(Irp->CancelIrql);
    KeAcquireSpinLock(&extension->QueueLock, &irql);
    RemoveEntryList(&Irp->Tail.Overlay.ListEntry);
    KeReleaseSpinLock(&extension->QueueLock, irql);
    CompleteRequest(Irp, STATUS_CANCELLED, 0);
    IoReleaseRemoveLock(&extension->RemoveLock, Irp);
}

/* Takes the oldest read whose cancel routine doesn't run. */
static PIRP TakeRead(PDEVICE_EXTENSION Extension)
{
    PIRP found = NULL;
    KIRQL irql;
    KeAcquireSpinLock(&Extension->QueueLock, &irql);
    while (!found && !IsListEmpty(&Extension->Queue)) {
        PLIST_ENTRY entry = RemoveHeadList(&Extension->Queue);
        PIRP irp = CONTAINING_RECORD(entry, IRP, Tail.Overlay.ListEntry);
        if (IoSetCancelRoutine(irp, NULL) != NULL)
            found = irp;
        else
            InitializeListHead(&irp->Tail.Overlay.ListEntry);
    }
    KeReleaseSpinLock(&Extension->QueueLock, irql);
    return found;
}

static VOID FailReads(PDEVICE_EXTENSION Extension, NTSTATUS Status)
{
    PIRP irp;
    while ((irp = TakeRead(Extension)) != NULL) {
        CompleteRequest(irp, Status, 0);
        IoReleaseRemoveLock(&Extension->RemoveLock, irp);
    }
}

static VOID ReadTimedOut(PKDPC Dpc, PVOID Context, PVOID Argument1, PVOID Argument2)
{
    PDEVICE_EXTENSION extension = Context;
    InterlockedIncrement((LONG *)&extension->Counts.TimedOut);
    FailReads(extension, STATUS_IO_TIMEOUT);
}

static NTSTATUS MailboxRead(PDEVICE_OBJECT DeviceObject, PIRP Irp)
{
    PDEVICE_EXTENSION extension = DeviceObject->DeviceExtension;
    LARGE_INTEGER limit;
    KIRQL irql;
    NTSTATUS status = IoAcquireRemoveLock(&extension->RemoveLock, Irp);
    if (!NT_SUCCESS(status))
        return CompleteRequest(Irp, status, 0);
    if (IoGetCurrentIrpStackLocation(Irp)->Parameters.Read.Length == 0) {
        CompleteRequest(Irp, STATUS_SUCCESS, 0);
        IoReleaseRemoveLock(&extension->RemoveLock, Irp);
        return STATUS_SUCCESS;
    }
    ExAcquireFastMutex(&extension->CountsMutex);
    extension->Counts.Reads++;
    ExReleaseFastMutex(&extension->CountsMutex);
    KeAcquireSpinLock(&extension->QueueLock, &irql);
    IoSetCancelRoutine(Irp, CancelRead);
    if (Irp->Cancel && IoSetCancelRoutine(Irp, NULL) != NULL) {
        KeReleaseSpinLock(&extension->QueueLock, irql);
        CompleteRequest(Irp, STATUS_CANCELLED, 0);
        IoReleaseRemoveLock(&extension->RemoveLock, Irp);
        return STATUS_CANCELLED;
    }
    IoMarkIrpPending(Irp);
    InsertTailList(&extension->Queue, &Irp->Tail.Overlay.ListEntry);
    limit.QuadPart = -10 * 1000 * 200;
    KeSetTimer(&extension->Timer, limit, &extension->TimerDpc);
    KeReleaseSpinLock(&extension->QueueLock, irql);
    return STATUS_PENDING;
}

static NTSTATUS MailboxWrite(PDEVICE_OBJECT DeviceObject, PIRP Irp)
{
    PDEVICE_EXTENSION extension = DeviceObject->DeviceExtension;
    ULONG length = IoGetCurrentIrpStackLocation(Irp)->Parameters.Write.Length;
    NTSTATUS status = IoAcquireRemoveLock(&extension->RemoveLock, Irp);
    PUCHAR copy;
    PIRP read;
    if (!NT_SUCCESS(status))
        return CompleteRequest(Irp, status, 0);
    copy = length ? ExAllocatePoolWithTag(NonPagedPool, length, MAILBOX_TAG) : NULL;
    if (length && copy == NULL) {
        CompleteRequest(Irp, STATUS_INSUFFICIENT_RESOURCES, 0);
        IoReleaseRemoveLock(&extension->RemoveLock, Irp);
        return STATUS_INSUFFICIENT_RESOURCES;
    }
    if (length)
        RtlCopyMemory(copy, Irp->AssociatedIrp.SystemBuffer, length);
    ExAcquireFastMutex(&extension->CountsMutex);
    extension->Counts.Writes++;
    ExReleaseFastMutex(&extension->CountsMutex);
    read = TakeRead(extension);
    if (read != NULL) {
        ULONG room = IoGetCurrentIrpStackLocation(read)->Parameters.Read.Length;
        room = min(room, length);
        if (room)
            RtlCopyMemory(read->AssociatedIrp.SystemBuffer, copy, room);
        CompleteRequest(read, STATUS_SUCCESS, room);
        IoReleaseRemoveLock(&extension->RemoveLock, read);
    }
    if (copy)
        ExFreePoolWithTag(copy, MAILBOX_TAG);
    CompleteRequest(Irp, STATUS_SUCCESS, length);
    IoReleaseRemoveLock(&extension->RemoveLock, Irp);
    return STATUS_SUCCESS;
}

static NTSTATUS MailboxControl(PDEVICE_OBJECT DeviceObject, PIRP Irp)
{
    PDEVICE_EXTENSION extension = DeviceObject->DeviceExtension;
    PIO_STACK_LOCATION stack = IoGetCurrentIrpStackLocation(Irp);
    ULONG room = stack->Parameters.DeviceIoControl.OutputBufferLength;
    if (stack->Parameters.DeviceIoControl.IoControlCode != IOCTL_MAILBOX_COUNTS)
        return CompleteRequest(Irp, STATUS_INVALID_DEVICE_REQUEST, 0);
    if (room < sizeof(COUNTS))
        return CompleteRequest(Irp, STATUS_BUFFER_TOO_SMALL, 0);
    ExAcquireFastMutex(&extension->CountsMutex);
    RtlCopyMemory(Irp->AssociatedIrp.SystemBuffer, &extension->Counts, sizeof(COUNTS));
    ExReleaseFastMutex(&extension->CountsMutex);
    return CompleteRequest(Irp, STATUS_SUCCESS, sizeof(COUNTS));
}

static NTSTATUS MailboxOther(PDEVICE_OBJECT DeviceObject, PIRP Irp)
{
    return CompleteRequest(Irp, STATUS_SUCCESS, 0);
}

/* The last handle of a file is closed: its reads end. */
static NTSTATUS MailboxCleanup(PDEVICE_OBJECT DeviceObject, PIRP Irp)
{
    PDEVICE_EXTENSION extension = DeviceObject->DeviceExtension;
    PFILE_OBJECT file = IoGetCurrentIrpStackLocation(Irp)->FileObject;
    LIST_ENTRY ended;
    PLIST_ENTRY entry, next;
    KIRQL irql;
    InitializeListHead(&ended);
    KeAcquireSpinLock(&extension->QueueLock, &irql);
    for (entry = extension->Queue.Flink; entry != &extension->Queue; entry = next) {
        PIRP read = CONTAINING_RECORD(entry, IRP, Tail.Overlay.ListEntry);
        next = entry->Flink;
        if (IoGetCurrentIrpStackLocation(read)->FileObject == file && IoSetCancelRoutine(read, NULL) != NULL) {
            RemoveEntryList(entry);
            InsertTailList(&ended, entry);
        }
    }
    KeReleaseSpinLock(&extension->QueueLock, irql);
    while (!IsListEmpty(&ended)) {
        PIRP read = CONTAINING_RECORD(RemoveHeadList(&ended), IRP, Tail.Overlay.ListEntry);
        CompleteRequest(read, STATUS_CANCELLED, 0);
        IoReleaseRemoveLock(&extension->RemoveLock, read);
    }
    return CompleteRequest(Irp, STATUS_SUCCESS, 0);
}

static NTSTATUS MailboxPassDown(PDEVICE_OBJECT DeviceObject, PIRP Irp)
{
    PDEVICE_EXTENSION extension = DeviceObject->DeviceExtension;
    IoSkipCurrentIrpStackLocation(Irp);
    return IoCallDriver(extension->Lower, Irp);
}

static NTSTATUS MailboxPower(PDEVICE_OBJECT DeviceObject, PIRP Irp)
{
    PDEVICE_EXTENSION extension = DeviceObject->DeviceExtension;
    PoStartNextPowerIrp(Irp);
    IoSkipCurrentIrpStackLocation(Irp);
    return PoCallDriver(extension->Lower, Irp);
}

static NTSTATUS StartDone(PDEVICE_OBJECT DeviceObject, PIRP Irp, PVOID Context)
{
    KeSetEvent((PKEVENT)Context, IO_NO_INCREMENT, FALSE);
    return STATUS_MORE_PROCESSING_REQUIRED;
}

static NTSTATUS StartDevice(PDEVICE_EXTENSION Extension, PIRP Irp)
{
    KEVENT event;
    NTSTATUS status;
    KeInitializeEvent(&event, NotificationEvent, FALSE);
    IoCopyCurrentIrpStackLocationToNext(Irp);
    IoSetCompletionRoutine(Irp, StartDone, &event, TRUE, TRUE, TRUE);
    status = IoCallDriver(Extension->Lower, Irp);
    if (status == STATUS_PENDING) {
        KeWaitForSingleObject(&event, Executive, KernelMode, FALSE, NULL);
        status = Irp->IoStatus.Status;
    }
    if (NT_SUCCESS(status) && Extension->Kept == NULL) {
        Extension->Kept = ExAllocatePoolWithTag(NonPagedPool, 256, MAILBOX_TAG);
        if (Extension->Kept == NULL)
            status = STATUS_INSUFFICIENT_RESOURCES;
    }
    return CompleteRequest(Irp, status, 0);
}

static NTSTATUS RemoveDevice(PDEVICE_EXTENSION Extension, PIRP Irp)
{
    NTSTATUS status;
    KeCancelTimer(&Extension->Timer);
    KeFlushQueuedDpcs();
    FailReads(Extension, STATUS_DELETE_PENDING);
    IoReleaseRemoveLockAndWait(&Extension->RemoveLock, Irp);
    KeCancelTimer(&Extension->Timer);
    KeFlushQueuedDpcs();
    if (Extension->Kept != NULL)
        ExFreePoolWithTag(Extension->Kept, MAILBOX_TAG);
    Irp->IoStatus.Status = STATUS_SUCCESS;
    IoSkipCurrentIrpStackLocation(Irp);
    status = IoCallDriver(Extension->Lower, Irp);
    IoDetachDevice(Extension->Lower);
    IoDeleteDevice(Extension->Self);
    return status;
}

static NTSTATUS MailboxPnp(PDEVICE_OBJECT DeviceObject, PIRP Irp)
{
    PDEVICE_EXTENSION extension = DeviceObject->DeviceExtension;
    NTSTATUS status = IoAcquireRemoveLock(&extension->RemoveLock, Irp);
    if (!NT_SUCCESS(status))
        return CompleteRequest(Irp, status, 0);
    switch (IoGetCurrentIrpStackLocation(Irp)->MinorFunction) {
    case IRP_MN_START_DEVICE:
        status = StartDevice(extension, Irp);
        break;
    case IRP_MN_REMOVE_DEVICE:
        return RemoveDevice(extension, Irp);
    case IRP_MN_SURPRISE_REMOVAL:
        FailReads(extension, STATUS_DELETE_PENDING);
        Irp->IoStatus.Status = STATUS_SUCCESS;
        status = MailboxPassDown(DeviceObject, Irp);
        break;
    case IRP_MN_QUERY_REMOVE_DEVICE:
    case IRP_MN_CANCEL_REMOVE_DEVICE:
        Irp->IoStatus.Status = STATUS_SUCCESS;
        status = MailboxPassDown(DeviceObject, Irp);
        break;
    default:
        status = MailboxPassDown(DeviceObject, Irp);
        break;
    }
    IoReleaseRemoveLock(&extension->RemoveLock, Irp);
    return status;
}

static NTSTATUS MailboxAddDevice(PDRIVER_OBJECT DriverObject, PDEVICE_OBJECT PhysicalDeviceObject)
{
    PDEVICE_OBJECT device;
    PDEVICE_EXTENSION extension;
    NTSTATUS status = IoCreateDevice(DriverObject, sizeof(DEVICE_EXTENSION), NULL, FILE_DEVICE_UNKNOWN, 0, FALSE,
                                     &device);
    if (!NT_SUCCESS(status))
        return status;
    extension = device->DeviceExtension;
    RtlZeroMemory(extension, sizeof(DEVICE_EXTENSION));
    extension->Self = device;
    IoInitializeRemoveLock(&extension->RemoveLock, MAILBOX_TAG, 0, 0);
    KeInitializeSpinLock(&extension->QueueLock);
    InitializeListHead(&extension->Queue);
    KeInitializeTimer(&extension->Timer);
    KeInitializeDpc(&extension->TimerDpc, ReadTimedOut, extension);
    ExInitializeFastMutex(&extension->CountsMutex);
    extension->Lower = IoAttachDeviceToDeviceStack(device, PhysicalDeviceObject);
    if (extension->Lower == NULL) {
        IoDeleteDevice(device);
        return STATUS_NO_SUCH_DEVICE;
    }
    device->Flags |= DO_BUFFERED_IO | DO_POWER_PAGABLE;
    device->Flags &= ~DO_DEVICE_INITIALIZING;
    return STATUS_SUCCESS;
}

static VOID MailboxUnload(PDRIVER_OBJECT DriverObject)
{
}

NTSTATUS DriverEntry(PDRIVER_OBJECT DriverObject, PUNICODE_STRING RegistryPath)
{
    DriverObject->MajorFunction[IRP_MJ_CREATE] = MailboxOther;
    DriverObject->MajorFunction[IRP_MJ_CLOSE] = MailboxOther;
    DriverObject->MajorFunction[IRP_MJ_CLEANUP] = MailboxCleanup;
    DriverObject->MajorFunction[IRP_MJ_FLUSH_BUFFERS] = MailboxOther;
    DriverObject->MajorFunction[IRP_MJ_READ] = MailboxRead;
    DriverObject->MajorFunction[IRP_MJ_WRITE] = MailboxWrite;
    DriverObject->MajorFunction[IRP_MJ_DEVICE_CONTROL] = MailboxControl;
    DriverObject->MajorFunction[IRP_MJ_PNP] = MailboxPnp;
    DriverObject->MajorFunction[IRP_MJ_POWER] = MailboxPower;
    DriverObject->MajorFunction[IRP_MJ_SYSTEM_CONTROL] = MailboxPassDown;
    DriverObject->DriverExtension->AddDevice = MailboxAddDevice;
    DriverObject->DriverUnload = MailboxUnload;
    return STATUS_SUCCESS;
}
