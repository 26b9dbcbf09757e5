/* mistakes.c: a filter without a test of its own. Its mistakes lie where lengths are odd, requests fail or are pended below,
   starts fail, waits are cancelled, and the device goes. The host's own test finds each; there is none where RIGHT is
   defined. */
#include <wdm.h>

#ifdef RIGHT
enum { IS_RIGHT = 1 };
#else
enum { IS_RIGHT = 0 };
#endif
#define IOCTL_MISTAKES_COUNT CTL_CODE(FILE_DEVICE_UNKNOWN, 0x905, METHOD_BUFFERED, FILE_ANY_ACCESS)
#define IOCTL_MISTAKES_WAIT CTL_CODE(FILE_DEVICE_UNKNOWN, 0x906, METHOD_BUFFERED, FILE_ANY_ACCESS)

typedef struct {
    PDEVICE_OBJECT Lower;
    ULONG Count;
    IO_REMOVE_LOCK Reads;
    KSPIN_LOCK Lock; /* guards Waits */
    LIST_ENTRY Waits;
} EXTENSION, *PEXTENSION;

static NTSTATUS Complete(PIRP Irp, NTSTATUS Status, ULONG_PTR Information)
{
    Irp->IoStatus.Status = Status;
    Irp->IoStatus.Information = Information;
    IoCompleteRequest(Irp, IO_NO_INCREMENT);
    return Status;
}

static NTSTATUS Pass(PDEVICE_OBJECT DeviceObject, PIRP Irp)
{
    IoSkipCurrentIrpStackLocation(Irp);
    return IoCallDriver(((PEXTENSION)DeviceObject->DeviceExtension)->Lower, Irp);
}

/* Forgets the mark where the read has failed. */
static NTSTATUS ReadDone(PDEVICE_OBJECT DeviceObject, PIRP Irp, PVOID Context)
{
    if (Irp->PendingReturned && (IS_RIGHT || NT_SUCCESS(Irp->IoStatus.Status)))
        IoMarkIrpPending(Irp);
    IoReleaseRemoveLock(Context, Irp);
    return STATUS_CONTINUE_COMPLETION;
}

static NTSTATUS Read(PDEVICE_OBJECT DeviceObject, PIRP Irp)
{
    const PEXTENSION ext = DeviceObject->DeviceExtension;
    const NTSTATUS status = IoAcquireRemoveLock(&ext->Reads, Irp);
    if (!NT_SUCCESS(status))
        return Complete(Irp, status, 0);
    IoCopyCurrentIrpStackLocationToNext(Irp);
    IoSetCompletionRoutine(Irp, ReadDone, &ext->Reads, TRUE, TRUE, TRUE);
    return IoCallDriver(ext->Lower, Irp);
}

/* Has one byte too few for odd lengths, and reads from the packet once it is completed. */
static NTSTATUS Write(PDEVICE_OBJECT DeviceObject, PIRP Irp)
{
    const ULONG length = IoGetCurrentIrpStackLocation(Irp)->Parameters.Write.Length;
    PUCHAR copy = length ? ExAllocatePoolWithTag(NonPagedPool, length - (!IS_RIGHT && length > 16 && length % 2), 'tsiM')
        : NULL;
    if (length && !copy)
        return Complete(Irp, STATUS_INSUFFICIENT_RESOURCES, 0);
    for (ULONG i = 0; i < length; i++)
        copy[i] = (UCHAR)i;
    if (copy)
        ExFreePoolWithTag(copy, 'tsiM');
    Complete(Irp, STATUS_SUCCESS, length);
    return IS_RIGHT ? STATUS_SUCCESS : Irp->IoStatus.Status;
}

/* Says that it went well, whatever the driver below says. */
static NTSTATUS Flush(PDEVICE_OBJECT DeviceObject, PIRP Irp)
{
    IoSkipCurrentIrpStackLocation(Irp);
    const NTSTATUS status = IoCallDriver(((PEXTENSION)DeviceObject->DeviceExtension)->Lower, Irp);
    return IS_RIGHT || status == STATUS_PENDING ? status : STATUS_SUCCESS;
}

static VOID CancelWait(PDEVICE_OBJECT DeviceObject, PIRP Irp)
{
    const PEXTENSION ext = DeviceObject->DeviceExtension;
    KIRQL irql;
    IoReleaseCancelSpinLock(IS_RIGHT ? Irp->CancelIrql : DISPATCH_LEVEL);
    KeAcquireSpinLock(&ext->Lock, &irql);
    RemoveEntryList(&Irp->Tail.Overlay.ListEntry);
    KeReleaseSpinLock(&ext->Lock, irql);
    Complete(Irp, STATUS_CANCELLED, 0);
}

/* Waits until it is cancelled, or the device goes. */
static NTSTATUS Wait(PEXTENSION Ext, PIRP Irp)
{
    KIRQL irql;
    KeAcquireSpinLock(&Ext->Lock, &irql);
    IoMarkIrpPending(Irp);
    InsertTailList(&Ext->Waits, &Irp->Tail.Overlay.ListEntry);
    IoSetCancelRoutine(Irp, CancelWait);
    const BOOLEAN was_cancelled = Irp->Cancel && IoSetCancelRoutine(Irp, NULL) != NULL;
    if (was_cancelled)
        RemoveEntryList(&Irp->Tail.Overlay.ListEntry);
    KeReleaseSpinLock(&Ext->Lock, irql);
    if (was_cancelled)
        Complete(Irp, STATUS_CANCELLED, 0);
    return STATUS_PENDING;
}

/* Of a file, or of any. Where a cancel routine runs, that takes its wait out. */
static PIRP TakeWait(PEXTENSION Ext, PFILE_OBJECT File)
{
    PIRP irp = NULL;
    KIRQL irql;
    KeAcquireSpinLock(&Ext->Lock, &irql);
    for (PLIST_ENTRY entry = Ext->Waits.Flink; !irp && entry != &Ext->Waits; entry = entry->Flink) {
        irp = CONTAINING_RECORD(entry, IRP, Tail.Overlay.ListEntry);
        if ((File && IoGetCurrentIrpStackLocation(irp)->FileObject != File) || IoSetCancelRoutine(irp, NULL) == NULL)
            irp = NULL;
    }
    if (irp)
        RemoveEntryList(&irp->Tail.Overlay.ListEntry);
    KeReleaseSpinLock(&Ext->Lock, irql);
    return irp;
}

/* Forgets the waits of the file. */
static NTSTATUS Cleanup(PDEVICE_OBJECT DeviceObject, PIRP Irp)
{
    const PEXTENSION ext = DeviceObject->DeviceExtension;
    PIRP wait;
    while (IS_RIGHT && (wait = TakeWait(ext, IoGetCurrentIrpStackLocation(Irp)->FileObject)) != NULL)
        Complete(wait, STATUS_CANCELLED, 0);
    return Pass(DeviceObject, Irp);
}

/* Takes any buffer for one of four bytes. */
static NTSTATUS Control(PDEVICE_OBJECT DeviceObject, PIRP Irp)
{
    const PEXTENSION ext = DeviceObject->DeviceExtension;
    const PIO_STACK_LOCATION stack = IoGetCurrentIrpStackLocation(Irp);
    const ULONG length = stack->Parameters.DeviceIoControl.OutputBufferLength;
    switch (stack->Parameters.DeviceIoControl.IoControlCode) {
    case IOCTL_MISTAKES_COUNT:
        if (length < (IS_RIGHT ? sizeof ext->Count : 1))
            return Complete(Irp, STATUS_BUFFER_TOO_SMALL, 0);
        ext->Count++;
        RtlCopyMemory(Irp->AssociatedIrp.SystemBuffer, &ext->Count, min(length, sizeof ext->Count));
        return Complete(Irp, STATUS_SUCCESS, sizeof ext->Count);
    case IOCTL_MISTAKES_WAIT: return Wait(ext, Irp);
    default: return Complete(Irp, STATUS_INVALID_DEVICE_REQUEST, 0);
    }
}

/* Nothing sends this. */
static NTSTATUS Volume(PDEVICE_OBJECT DeviceObject, PIRP Irp) { return Complete(Irp, STATUS_NOT_IMPLEMENTED, 0); }

static NTSTATUS StartDone(PDEVICE_OBJECT DeviceObject, PIRP Irp, PVOID Context)
{
    if (Irp->PendingReturned && !IS_RIGHT)
        return STATUS_CONTINUE_COMPLETION;
    KeSetEvent(Context, IO_NO_INCREMENT, FALSE);
    return STATUS_MORE_PROCESSING_REQUIRED;
}

/* Doesn't wait for a start that is pended below, and forgets one that fails. */
static NTSTATUS Start(PEXTENSION Ext, PIRP Irp)
{
    KEVENT started;
    KeInitializeEvent(&started, NotificationEvent, FALSE);
    IoCopyCurrentIrpStackLocationToNext(Irp);
    IoSetCompletionRoutine(Irp, StartDone, &started, TRUE, TRUE, TRUE);
    NTSTATUS status = IoCallDriver(Ext->Lower, Irp);
    if (status == STATUS_PENDING && IS_RIGHT) {
        KeWaitForSingleObject(&started, Executive, KernelMode, FALSE, NULL);
        status = Irp->IoStatus.Status;
    }
    if (!NT_SUCCESS(status) && !IS_RIGHT)
        return status;
    return Complete(Irp, status == STATUS_PENDING ? STATUS_SUCCESS : status, 0);
}

/* Forgets the waits when the device goes. */
static NTSTATUS Pnp(PDEVICE_OBJECT DeviceObject, PIRP Irp)
{
    const PEXTENSION ext = DeviceObject->DeviceExtension;
    const UCHAR minor = IoGetCurrentIrpStackLocation(Irp)->MinorFunction;
    PIRP wait;
    if (minor == IRP_MN_START_DEVICE)
        return Start(ext, Irp);
    const BOOLEAN goes = minor == IRP_MN_REMOVE_DEVICE || minor == IRP_MN_SURPRISE_REMOVAL;
    while (IS_RIGHT && goes && (wait = TakeWait(ext, NULL)) != NULL)
        Complete(wait, STATUS_DELETE_PENDING, 0);
    if (minor == IRP_MN_REMOVE_DEVICE && NT_SUCCESS(IoAcquireRemoveLock(&ext->Reads, Irp)))
        IoReleaseRemoveLockAndWait(&ext->Reads, Irp);
    if (goes)
        Irp->IoStatus.Status = STATUS_SUCCESS;
    const NTSTATUS status = Pass(DeviceObject, Irp);
    if (minor == IRP_MN_REMOVE_DEVICE) {
        IoDetachDevice(ext->Lower);
        IoDeleteDevice(DeviceObject);
    }
    return status;
}

static NTSTATUS AddDevice(PDRIVER_OBJECT DriverObject, PDEVICE_OBJECT Pdo)
{
    PDEVICE_OBJECT device;
    const NTSTATUS status = IoCreateDevice(DriverObject, sizeof(EXTENSION), NULL, FILE_DEVICE_UNKNOWN, 0, FALSE, &device);
    if (!NT_SUCCESS(status))
        return status;
    const PEXTENSION ext = device->DeviceExtension;
    IoInitializeRemoveLock(&ext->Reads, 'tsiM', 0, 0);
    KeInitializeSpinLock(&ext->Lock);
    InitializeListHead(&ext->Waits);
    ext->Lower = IoAttachDeviceToDeviceStack(device, Pdo);
    device->Flags |= DO_BUFFERED_IO;
    device->Flags &= ~(ULONG)DO_DEVICE_INITIALIZING;
    return STATUS_SUCCESS;
}

NTSTATUS DriverEntry(PDRIVER_OBJECT DriverObject, PUNICODE_STRING RegistryPath)
{
    for (int i = 0; i <= IRP_MJ_MAXIMUM_FUNCTION; i++)
        DriverObject->MajorFunction[i] = Pass;
    DriverObject->MajorFunction[IRP_MJ_READ] = Read;
    DriverObject->MajorFunction[IRP_MJ_WRITE] = Write;
    DriverObject->MajorFunction[IRP_MJ_FLUSH_BUFFERS] = Flush;
    DriverObject->MajorFunction[IRP_MJ_CLEANUP] = Cleanup;
    DriverObject->MajorFunction[IRP_MJ_DEVICE_CONTROL] = Control;
    DriverObject->MajorFunction[IRP_MJ_QUERY_VOLUME_INFORMATION] = Volume;
    DriverObject->MajorFunction[IRP_MJ_PNP] = Pnp;
    DriverObject->DriverExtension->AddDevice = AddDevice;
    return STATUS_SUCCESS;
}
