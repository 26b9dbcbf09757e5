/* keeps.c: a driver that keeps reads, and sends packets of its own for controls. Each mistake shows only where a cancel
   comes between two of its calls. There is none where RIGHT is defined. */
#include <wdm.h>

#ifdef RIGHT
enum { IS_RIGHT = 1 };
#else
enum { IS_RIGHT = 0 };
#endif
#define IOCTL_KEEPS_STATE CTL_CODE(FILE_DEVICE_UNKNOWN, 0x920, METHOD_BUFFERED, FILE_ANY_ACCESS)

static PDEVICE_OBJECT lower;
static KSPIN_LOCK lock;
static LIST_ENTRY reads; /* under the lock */
/* The packet of the driver's own, in the one that it is sent for; and how many are still to come of these two: the end
   of the own packet, and the cancel routine. */
#define OWN(irp) ((irp)->Tail.Overlay.DriverContext[0])
#define TO_COME(irp) (*(volatile LONG *)&(irp)->Tail.Overlay.DriverContext[1])

static NTSTATUS Complete(PIRP Irp, NTSTATUS Status)
{
    Irp->IoStatus.Status = Status;
    Irp->IoStatus.Information = 0;
    IoCompleteRequest(Irp, IO_NO_INCREMENT);
    return Status;
}

static VOID CancelRead(PDEVICE_OBJECT DeviceObject, PIRP Irp)
{
    KIRQL irql;
    UNREFERENCED_PARAMETER(DeviceObject);
    IoReleaseCancelSpinLock(Irp->CancelIrql);
    KeAcquireSpinLock(&lock, &irql);
    RemoveEntryList(&Irp->Tail.Overlay.ListEntry);
    KeReleaseSpinLock(&lock, irql);
    Complete(Irp, STATUS_CANCELLED);
}

/* Takes the lock only when the cancel routine may have run: then the packet is gone that it puts into the list. */
static NTSTATUS Read(PDEVICE_OBJECT DeviceObject, PIRP Irp)
{
    KIRQL irql;
    UNREFERENCED_PARAMETER(DeviceObject);
    IoMarkIrpPending(Irp);
    InitializeListHead(&Irp->Tail.Overlay.ListEntry);
    if (IS_RIGHT)
        KeAcquireSpinLock(&lock, &irql);
    IoSetCancelRoutine(Irp, CancelRead);
    if (Irp->Cancel && IoSetCancelRoutine(Irp, NULL) != NULL) {
        if (IS_RIGHT)
            KeReleaseSpinLock(&lock, irql);
        Complete(Irp, STATUS_CANCELLED);
        return STATUS_PENDING;
    }
    if (!IS_RIGHT)
        KeAcquireSpinLock(&lock, &irql);
    Irp->Tail.Overlay.DriverContext[0] = DeviceObject; /* told: Touched */
    InsertTailList(&reads, &Irp->Tail.Overlay.ListEntry);
    KeReleaseSpinLock(&lock, irql);
    return STATUS_PENDING;
}

/* The oldest read, of this file or any, whose cancel routine doesn't run; or NULL. */
static PIRP TakeRead(PFILE_OBJECT File)
{
    PIRP read = NULL;
    PLIST_ENTRY next;
    KIRQL irql;
    KeAcquireSpinLock(&lock, &irql);
    for (PLIST_ENTRY entry = reads.Flink; !read && entry != &reads; entry = next) {
        PIRP irp = CONTAINING_RECORD(entry, IRP, Tail.Overlay.ListEntry);
        next = entry->Flink;
        if (File && IoGetCurrentIrpStackLocation(irp)->FileObject != File)
            continue;
        RemoveEntryList(entry);
        InitializeListHead(entry);
        if (IoSetCancelRoutine(irp, NULL) != NULL)
            read = irp;
    }
    KeReleaseSpinLock(&lock, irql);
    return read;
}

static NTSTATUS Write(PDEVICE_OBJECT DeviceObject, PIRP Irp)
{
    PIRP read = TakeRead(NULL);
    UNREFERENCED_PARAMETER(DeviceObject);
    if (read)
        Complete(read, STATUS_SUCCESS);
    return Complete(Irp, STATUS_SUCCESS);
}

static VOID EndControl(PIRP Irp, NTSTATUS Status)
{
    if (IS_RIGHT)
        IoFreeIrp(OWN(Irp));
    Complete(Irp, Status);
}

/* Where the driver is wrong, the packet of its own may be freed by now. */
static VOID CancelControl(PDEVICE_OBJECT DeviceObject, PIRP Irp)
{
    UNREFERENCED_PARAMETER(DeviceObject);
    IoReleaseCancelSpinLock(Irp->CancelIrql);
    IoCancelIrp(OWN(Irp)); /* told: NoIrp */
    if (!InterlockedDecrement(&TO_COME(Irp)))
        EndControl(Irp, STATUS_CANCELLED);
}

static NTSTATUS OwnDone(PDEVICE_OBJECT DeviceObject, PIRP Own, PVOID Context)
{
    PIRP irp = Context;
    const NTSTATUS status = Own->IoStatus.Status;
    UNREFERENCED_PARAMETER(DeviceObject);
    if (!IS_RIGHT)
        IoFreeIrp(Own);
    if (IoSetCancelRoutine(irp, NULL) != NULL || !InterlockedDecrement(&TO_COME(irp)))
        EndControl(irp, status);
    return STATUS_MORE_PROCESSING_REQUIRED;
}

static NTSTATUS Control(PDEVICE_OBJECT DeviceObject, PIRP Irp)
{
    PIRP own = IoAllocateIrp(lower->StackSize, FALSE);
    UNREFERENCED_PARAMETER(DeviceObject);
    if (!own)
        return Complete(Irp, STATUS_INSUFFICIENT_RESOURCES);
    OWN(Irp) = own;
    TO_COME(Irp) = 2;
    IoMarkIrpPending(Irp);
    IoSetCancelRoutine(Irp, CancelControl);
    if (Irp->Cancel && IoSetCancelRoutine(Irp, NULL) != NULL) {
        IoFreeIrp(own);
        Complete(Irp, STATUS_CANCELLED);
        return STATUS_PENDING;
    }
    IoGetNextIrpStackLocation(own)->MajorFunction = IRP_MJ_FLUSH_BUFFERS;
    IoSetCompletionRoutine(own, OwnDone, Irp, TRUE, TRUE, TRUE);
    IoCallDriver(lower, own);
    return STATUS_PENDING;
}

static NTSTATUS Pass(PDEVICE_OBJECT DeviceObject, PIRP Irp)
{
    const PIO_STACK_LOCATION stack = IoGetCurrentIrpStackLocation(Irp);
    const BOOLEAN goes = stack->MajorFunction == IRP_MJ_PNP && stack->MinorFunction == IRP_MN_REMOVE_DEVICE;
    const BOOLEAN is_gone = stack->MajorFunction == IRP_MJ_PNP && stack->MinorFunction == IRP_MN_SURPRISE_REMOVAL;
    const BOOLEAN is_closed = stack->MajorFunction == IRP_MJ_CLEANUP;
    PIRP read;
    while ((goes || is_gone || is_closed) && (read = TakeRead(is_closed ? stack->FileObject : NULL)) != NULL)
        Complete(read, is_closed ? STATUS_CANCELLED : STATUS_DELETE_PENDING);
    if (is_gone)
        Irp->IoStatus.Status = STATUS_SUCCESS;
    IoSkipCurrentIrpStackLocation(Irp);
    const NTSTATUS status = IoCallDriver(lower, Irp);
    if (goes) {
        IoDetachDevice(lower);
        IoDeleteDevice(DeviceObject);
    }
    return status;
}

static NTSTATUS AddDevice(PDRIVER_OBJECT DriverObject, PDEVICE_OBJECT Pdo)
{
    PDEVICE_OBJECT device;
    const NTSTATUS status = IoCreateDevice(DriverObject, 0, NULL, FILE_DEVICE_UNKNOWN, 0, FALSE, &device);
    if (!NT_SUCCESS(status))
        return status;
    KeInitializeSpinLock(&lock);
    InitializeListHead(&reads);
    lower = IoAttachDeviceToDeviceStack(device, Pdo);
    device->Flags |= DO_BUFFERED_IO;
    device->Flags &= ~(ULONG)DO_DEVICE_INITIALIZING;
    return STATUS_SUCCESS;
}

NTSTATUS DriverEntry(PDRIVER_OBJECT DriverObject, PUNICODE_STRING RegistryPath)
{
    UNREFERENCED_PARAMETER(RegistryPath);
    for (int i = 0; i <= IRP_MJ_MAXIMUM_FUNCTION; i++)
        DriverObject->MajorFunction[i] = Pass;
    DriverObject->MajorFunction[IRP_MJ_READ] = Read;
    DriverObject->MajorFunction[IRP_MJ_WRITE] = Write;
    DriverObject->MajorFunction[IRP_MJ_DEVICE_CONTROL] = Control;
    DriverObject->DriverExtension->AddDevice = AddDevice;
    return STATUS_SUCCESS;
}
