/* pends.c: a filter without a test of its own. It holds each read until a write comes, or the device goes. The host's own
   test finds its fault, with 2 preemptions, CompletedTwice: a write takes a read whose cancel routine has begun. The read's
   sender is preempted so that the write finds the read, and the write while the time of the read's sender is up. */
#include <wdm.h>

#if defined(RIGHT) && !defined(UNDRAINED) && !defined(LATE)
#define CLEANS /* else another fault: the reads that are held when a handle is closed stay there */
#endif

typedef struct { PDEVICE_OBJECT Lower; KSPIN_LOCK Lock; LIST_ENTRY Reads; IO_REMOVE_LOCK RemoveLock; BOOLEAN Gone; }
    EXTENSION, *PEXTENSION;

static NTSTATUS Complete(PIRP Irp, NTSTATUS Status, ULONG_PTR Information)
{
    Irp->IoStatus.Status = Status;
    Irp->IoStatus.Information = Information;
    IoCompleteRequest(Irp, IO_NO_INCREMENT);
    return Status;
}

static VOID EndRead(PEXTENSION Ext, PIRP Irp, NTSTATUS Status)
{
    Complete(Irp, Status, 0);
    IoReleaseRemoveLock(&Ext->RemoveLock, Irp);
}

static VOID CancelRead(PDEVICE_OBJECT DeviceObject, PIRP Irp)
{
    PEXTENSION ext = DeviceObject->DeviceExtension;
    KIRQL irql;
    IoReleaseCancelSpinLock(Irp->CancelIrql);
    KeAcquireSpinLock(&ext->Lock, &irql);
    RemoveEntryList(&Irp->Tail.Overlay.ListEntry);
    KeReleaseSpinLock(&ext->Lock, irql);
    EndRead(ext, Irp, STATUS_CANCELLED);
}

/* Under the lock: a read, of a file where one is given, whose cancel routine won't run; or NULL. */
static PIRP TakeRead(PEXTENSION Ext, PFILE_OBJECT File)
{
    for (PLIST_ENTRY e = Ext->Reads.Flink; e != &Ext->Reads; e = e->Flink) {
        PIRP irp = CONTAINING_RECORD(e, IRP, Tail.Overlay.ListEntry);
        if (File && IoGetCurrentIrpStackLocation(irp)->FileObject != File)
            continue;
#ifdef RIGHT
        if (!IoSetCancelRoutine(irp, NULL))
            continue; /* its cancel routine waits for the lock */
#else
        IoSetCancelRoutine(irp, NULL); /* the fault: what it returns isn't looked at */
#endif
        RemoveEntryList(e);
        InitializeListHead(e);
        return irp;
    }
    return NULL;
}

static VOID EndReads(PEXTENSION Ext, NTSTATUS Status, BOOLEAN All)
{
    PIRP irp;
    do {
        KIRQL irql;
        KeAcquireSpinLock(&Ext->Lock, &irql);
        Ext->Gone |= All;
        irp = TakeRead(Ext, NULL);
        KeReleaseSpinLock(&Ext->Lock, irql);
        if (irp)
            EndRead(Ext, irp, Status);
    } while (irp && All);
}

static NTSTATUS Read(PDEVICE_OBJECT DeviceObject, PIRP Irp)
{
    PEXTENSION ext = DeviceObject->DeviceExtension;
    KIRQL irql;
    NTSTATUS status = IoAcquireRemoveLock(&ext->RemoveLock, Irp);
#ifndef IGNORES /* else another fault: a read that comes while the device is removed is held */
    if (!NT_SUCCESS(status))
        return Complete(Irp, status, 0);
#endif
    KeAcquireSpinLock(&ext->Lock, &irql);
    IoMarkIrpPending(Irp);
    IoSetCancelRoutine(Irp, CancelRead); /* told: KeptOverSurprise */
#ifdef LATE /* another fault: a read that comes when the device is gone is held */
    if (Irp->Cancel) {
#else
    if (ext->Gone || Irp->Cancel) {
#endif
        if (IoSetCancelRoutine(Irp, NULL)) {
            status = Irp->Cancel ? STATUS_CANCELLED : STATUS_DELETE_PENDING;
            KeReleaseSpinLock(&ext->Lock, irql);
            EndRead(ext, Irp, status);
            return STATUS_PENDING;
        }
    }
    InsertTailList(&ext->Reads, &Irp->Tail.Overlay.ListEntry);
    KeReleaseSpinLock(&ext->Lock, irql);
#ifdef TOUCHES /* another fault: by now the read may have ended, and its packet be freed */
    Irp->IoStatus.Information = 0;
#endif
    return STATUS_PENDING;
}

static NTSTATUS Write(PDEVICE_OBJECT DeviceObject, PIRP Irp)
{
    EndReads(DeviceObject->DeviceExtension, STATUS_SUCCESS, FALSE);
    return Complete(Irp, STATUS_SUCCESS, 0);
}

static NTSTATUS PassDown(PDEVICE_OBJECT DeviceObject, PIRP Irp)
{
    IoSkipCurrentIrpStackLocation(Irp);
    return IoCallDriver(((PEXTENSION)DeviceObject->DeviceExtension)->Lower, Irp);
}

#ifdef CLEANS
static NTSTATUS Cleanup(PDEVICE_OBJECT DeviceObject, PIRP Irp)
{
    PEXTENSION ext = DeviceObject->DeviceExtension;
    PFILE_OBJECT file = IoGetCurrentIrpStackLocation(Irp)->FileObject;
    PIRP irp;
    do {
        KIRQL irql;
        KeAcquireSpinLock(&ext->Lock, &irql);
        irp = TakeRead(ext, file);
        KeReleaseSpinLock(&ext->Lock, irql);
        if (irp)
            EndRead(ext, irp, STATUS_CANCELLED);
    } while (irp);
    return PassDown(DeviceObject, Irp);
}
#endif

static NTSTATUS Pnp(PDEVICE_OBJECT DeviceObject, PIRP Irp)
{
    PEXTENSION ext = DeviceObject->DeviceExtension;
    const UCHAR minor = IoGetCurrentIrpStackLocation(Irp)->MinorFunction;
    NTSTATUS status = IoAcquireRemoveLock(&ext->RemoveLock, Irp);
    if (!NT_SUCCESS(status))
        return Complete(Irp, status, 0);
    if (minor == IRP_MN_SURPRISE_REMOVAL || minor == IRP_MN_REMOVE_DEVICE) {
#ifndef UNDRAINED /* else another fault: the reads that are held when the device goes stay there */
        EndReads(ext, STATUS_NO_SUCH_DEVICE, TRUE);
#endif
        Irp->IoStatus.Status = STATUS_SUCCESS;
    }
    if (minor != IRP_MN_REMOVE_DEVICE) {
        status = PassDown(DeviceObject, Irp);
        IoReleaseRemoveLock(&ext->RemoveLock, Irp);
        return status;
    }
    IoReleaseRemoveLockAndWait(&ext->RemoveLock, Irp); /* told: NotDrained */
    status = PassDown(DeviceObject, Irp);
    IoDetachDevice(ext->Lower);
    IoDeleteDevice(DeviceObject); /* told: InFlight */
    return status;
}

static NTSTATUS AddDevice(PDRIVER_OBJECT DriverObject, PDEVICE_OBJECT Pdo)
{
    PDEVICE_OBJECT device;
    const NTSTATUS status = IoCreateDevice(DriverObject, sizeof(EXTENSION), NULL, FILE_DEVICE_UNKNOWN, 0, FALSE, &device);
    if (!NT_SUCCESS(status))
        return status;
    PEXTENSION ext = device->DeviceExtension;
    IoInitializeRemoveLock(&ext->RemoveLock, 'dneP', 0, 0);
    KeInitializeSpinLock(&ext->Lock);
    InitializeListHead(&ext->Reads);
    ext->Lower = IoAttachDeviceToDeviceStack(device, Pdo);
    device->Flags &= ~(ULONG)DO_DEVICE_INITIALIZING;
    return STATUS_SUCCESS;
}

NTSTATUS DriverEntry(PDRIVER_OBJECT DriverObject, PUNICODE_STRING RegistryPath)
{
    UNREFERENCED_PARAMETER(RegistryPath);
    for (int i = 0; i <= IRP_MJ_MAXIMUM_FUNCTION; i++)
        DriverObject->MajorFunction[i] = PassDown;
    DriverObject->MajorFunction[IRP_MJ_READ] = Read;
    DriverObject->MajorFunction[IRP_MJ_WRITE] = Write;
    DriverObject->MajorFunction[IRP_MJ_PNP] = Pnp;
#ifdef CLEANS
    DriverObject->MajorFunction[IRP_MJ_CLEANUP] = Cleanup;
#endif
    DriverObject->DriverExtension->AddDevice = AddDevice;
    return STATUS_SUCCESS;
}
