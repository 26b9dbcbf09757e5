/* waits.c: a driver whose control waits until another one rings, at most four of them at once. Who closes the file ends its own.
   BUG names a mistake: 1, its queue gives any request for one of a file; 2, IRP_MJ_CLEANUP ends none; 3, it returns
   STATUS_PENDING for a wait that isn't kept; 4, and doesn't complete that. */
#include <wdm.h>

#ifndef BUG
#define BUG 0
#endif
#define WAITS_CODE(function) CTL_CODE(FILE_DEVICE_UNKNOWN, 0x920 + (function), METHOD_BUFFERED, FILE_ANY_ACCESS)
#define IOCTL_WAITS_WAIT WAITS_CODE(0)
#define IOCTL_WAITS_RING WAITS_CODE(1)
enum { MOST_WAITS = 4 };

typedef struct {
    KSPIN_LOCK Lock;
    LIST_ENTRY Waits;
    ULONG Count;
    IO_CSQ Queue;
} EXTENSION, *PEXTENSION;

static PEXTENSION Of(PIO_CSQ Csq) { return CONTAINING_RECORD(Csq, EXTENSION, Queue); }
static VOID Acquire(PIO_CSQ Csq, PKIRQL Irql) { KeAcquireSpinLock(&Of(Csq)->Lock, Irql); }
static VOID Release(PIO_CSQ Csq, KIRQL Irql) { KeReleaseSpinLock(&Of(Csq)->Lock, Irql); }

static NTSTATUS Complete(PIRP Irp, NTSTATUS Status)
{
    Irp->IoStatus.Status = Status;
    Irp->IoStatus.Information = 0;
    IoCompleteRequest(Irp, IO_NO_INCREMENT); /* told: CleanupOfAnother */
    return Status;
}

static NTSTATUS Insert(PIO_CSQ Csq, PIRP Irp, PVOID Context)
{
    UNREFERENCED_PARAMETER(Context);
    if (Of(Csq)->Count == MOST_WAITS)
        return STATUS_DEVICE_BUSY;
    Of(Csq)->Count++;
    InsertTailList(&Of(Csq)->Waits, &Irp->Tail.Overlay.ListEntry);
    return STATUS_SUCCESS;
}

static VOID Remove(PIO_CSQ Csq, PIRP Irp)
{
    Of(Csq)->Count--;
    RemoveEntryList(&Irp->Tail.Overlay.ListEntry);
}

/* The next one, or the next one of a file. */
static PIRP PeekNext(PIO_CSQ Csq, PIRP Irp, PVOID File)
{
    PLIST_ENTRY next = Irp ? Irp->Tail.Overlay.ListEntry.Flink : Of(Csq)->Waits.Flink;
    for (; next != &Of(Csq)->Waits; next = next->Flink) {
        PIRP irp = CONTAINING_RECORD(next, IRP, Tail.Overlay.ListEntry);
        if (!File || BUG == 1 || IoGetCurrentIrpStackLocation(irp)->FileObject == File)
            return irp;
    }
    return NULL;
}

static VOID CompleteCanceled(PIO_CSQ Csq, PIRP Irp)
{
    UNREFERENCED_PARAMETER(Csq);
    Complete(Irp, STATUS_CANCELLED);
}

static NTSTATUS Wait(PEXTENSION Ext, PIRP Irp)
{
    const NTSTATUS status = IoCsqInsertIrpEx(&Ext->Queue, Irp, NULL, NULL); /* told: KeptOverCleanup */
    if (NT_SUCCESS(status))
        return STATUS_PENDING;
    if (BUG != 4)
        Complete(Irp, status);
    return BUG == 3 || BUG == 4 ? STATUS_PENDING : status; /* told: Returned */
}

static NTSTATUS Control(PDEVICE_OBJECT DeviceObject, PIRP Irp)
{
    const PEXTENSION ext = DeviceObject->DeviceExtension;
    PIRP waiting;
    switch (IoGetCurrentIrpStackLocation(Irp)->Parameters.DeviceIoControl.IoControlCode) {
    case IOCTL_WAITS_WAIT: return Wait(ext, Irp);
    case IOCTL_WAITS_RING:
        while ((waiting = IoCsqRemoveNextIrp(&ext->Queue, NULL)) != NULL)
            Complete(waiting, STATUS_SUCCESS);
        return Complete(Irp, STATUS_SUCCESS);
    default: return Complete(Irp, STATUS_INVALID_DEVICE_REQUEST);
    }
}

static NTSTATUS Open(PDEVICE_OBJECT DeviceObject, PIRP Irp)
{
    UNREFERENCED_PARAMETER(DeviceObject);
    return Complete(Irp, STATUS_SUCCESS);
}

static NTSTATUS Cleanup(PDEVICE_OBJECT DeviceObject, PIRP Irp)
{
    const PEXTENSION ext = DeviceObject->DeviceExtension;
    PFILE_OBJECT file = IoGetCurrentIrpStackLocation(Irp)->FileObject;
    PIRP waiting;
    while (BUG != 2 && (waiting = IoCsqRemoveNextIrp(&ext->Queue, file)) != NULL)
        Complete(waiting, STATUS_CANCELLED);
    return Complete(Irp, STATUS_SUCCESS);
}

static VOID Unload(PDRIVER_OBJECT DriverObject) { IoDeleteDevice(DriverObject->DeviceObject); }

NTSTATUS DriverEntry(PDRIVER_OBJECT DriverObject, PUNICODE_STRING RegistryPath)
{
    PDEVICE_OBJECT device;
    UNREFERENCED_PARAMETER(RegistryPath);
    const NTSTATUS status = IoCreateDevice(DriverObject, sizeof(EXTENSION), NULL, FILE_DEVICE_UNKNOWN, 0, FALSE, &device);
    if (!NT_SUCCESS(status))
        return status;
    const PEXTENSION ext = device->DeviceExtension;
    KeInitializeSpinLock(&ext->Lock);
    InitializeListHead(&ext->Waits);
    IoCsqInitializeEx(&ext->Queue, Insert, Remove, PeekNext, Acquire, Release, CompleteCanceled);
    DriverObject->MajorFunction[IRP_MJ_CREATE] = DriverObject->MajorFunction[IRP_MJ_CLOSE] = Open;
    DriverObject->MajorFunction[IRP_MJ_CLEANUP] = Cleanup;
    DriverObject->MajorFunction[IRP_MJ_DEVICE_CONTROL] = Control;
    DriverObject->DriverUnload = Unload;
    return STATUS_SUCCESS;
}
