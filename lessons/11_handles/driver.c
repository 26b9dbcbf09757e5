/* A device that counts the reads of each handle, and answers two of them. */
#include <wdm.h>

typedef struct { KSPIN_LOCK Lock; ULONG Reads; } COUNTER, *PCOUNTER;

static NTSTATUS Complete(PIRP Irp, NTSTATUS Status)
{
    Irp->IoStatus.Status = Status;
    Irp->IoStatus.Information = 0;
    IoCompleteRequest(Irp, IO_NO_INCREMENT);
    return Status;
}

static PFILE_OBJECT FileOf(PIRP Irp) { return IoGetCurrentIrpStackLocation(Irp)->FileObject; }

static NTSTATUS Create(PDEVICE_OBJECT DeviceObject, PIRP Irp)
{
    PCOUNTER counter = ExAllocatePoolWithTag(NonPagedPool, sizeof(COUNTER), 'sseL');
    UNREFERENCED_PARAMETER(DeviceObject);
    if (counter == NULL)
        return Complete(Irp, STATUS_INSUFFICIENT_RESOURCES);
    KeInitializeSpinLock(&counter->Lock);
    counter->Reads = 0;
    FileOf(Irp)->FsContext = counter;
    return Complete(Irp, STATUS_SUCCESS);
}

/* Two reads succeed; what comes behind them is behind the end. */
static NTSTATUS Read(PDEVICE_OBJECT DeviceObject, PIRP Irp)
{
    PCOUNTER counter = FileOf(Irp)->FsContext;
    KIRQL irql;
    UNREFERENCED_PARAMETER(DeviceObject);
    KeAcquireSpinLock(&counter->Lock, &irql);
    const ULONG before = counter->Reads++;
    KeReleaseSpinLock(&counter->Lock, irql);
    return Complete(Irp, before < 2 ? STATUS_SUCCESS : STATUS_END_OF_FILE);
}

static NTSTATUS Cleanup(PDEVICE_OBJECT DeviceObject, PIRP Irp)
{
    UNREFERENCED_PARAMETER(DeviceObject);
    ExFreePoolWithTag(FileOf(Irp)->FsContext, 'sseL');
    return Complete(Irp, STATUS_SUCCESS);
}

static NTSTATUS Close(PDEVICE_OBJECT DeviceObject, PIRP Irp)
{
    UNREFERENCED_PARAMETER(DeviceObject);
    return Complete(Irp, STATUS_SUCCESS);
}

NTSTATUS DriverEntry(PDRIVER_OBJECT DriverObject, PUNICODE_STRING RegistryPath)
{
    PDEVICE_OBJECT device;
    UNREFERENCED_PARAMETER(RegistryPath);
    DriverObject->MajorFunction[IRP_MJ_CREATE] = Create;
    DriverObject->MajorFunction[IRP_MJ_READ] = Read;
    DriverObject->MajorFunction[IRP_MJ_CLEANUP] = Cleanup;
    DriverObject->MajorFunction[IRP_MJ_CLOSE] = Close;
    return IoCreateDevice(DriverObject, 0, NULL, FILE_DEVICE_UNKNOWN, 0, FALSE, &device);
}
