/* usage.c: a filter over a device that may have a paging file. Where the device below refuses that, it goes back to what it was
   before. BUG names a mistake: 1, it goes on counting the file; 2, its code stays in memory; 3, the first, in a count alone. */
#include <wdm.h>

#ifndef BUG
#define BUG 0
#endif

typedef struct {
    PDEVICE_OBJECT Lower;
    LONG PagingFiles;
    BOOLEAN IsPagable; /* what the flag was before */
} EXTENSION, *PEXTENSION;

static NTSTATUS Pass(PDEVICE_OBJECT DeviceObject, PIRP Irp)
{
    IoSkipCurrentIrpStackLocation(Irp);
    return IoCallDriver(((PEXTENSION)DeviceObject->DeviceExtension)->Lower, Irp);
}

static VOID KeepInMemory(PDEVICE_OBJECT DeviceObject, BOOLEAN Keeps)
{
    const PEXTENSION ext = DeviceObject->DeviceExtension;
    if (Keeps)
        DeviceObject->Flags &= ~(ULONG)DO_POWER_PAGABLE;
    else if (ext->IsPagable)
        DeviceObject->Flags |= DO_POWER_PAGABLE;
}

/* On its way up: what the device below refuses hasn't been. */
static NTSTATUS UsageDone(PDEVICE_OBJECT DeviceObject, PIRP Irp, PVOID Context)
{
    const PEXTENSION ext = Context;
    const BOOLEAN comes = IoGetCurrentIrpStackLocation(Irp)->Parameters.UsageNotification.InPath;
    if (Irp->PendingReturned)
        IoMarkIrpPending(Irp);
    if (NT_SUCCESS(Irp->IoStatus.Status))
        return STATUS_CONTINUE_COMPLETION;
    if (BUG != 1 && BUG != 3)
        IoAdjustPagingPathCount(&ext->PagingFiles, !comes);
    if (BUG != 2 && !(comes && ext->PagingFiles && BUG != 3))
        KeepInMemory(DeviceObject, !comes);
    return STATUS_CONTINUE_COMPLETION;
}

/* On its way down: its code stays in memory as long as there is a paging file. */
static NTSTATUS Usage(PDEVICE_OBJECT DeviceObject, PIRP Irp)
{
    const PEXTENSION ext = DeviceObject->DeviceExtension;
    const PIO_STACK_LOCATION stack = IoGetCurrentIrpStackLocation(Irp);
    if (stack->Parameters.UsageNotification.Type != DeviceUsageTypePaging)
        return Pass(DeviceObject, Irp);
    IoAdjustPagingPathCount(&ext->PagingFiles, stack->Parameters.UsageNotification.InPath);
    KeepInMemory(DeviceObject, ext->PagingFiles > 0);
    IoCopyCurrentIrpStackLocationToNext(Irp);
    IoSetCompletionRoutine(Irp, UsageDone, ext, TRUE, TRUE, TRUE);
    return IoCallDriver(ext->Lower, Irp); /* told: UsageKept */
}

static NTSTATUS StartDevice(PEXTENSION Ext, PIRP Irp)
{
    IoForwardIrpSynchronously(Ext->Lower, Irp);
    const NTSTATUS status = Irp->IoStatus.Status;
    IoCompleteRequest(Irp, IO_NO_INCREMENT);
    return status;
}

static NTSTATUS Pnp(PDEVICE_OBJECT DeviceObject, PIRP Irp)
{
    const PEXTENSION ext = DeviceObject->DeviceExtension;
    const UCHAR minor = IoGetCurrentIrpStackLocation(Irp)->MinorFunction;
    if (minor == IRP_MN_START_DEVICE)
        return StartDevice(ext, Irp);
    if (minor == IRP_MN_DEVICE_USAGE_NOTIFICATION)
        return Usage(DeviceObject, Irp);
    const NTSTATUS status = Pass(DeviceObject, Irp);
    if (minor == IRP_MN_REMOVE_DEVICE) {
        IoDetachDevice(ext->Lower);
        IoDeleteDevice(DeviceObject);
    }
    return status;
}

static NTSTATUS AddDevice(PDRIVER_OBJECT DriverObject, PDEVICE_OBJECT Pdo)
{
    PDEVICE_OBJECT device;
    const NTSTATUS status = IoCreateDevice(DriverObject, sizeof(EXTENSION), NULL, FILE_DEVICE_UNKNOWN, 0, FALSE, &device);
    if (!NT_SUCCESS(status))
        return status;
    const PEXTENSION ext = device->DeviceExtension;
    ext->Lower = IoAttachDeviceToDeviceStack(device, Pdo);
    ext->IsPagable = TRUE;
    device->Flags |= (ext->Lower->Flags & (DO_BUFFERED_IO | DO_DIRECT_IO)) | DO_POWER_PAGABLE;
    device->Flags &= ~(ULONG)DO_DEVICE_INITIALIZING;
    return STATUS_SUCCESS;
}

static VOID Unload(PDRIVER_OBJECT DriverObject) { UNREFERENCED_PARAMETER(DriverObject); }

NTSTATUS DriverEntry(PDRIVER_OBJECT DriverObject, PUNICODE_STRING RegistryPath)
{
    UNREFERENCED_PARAMETER(RegistryPath);
    for (int i = 0; i <= IRP_MJ_MAXIMUM_FUNCTION; i++)
        DriverObject->MajorFunction[i] = Pass;
    DriverObject->MajorFunction[IRP_MJ_PNP] = Pnp;
    DriverObject->DriverExtension->AddDevice = AddDevice;
    DriverObject->DriverUnload = Unload;
    return STATUS_SUCCESS;
}
