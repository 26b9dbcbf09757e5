/* A driver whose routine keeps the remove lock of a usage notification, which comes where a paging file does. Where RIGHT is
   defined it gives that back. */
#include "hostile.h"

typedef struct { PDEVICE_OBJECT Lower; IO_REMOVE_LOCK RemoveLock; } EXTENSION, *PEXTENSION;

static NTSTATUS Pass(PDEVICE_OBJECT DeviceObject, PIRP Irp)
{
    IoSkipCurrentIrpStackLocation(Irp);
    return IoCallDriver(((PEXTENSION)DeviceObject->DeviceExtension)->Lower, Irp);
}

static NTSTATUS Read(PDEVICE_OBJECT DeviceObject, PIRP Irp) { return Pass(DeviceObject, Irp); }

static NTSTATUS UsageDone(PDEVICE_OBJECT DeviceObject, PIRP Irp, PVOID Context)
{
    PEXTENSION ext = Context;
    if (Irp->PendingReturned)
        IoMarkIrpPending(Irp);
    if ((ext->Lower->Flags & DO_POWER_PAGABLE) == 0)
        DeviceObject->Flags &= ~(ULONG)DO_POWER_PAGABLE;
#ifdef RIGHT
    IoReleaseRemoveLock(&ext->RemoveLock, Irp);
#endif
    return STATUS_CONTINUE_COMPLETION;
}

static NTSTATUS Usage(PEXTENSION Ext, PIRP Irp)
{
    IoCopyCurrentIrpStackLocationToNext(Irp);
    IoSetCompletionRoutine(Irp, UsageDone, Ext, TRUE, TRUE, TRUE);
    return IoCallDriver(Ext->Lower, Irp);
}

static NTSTATUS Remove(PDEVICE_OBJECT DeviceObject, PIRP Irp)
{
    PEXTENSION ext = DeviceObject->DeviceExtension;
    IoReleaseRemoveLockAndWait(&ext->RemoveLock, Irp);
    const NTSTATUS status = Pass(DeviceObject, Irp);
    IoDetachDevice(ext->Lower);
    IoDeleteDevice(DeviceObject);
    return status;
}

static NTSTATUS Pnp(PDEVICE_OBJECT DeviceObject, PIRP Irp)
{
    PEXTENSION ext = DeviceObject->DeviceExtension;
    const UCHAR minor = IoGetCurrentIrpStackLocation(Irp)->MinorFunction;
    if (!NT_SUCCESS(IoAcquireRemoveLock(&ext->RemoveLock, Irp)))
        return Complete(Irp, STATUS_DELETE_PENDING);
    if (minor == IRP_MN_DEVICE_USAGE_NOTIFICATION)
        return Usage(ext, Irp);
    if (minor == IRP_MN_REMOVE_DEVICE)
        return Remove(DeviceObject, Irp);
    const NTSTATUS status = Pass(DeviceObject, Irp);
    IoReleaseRemoveLock(&ext->RemoveLock, Irp);
    return status;
}

static NTSTATUS AddDevice(PDRIVER_OBJECT DriverObject, PDEVICE_OBJECT Pdo)
{
    PDEVICE_OBJECT device;
    const NTSTATUS status = IoCreateDevice(DriverObject, sizeof(EXTENSION), NULL, FILE_DEVICE_UNKNOWN, 0, FALSE, &device);
    if (!NT_SUCCESS(status))
        return status;
    PEXTENSION ext = device->DeviceExtension;
    IoInitializeRemoveLock(&ext->RemoveLock, 'gaPF', 0, 0);
    ext->Lower = IoAttachDeviceToDeviceStack(device, Pdo);
    device->Flags &= ~(ULONG)DO_DEVICE_INITIALIZING;
    return STATUS_SUCCESS;
}

static VOID GoAtOnce(PDRIVER_OBJECT DriverObject) { UNREFERENCED_PARAMETER(DriverObject); }

NTSTATUS DriverEntry(PDRIVER_OBJECT DriverObject, PUNICODE_STRING RegistryPath)
{
    for (int i = 0; i <= IRP_MJ_MAXIMUM_FUNCTION; i++)
        DriverObject->MajorFunction[i] = Pass;
    DriverObject->MajorFunction[IRP_MJ_PNP] = Pnp;
    DriverObject->MajorFunction[IRP_MJ_READ] = Read;
    DriverObject->DriverExtension->AddDevice = AddDevice;
    DriverObject->DriverUnload = GoAtOnce;
    return STATUS_SUCCESS;
}
