/* portclass.c: a class driver. It has no device of its own: those of its minidrivers run its code, which takes requests,
   marks them pending, and lets the minidriver answer reads. */
#include "portclass.h"

typedef struct {
    PDEVICE_OBJECT Lower;
    IO_REMOVE_LOCK RemoveLock;
    DECLSPEC_ALIGN(16) UCHAR Mini[]; /* the minidriver's own */
} EXTENSION, *PEXTENSION;

static PORT_MINIDRIVER Registered;

static NTSTATUS Complete(PIRP Irp, NTSTATUS Status)
{
    Irp->IoStatus.Status = Status;
    Irp->IoStatus.Information = 0;
    IoCompleteRequest(Irp, IO_NO_INCREMENT);
    return Status;
}

VOID PortReadDone(PIRP Irp, NTSTATUS Status, ULONG Bytes)
{
    PEXTENSION ext = IoGetCurrentIrpStackLocation(Irp)->DeviceObject->DeviceExtension;
    Irp->IoStatus.Status = Status;
    Irp->IoStatus.Information = NT_SUCCESS(Status) ? Bytes : 0;
    IoCompleteRequest(Irp, IO_NO_INCREMENT);
    IoReleaseRemoveLock(&ext->RemoveLock, Irp);
}

static NTSTATUS Read(PDEVICE_OBJECT DeviceObject, PIRP Irp)
{
    PEXTENSION ext = DeviceObject->DeviceExtension;
    const NTSTATUS status = IoAcquireRemoveLock(&ext->RemoveLock, Irp);
    if (!NT_SUCCESS(status))
        return Complete(Irp, status);
    IoMarkIrpPending(Irp);
    Registered.StartRead(ext->Mini, Irp);
    return STATUS_PENDING;
}

static NTSTATUS Remove(PDEVICE_OBJECT DeviceObject, PIRP Irp)
{
    PEXTENSION ext = DeviceObject->DeviceExtension;
    PDEVICE_OBJECT lower = ext->Lower;
    Registered.Stop(ext->Mini);
    IoReleaseRemoveLockAndWait(&ext->RemoveLock, Irp);
    Irp->IoStatus.Status = STATUS_SUCCESS;
    IoSkipCurrentIrpStackLocation(Irp);
    const NTSTATUS status = IoCallDriver(lower, Irp);
    IoDetachDevice(lower);
    IoDeleteDevice(DeviceObject);
    return status;
}

static NTSTATUS Pnp(PDEVICE_OBJECT DeviceObject, PIRP Irp)
{
    PEXTENSION ext = DeviceObject->DeviceExtension;
    const UCHAR minor = IoGetCurrentIrpStackLocation(Irp)->MinorFunction;
    NTSTATUS status = IoAcquireRemoveLock(&ext->RemoveLock, Irp);
    if (!NT_SUCCESS(status))
        return Complete(Irp, status);
    if (minor == IRP_MN_REMOVE_DEVICE)
        return Remove(DeviceObject, Irp);
    if (minor == IRP_MN_SURPRISE_REMOVAL || minor == IRP_MN_STOP_DEVICE) {
        Registered.Stop(ext->Mini);
        Irp->IoStatus.Status = STATUS_SUCCESS;
    }
    IoSkipCurrentIrpStackLocation(Irp);
    status = IoCallDriver(ext->Lower, Irp);
    IoReleaseRemoveLock(&ext->RemoveLock, Irp);
    return status;
}

static NTSTATUS AddDevice(PDRIVER_OBJECT DriverObject, PDEVICE_OBJECT Pdo)
{
    PDEVICE_OBJECT device;
    const NTSTATUS status = IoCreateDevice(DriverObject, sizeof(EXTENSION) + Registered.ExtensionSize, NULL,
                                           FILE_DEVICE_UNKNOWN, 0, FALSE, &device);
    if (!NT_SUCCESS(status))
        return status;
    PEXTENSION ext = device->DeviceExtension;
    IoInitializeRemoveLock(&ext->RemoveLock, 'troP', 0, 0);
    Registered.Create(ext->Mini);
    ext->Lower = IoAttachDeviceToDeviceStack(device, Pdo);
    device->Flags &= ~(ULONG)DO_DEVICE_INITIALIZING;
    return STATUS_SUCCESS;
}

NTSTATUS PortRegisterMinidriver(const PORT_MINIDRIVER *Minidriver)
{
    Registered = *Minidriver;
    Minidriver->DriverObject->MajorFunction[IRP_MJ_READ] = Read;
    Minidriver->DriverObject->MajorFunction[IRP_MJ_PNP] = Pnp;
    Minidriver->DriverObject->DriverExtension->AddDevice = AddDevice;
    return STATUS_SUCCESS;
}

NTSTATUS DriverEntry(PDRIVER_OBJECT DriverObject, PUNICODE_STRING RegistryPath)
{
    UNREFERENCED_PARAMETER(DriverObject);
    UNREFERENCED_PARAMETER(RegistryPath);
    return STATUS_SUCCESS;
}
