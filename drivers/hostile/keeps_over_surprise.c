/* Its device is gone, and the read that it holds ends only at the removal. */
#include "hostile.h"

static PIRP held;

static VOID Cancel(PDEVICE_OBJECT DeviceObject, PIRP Irp)
{
    IoReleaseCancelSpinLock(Irp->CancelIrql);
    InterlockedCompareExchangePointer((PVOID *)&held, NULL, Irp);
    Complete(Irp, STATUS_CANCELLED);
}

static VOID EndHeld(NTSTATUS Status)
{
    PIRP irp = InterlockedExchangePointer((PVOID *)&held, NULL);
    if (irp && IoSetCancelRoutine(irp, NULL))
        Complete(irp, Status);
}

/* Holds one read at a time. */
static NTSTATUS Read(PDEVICE_OBJECT DeviceObject, PIRP Irp)
{
    if (InterlockedCompareExchangePointer((PVOID *)&held, Irp, NULL))
        return Complete(Irp, STATUS_DEVICE_BUSY);
    IoMarkIrpPending(Irp);
    IoSetCancelRoutine(Irp, Cancel);
    if (Irp->Cancel && IoSetCancelRoutine(Irp, NULL)) {
        held = NULL;
        Complete(Irp, STATUS_CANCELLED);
    }
    return STATUS_PENDING;
}

static NTSTATUS PassDown(PDEVICE_OBJECT DeviceObject, PIRP Irp)
{
    PDEVICE_OBJECT lower = *(PDEVICE_OBJECT *)DeviceObject->DeviceExtension;
    const PIO_STACK_LOCATION stack = IoGetCurrentIrpStackLocation(Irp);
    const BOOLEAN goes = stack->MajorFunction == IRP_MJ_PNP && stack->MinorFunction == IRP_MN_REMOVE_DEVICE;
    if (goes)
        EndHeld(STATUS_DELETE_PENDING);
    IoSkipCurrentIrpStackLocation(Irp);
    const NTSTATUS status = IoCallDriver(lower, Irp);
    if (goes) {
        IoDetachDevice(lower);
        IoDeleteDevice(DeviceObject);
    }
    return status;
}

static NTSTATUS AddDevice(PDRIVER_OBJECT DriverObject, PDEVICE_OBJECT Pdo)
{
    PDEVICE_OBJECT device;
    const NTSTATUS status = IoCreateDevice(DriverObject, sizeof(PDEVICE_OBJECT), NULL, FILE_DEVICE_UNKNOWN, 0, FALSE,
                                           &device);
    if (!NT_SUCCESS(status))
        return status;
    *(PDEVICE_OBJECT *)device->DeviceExtension = IoAttachDeviceToDeviceStack(device, Pdo);
    device->Flags &= ~(ULONG)DO_DEVICE_INITIALIZING;
    return STATUS_SUCCESS;
}

NTSTATUS DriverEntry(PDRIVER_OBJECT DriverObject, PUNICODE_STRING RegistryPath)
{
    for (int i = 0; i <= IRP_MJ_MAXIMUM_FUNCTION; i++)
        DriverObject->MajorFunction[i] = PassDown;
    DriverObject->MajorFunction[IRP_MJ_READ] = Read;
    DriverObject->DriverExtension->AddDevice = AddDevice;
    DriverObject->DriverUnload = Unload;
    return STATUS_SUCCESS;
}
