/* transport.c: a driver that exports a function, which sends its caller's packet to the transport's own device. */
#include "transport.h"

typedef struct {
    PDEVICE_OBJECT Self, Lower;
    KSPIN_LOCK Lock;
    PIRP Waiting; /* one at a time; others are answered at once */
    ULONG_PTR Sent;
    KTIMER Timer;
    KDPC Dpc;
} EXTENSION, *PEXTENSION;

static PEXTENSION The;

static NTSTATUS Complete(PIRP Irp, NTSTATUS Status, ULONG_PTR Information)
{
    Irp->IoStatus.Status = Status;
    Irp->IoStatus.Information = Information;
    IoCompleteRequest(Irp, IO_NO_INCREMENT);
    return Status;
}

NTSTATUS TransportSend(PIRP Irp, BOOLEAN Later)
{
    KIRQL irql;
    PIO_STACK_LOCATION next = IoGetNextIrpStackLocation(Irp);
    next->MajorFunction = IRP_MJ_INTERNAL_DEVICE_CONTROL;
    next->Parameters.Others.Argument1 = (PVOID)(ULONG_PTR)Later;
    const NTSTATUS status = IoCallDriver(The->Self, Irp);
    KeAcquireSpinLock(&The->Lock, &irql);
    if (The->Waiting == Irp) /* its own device has it */
        Irp->Tail.Overlay.DriverContext[0] = (PVOID)++The->Sent;
    KeReleaseSpinLock(&The->Lock, irql);
    return status;
}

static VOID Answer(PKDPC Dpc, PVOID Context, PVOID Argument1, PVOID Argument2)
{
    PEXTENSION ext = Context;
    UNREFERENCED_PARAMETER(Dpc), UNREFERENCED_PARAMETER(Argument1), UNREFERENCED_PARAMETER(Argument2);
    KeAcquireSpinLockAtDpcLevel(&ext->Lock);
    PIRP irp = ext->Waiting;
    ext->Waiting = NULL;
    KeReleaseSpinLockFromDpcLevel(&ext->Lock);
    if (irp != NULL)
        Complete(irp, STATUS_SUCCESS, 7);
}

static NTSTATUS Take(PDEVICE_OBJECT DeviceObject, PIRP Irp)
{
    PEXTENSION ext = DeviceObject->DeviceExtension;
    LARGE_INTEGER soon = { .QuadPart = -50000 };
    KIRQL irql;
    if (!IoGetCurrentIrpStackLocation(Irp)->Parameters.Others.Argument1)
        return Complete(Irp, STATUS_SUCCESS, 7);
    KeAcquireSpinLock(&ext->Lock, &irql);
    const BOOLEAN waits = ext->Waiting == NULL;
    if (waits) {
        IoMarkIrpPending(Irp);
        ext->Waiting = Irp;
    }
    KeReleaseSpinLock(&ext->Lock, irql);
    if (!waits)
        return Complete(Irp, STATUS_SUCCESS, 7);
    KeSetTimer(&ext->Timer, soon, &ext->Dpc);
    return STATUS_PENDING;
}

static NTSTATUS Pnp(PDEVICE_OBJECT DeviceObject, PIRP Irp)
{
    PEXTENSION ext = DeviceObject->DeviceExtension;
    PDEVICE_OBJECT lower = ext->Lower;
    const UCHAR minor = IoGetCurrentIrpStackLocation(Irp)->MinorFunction;
    if (minor <= IRP_MN_CANCEL_STOP_DEVICE || minor == IRP_MN_SURPRISE_REMOVAL)
        Irp->IoStatus.Status = STATUS_SUCCESS;
    IoSkipCurrentIrpStackLocation(Irp);
    const NTSTATUS status = IoCallDriver(lower, Irp);
    if (minor == IRP_MN_REMOVE_DEVICE) {
        KeCancelTimer(&ext->Timer);
        KeFlushQueuedDpcs();
        IoDetachDevice(lower);
        IoDeleteDevice(DeviceObject);
    }
    return status;
}

static NTSTATUS AddDevice(PDRIVER_OBJECT DriverObject, PDEVICE_OBJECT Pdo)
{
    PDEVICE_OBJECT device;
    const NTSTATUS status = IoCreateDevice(DriverObject, sizeof(EXTENSION), NULL, FILE_DEVICE_NETWORK, 0, FALSE, &device);
    if (!NT_SUCCESS(status))
        return status;
    The = device->DeviceExtension;
    The->Self = device;
    KeInitializeSpinLock(&The->Lock);
    KeInitializeTimer(&The->Timer);
    KeInitializeDpc(&The->Dpc, Answer, The);
    The->Lower = IoAttachDeviceToDeviceStack(device, Pdo);
    device->Flags &= ~(ULONG)DO_DEVICE_INITIALIZING;
    return STATUS_SUCCESS;
}

NTSTATUS DriverEntry(PDRIVER_OBJECT DriverObject, PUNICODE_STRING RegistryPath)
{
    UNREFERENCED_PARAMETER(RegistryPath);
    DriverObject->MajorFunction[IRP_MJ_INTERNAL_DEVICE_CONTROL] = Take;
    DriverObject->MajorFunction[IRP_MJ_PNP] = Pnp;
    DriverObject->DriverExtension->AddDevice = AddDevice;
    return STATUS_SUCCESS;
}
