/* A driver that powers its device as the system's state says.
 *
 * Why. A completion routine may run at DISPATCH_LEVEL, where nobody may wait; and even at PASSIVE_LEVEL it would hold up
 * the thread that should bring the device's own packet. So the routine asks for that packet, keeps the system's with
 * STATUS_MORE_PROCESSING_REQUIRED, and returns. The callback, which runs when the device has changed its state, completes
 * the system's packet. The dispatch has marked it and returned STATUS_PENDING. */
#include <wdm.h>

typedef struct { PDEVICE_OBJECT Lower; DEVICE_POWER_STATE State; } EXTENSION, *PEXTENSION;

/* The device has changed its state. */
static VOID DeviceIsDone(PDEVICE_OBJECT DeviceObject, UCHAR Minor, POWER_STATE State, PVOID Context, PIO_STATUS_BLOCK IoStatus)
{
    PIRP irp = Context;
    UNREFERENCED_PARAMETER(DeviceObject);
    UNREFERENCED_PARAMETER(Minor);
    UNREFERENCED_PARAMETER(State);
    irp->IoStatus.Status = IoStatus->Status;
    IoCompleteRequest(irp, IO_NO_INCREMENT);
}

/* The drivers below know the system's state: now the device takes the state that goes with it. */
static NTSTATUS SystemIsDone(PDEVICE_OBJECT DeviceObject, PIRP Irp, PVOID Context)
{
    const SYSTEM_POWER_STATE system = IoGetCurrentIrpStackLocation(Irp)->Parameters.Power.State.SystemState;
    const POWER_STATE state = { .DeviceState = system == PowerSystemWorking ? PowerDeviceD0 : PowerDeviceD3 };
    UNREFERENCED_PARAMETER(Context);
    const NTSTATUS status = PoRequestPowerIrp(DeviceObject, IRP_MN_SET_POWER, state, DeviceIsDone, Irp, NULL);
    if (NT_SUCCESS(status))
        return STATUS_MORE_PROCESSING_REQUIRED;
    Irp->IoStatus.Status = status;
    return STATUS_CONTINUE_COMPLETION;
}

static NTSTATUS PassDown(PDEVICE_OBJECT DeviceObject, PIRP Irp)
{
    PEXTENSION ext = DeviceObject->DeviceExtension;
    IoSkipCurrentIrpStackLocation(Irp);
    return IoCallDriver(ext->Lower, Irp);
}

static NTSTATUS Power(PDEVICE_OBJECT DeviceObject, PIRP Irp)
{
    PEXTENSION ext = DeviceObject->DeviceExtension;
    PIO_STACK_LOCATION stack = IoGetCurrentIrpStackLocation(Irp);
    if (stack->MinorFunction != IRP_MN_SET_POWER)
        return PassDown(DeviceObject, Irp);
    if (stack->Parameters.Power.Type == DevicePowerState) {
        ext->State = stack->Parameters.Power.State.DeviceState;
        return PassDown(DeviceObject, Irp);
    }
    IoMarkIrpPending(Irp);
    IoCopyCurrentIrpStackLocationToNext(Irp);
    IoSetCompletionRoutine(Irp, SystemIsDone, NULL, TRUE, TRUE, TRUE);
    IoCallDriver(ext->Lower, Irp);
    return STATUS_PENDING;
}

static NTSTATUS Pnp(PDEVICE_OBJECT DeviceObject, PIRP Irp)
{
    PEXTENSION ext = DeviceObject->DeviceExtension;
    const UCHAR minor = IoGetCurrentIrpStackLocation(Irp)->MinorFunction;
    const NTSTATUS status = PassDown(DeviceObject, Irp);
    if (minor == IRP_MN_REMOVE_DEVICE) {
        IoDetachDevice(ext->Lower);
        IoDeleteDevice(DeviceObject);
    }
    return status;
}

static NTSTATUS AddDevice(PDRIVER_OBJECT DriverObject, PDEVICE_OBJECT Pdo)
{
    PDEVICE_OBJECT device;
    const NTSTATUS status = IoCreateDevice(DriverObject, sizeof(EXTENSION), NULL, FILE_DEVICE_UNKNOWN, 0, FALSE, &device);
    if (!NT_SUCCESS(status))
        return status;
    PEXTENSION ext = device->DeviceExtension;
    ext->Lower = IoAttachDeviceToDeviceStack(device, Pdo);
    if (ext->Lower == NULL) {
        IoDeleteDevice(device);
        return STATUS_NO_SUCH_DEVICE;
    }
    device->Flags |= ext->Lower->Flags & (DO_BUFFERED_IO | DO_DIRECT_IO | DO_POWER_PAGABLE);
    device->Flags &= ~(ULONG)DO_DEVICE_INITIALIZING;
    return STATUS_SUCCESS;
}

NTSTATUS DriverEntry(PDRIVER_OBJECT DriverObject, PUNICODE_STRING RegistryPath)
{
    UNREFERENCED_PARAMETER(RegistryPath);
    for (int i = 0; i <= IRP_MJ_MAXIMUM_FUNCTION; i++)
        DriverObject->MajorFunction[i] = PassDown;
    DriverObject->MajorFunction[IRP_MJ_PNP] = Pnp;
    DriverObject->MajorFunction[IRP_MJ_POWER] = Power;
    DriverObject->DriverExtension->AddDevice = AddDevice;
    return STATUS_SUCCESS;
}
