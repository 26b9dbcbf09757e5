/* ticks.c: a function driver whose timer goes off every ten milliseconds while its device is started, and also while that has no
   power. Where RIGHT is defined it cancels the timer before the power goes. */
#include <wdm.h>

typedef struct {
    PDEVICE_OBJECT Lower;
    LONG Ticks;
    KTIMER Timer;
    KDPC Dpc;
} EXTENSION, *PEXTENSION;

static VOID Tick(PKDPC Dpc, PVOID Context, PVOID One, PVOID Two)
{
    PEXTENSION ext = Context;
    UNREFERENCED_PARAMETER(Dpc), UNREFERENCED_PARAMETER(One), UNREFERENCED_PARAMETER(Two);
    InterlockedIncrement(&ext->Ticks);
}

static VOID Start(PEXTENSION Ext)
{
    const LARGE_INTEGER due = { .QuadPart = -10000 * 10 };
    KeSetTimerEx(&Ext->Timer, due, 10, &Ext->Dpc); /* told: the timer */
}

static NTSTATUS Pass(PDEVICE_OBJECT DeviceObject, PIRP Irp)
{
    IoSkipCurrentIrpStackLocation(Irp);
    return IoCallDriver(((PEXTENSION)DeviceObject->DeviceExtension)->Lower, Irp);
}

static NTSTATUS HasPower(PDEVICE_OBJECT DeviceObject, PIRP Irp, PVOID Context)
{
    const POWER_STATE on = { .DeviceState = PowerDeviceD0 };
    if (Irp->PendingReturned)
        IoMarkIrpPending(Irp);
    PoSetPowerState(DeviceObject, DevicePowerState, on);
    Start(Context);
    return STATUS_CONTINUE_COMPLETION;
}

static NTSTATUS Power(PDEVICE_OBJECT DeviceObject, PIRP Irp)
{
    PEXTENSION ext = DeviceObject->DeviceExtension;
    PIO_STACK_LOCATION stack = IoGetCurrentIrpStackLocation(Irp);
    if (stack->MinorFunction != IRP_MN_SET_POWER || stack->Parameters.Power.Type != DevicePowerState)
        return Pass(DeviceObject, Irp);
    if (stack->Parameters.Power.State.DeviceState == PowerDeviceD0) {
        IoCopyCurrentIrpStackLocationToNext(Irp);
        IoSetCompletionRoutine(Irp, HasPower, ext, TRUE, FALSE, FALSE);
        return PoCallDriver(ext->Lower, Irp);
    }
#ifdef RIGHT
    KeCancelTimer(&ext->Timer);
    KeFlushQueuedDpcs();
#endif
    PoSetPowerState(DeviceObject, DevicePowerState, stack->Parameters.Power.State);
    return Pass(DeviceObject, Irp);
}

static NTSTATUS StartDevice(PEXTENSION Ext, PIRP Irp)
{
    IoForwardIrpSynchronously(Ext->Lower, Irp);
    const NTSTATUS status = Irp->IoStatus.Status;
    if (NT_SUCCESS(status))
        Start(Ext);
    IoCompleteRequest(Irp, IO_NO_INCREMENT);
    return status;
}

static NTSTATUS Pnp(PDEVICE_OBJECT DeviceObject, PIRP Irp)
{
    PEXTENSION ext = DeviceObject->DeviceExtension;
    const UCHAR minor = IoGetCurrentIrpStackLocation(Irp)->MinorFunction;
    if (minor == IRP_MN_START_DEVICE)
        return StartDevice(ext, Irp);
    if (minor == IRP_MN_REMOVE_DEVICE || minor == IRP_MN_STOP_DEVICE || minor == IRP_MN_SURPRISE_REMOVAL) {
        KeCancelTimer(&ext->Timer);
        KeFlushQueuedDpcs();
        Irp->IoStatus.Status = STATUS_SUCCESS;
    }
    const NTSTATUS status = Pass(DeviceObject, Irp);
    if (minor == IRP_MN_REMOVE_DEVICE) {
        IoDetachDevice(ext->Lower);
        IoDeleteDevice(DeviceObject);
    }
    return status;
}

static NTSTATUS AddDevice(PDRIVER_OBJECT DriverObject, PDEVICE_OBJECT Pdo)
{
    PDEVICE_OBJECT device;
    const NTSTATUS status = IoCreateDevice(DriverObject, sizeof(EXTENSION), NULL, FILE_DEVICE_UNKNOWN, 0, FALSE, &device);
    if (!NT_SUCCESS(status))
        return status;
    PEXTENSION ext = device->DeviceExtension;
    KeInitializeTimerEx(&ext->Timer, NotificationTimer);
    KeInitializeDpc(&ext->Dpc, Tick, ext);
    ext->Lower = IoAttachDeviceToDeviceStack(device, Pdo);
    device->Flags |= DO_POWER_PAGABLE;
    device->Flags &= ~(ULONG)DO_DEVICE_INITIALIZING;
    return STATUS_SUCCESS;
}

static VOID Unload(PDRIVER_OBJECT DriverObject) { UNREFERENCED_PARAMETER(DriverObject); }

NTSTATUS DriverEntry(PDRIVER_OBJECT DriverObject, PUNICODE_STRING RegistryPath)
{
    UNREFERENCED_PARAMETER(RegistryPath);
    for (int i = 0; i <= IRP_MJ_MAXIMUM_FUNCTION; i++)
        DriverObject->MajorFunction[i] = Pass;
    DriverObject->MajorFunction[IRP_MJ_PNP] = Pnp;
    DriverObject->MajorFunction[IRP_MJ_POWER] = Power;
    DriverObject->DriverExtension->AddDevice = AddDevice;
    DriverObject->DriverUnload = Unload;
    return STATUS_SUCCESS;
}
