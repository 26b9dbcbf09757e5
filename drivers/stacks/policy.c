/* policy.c: a power policy owner. A system power packet goes down, its routine keeps it and asks for a device power
   packet, whose end completes it. A control request is passed to the device below in a packet that is built for it. */
#include "common.h"

#define IOCTL_ASK_BELOW CTL_CODE(FILE_DEVICE_UNKNOWN, 0x900, METHOD_BUFFERED, FILE_ANY_ACCESS)
typedef struct { PDEVICE_OBJECT Self, Lower; LONG State; } EXTENSION, *PEXTENSION;

static VOID DeviceReady(PDEVICE_OBJECT DeviceObject, UCHAR Minor, POWER_STATE State, PVOID Context,
                        PIO_STATUS_BLOCK Iosb)
{
    PIRP system = Context;
    UNREFERENCED_PARAMETER(DeviceObject), UNREFERENCED_PARAMETER(Minor), UNREFERENCED_PARAMETER(State);
    system->IoStatus.Status = Iosb->Status;
    PoStartNextPowerIrp(system);
    IoCompleteRequest(system, IO_NO_INCREMENT);
}

static NTSTATUS SystemDone(PDEVICE_OBJECT DeviceObject, PIRP Irp, PVOID Context)
{
    const SYSTEM_POWER_STATE s = IoGetCurrentIrpStackLocation(Irp)->Parameters.Power.State.SystemState;
    POWER_STATE state = { .DeviceState = s == PowerSystemWorking ? PowerDeviceD0 : PowerDeviceD3 };
    UNREFERENCED_PARAMETER(Context);
    if (!NT_SUCCESS(Irp->IoStatus.Status))
        return STATUS_CONTINUE_COMPLETION;
    if (!NT_SUCCESS(PoRequestPowerIrp(DeviceObject, IRP_MN_SET_POWER, state, DeviceReady, Irp, NULL)))
        return STATUS_CONTINUE_COMPLETION;
    return STATUS_MORE_PROCESSING_REQUIRED;
}

static NTSTATUS Power(PDEVICE_OBJECT DeviceObject, PIRP Irp)
{
    PEXTENSION ext = DeviceObject->DeviceExtension;
    PIO_STACK_LOCATION stack = IoGetCurrentIrpStackLocation(Irp);
    if (stack->MinorFunction == IRP_MN_SET_POWER && stack->Parameters.Power.Type == SystemPowerState) {
        IoMarkIrpPending(Irp);
        IoCopyCurrentIrpStackLocationToNext(Irp);
        IoSetCompletionRoutine(Irp, SystemDone, NULL, TRUE, TRUE, TRUE);
        PoCallDriver(ext->Lower, Irp);
        return STATUS_PENDING;
    }
    if (stack->MinorFunction == IRP_MN_SET_POWER)
        InterlockedExchange(&ext->State, stack->Parameters.Power.State.DeviceState);
    PoStartNextPowerIrp(Irp);
    return PassDown(ext->Lower, Irp);
}

static NTSTATUS Control(PDEVICE_OBJECT DeviceObject, PIRP Irp)
{
    PEXTENSION ext = DeviceObject->DeviceExtension;
    PIO_STACK_LOCATION stack = IoGetCurrentIrpStackLocation(Irp);
    ULONG question = 1, answer = 0;
    IO_STATUS_BLOCK iosb;
    KEVENT event;
    if (stack->Parameters.DeviceIoControl.IoControlCode != IOCTL_ASK_BELOW)
        return PassDown(ext->Lower, Irp);
    if (stack->Parameters.DeviceIoControl.OutputBufferLength < sizeof answer)
        return Complete(Irp, STATUS_BUFFER_TOO_SMALL, 0);
    KeInitializeEvent(&event, NotificationEvent, FALSE);
    PIRP own = IoBuildDeviceIoControlRequest(IOCTL_ASK_BELOW, ext->Lower, &question, sizeof question, &answer,
                                             sizeof answer, FALSE, &event, &iosb);
    if (own == NULL)
        return Complete(Irp, STATUS_INSUFFICIENT_RESOURCES, 0);
    NTSTATUS status = IoCallDriver(ext->Lower, own);
    if (status == STATUS_PENDING) {
        KeWaitForSingleObject(&event, Executive, KernelMode, FALSE, NULL);
        status = iosb.Status;
    }
    return Complete(Irp, answer == question ? status : STATUS_DATA_ERROR, iosb.Information);
}

static NTSTATUS Pass(PDEVICE_OBJECT DeviceObject, PIRP Irp)
{
    return PassDown(((PEXTENSION)DeviceObject->DeviceExtension)->Lower, Irp);
}

static NTSTATUS AddDevice(PDRIVER_OBJECT DriverObject, PDEVICE_OBJECT Pdo)
{
    PDEVICE_OBJECT device;
    NTSTATUS status = IoCreateDevice(DriverObject, sizeof(EXTENSION), NULL, FILE_DEVICE_UNKNOWN, 0, FALSE, &device);
    if (!NT_SUCCESS(status))
        return status;
    ((PEXTENSION)device->DeviceExtension)->Lower = IoAttachDeviceToDeviceStack(device, Pdo);
    device->Flags &= ~(ULONG)DO_DEVICE_INITIALIZING;
    return STATUS_SUCCESS;
}

NTSTATUS DriverEntry(PDRIVER_OBJECT DriverObject, PUNICODE_STRING RegistryPath)
{
    UNREFERENCED_PARAMETER(RegistryPath);
    for (int i = 0; i <= IRP_MJ_MAXIMUM_FUNCTION; i++)
        DriverObject->MajorFunction[i] = Pass;
    DriverObject->MajorFunction[IRP_MJ_POWER] = Power;
    DriverObject->MajorFunction[IRP_MJ_DEVICE_CONTROL] = Control;
    DriverObject->DriverExtension->AddDevice = AddDevice;
    return STATUS_SUCCESS;
}

static VOID SetSystemPower(PDEVICE_OBJECT Top, SYSTEM_POWER_STATE State)
{
    IO_STATUS_BLOCK iosb;
    KEVENT ended;
    KeInitializeEvent(&ended, NotificationEvent, FALSE);
    PIRP irp = WdmBuildIrp(Top, IRP_MJ_POWER, IRP_MN_SET_POWER, 0, &iosb, &ended);
    IoGetNextIrpStackLocation(irp)->Parameters.Power.Type = SystemPowerState;
    IoGetNextIrpStackLocation(irp)->Parameters.Power.State.SystemState = State;
    PoCallDriver(Top, irp);
    KeWaitForSingleObject(&ended, Executive, KernelMode, FALSE, NULL);
}

static int use(PDRIVER_OBJECT driver, BOOLEAN late)
{
    PDEVICE_OBJECT bottom = WdmCreateBottom(late), top;
    AddDevice(driver, bottom);
    top = IoGetAttachedDevice(bottom);
    int wrong = 0;
    for (ULONG i = 0; i < WdmRounds(3); i++) {
        SetSystemPower(top, PowerSystemWorking);
        wrong |= ((PEXTENSION)top->DeviceExtension)->State != PowerDeviceD0;
        wrong |= WdmControl(top, IOCTL_ASK_BELOW, 8) != STATUS_SUCCESS;
        SetSystemPower(top, PowerSystemSleeping3);
        wrong |= ((PEXTENSION)top->DeviceExtension)->State != PowerDeviceD3;
    }
    return wrong;
}

int main(void)
{
    PDRIVER_OBJECT driver = WdmLoadDriver("policy", DriverEntry);
    int wrong = use(driver, FALSE);
    wrong |= use(driver, TRUE);
    return WdmFinish() || wrong ? 2 : 0;
}
