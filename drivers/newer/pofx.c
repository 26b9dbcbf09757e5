/* pofx.c: a function driver whose device has one component with two states, managed by the power framework. A read waits until
   the component is active; a device that rests goes to D3. WRONG=N makes it wrong, at the line that says what is told. */
#include "../stacks/common.h"

#ifndef WRONG
#define WRONG 0
#endif
enum { CODE = CTL_CODE(FILE_DEVICE_UNKNOWN, 0x800, METHOD_BUFFERED, FILE_ANY_ACCESS) };
typedef struct {
    PDEVICE_OBJECT Self, Lower, Pdo;
    POHANDLE Handle;
    IO_REMOVE_LOCK RemoveLock;
    KSPIN_LOCK Lock;
    LIST_ENTRY Waiting; /* reads; guarded by Lock, as is the next one */
    BOOLEAN IsActive;
    ULONG State; /* of the component */
    LONG Ons;    /* how often the device's power was required */
    KEVENT Off;  /* it rests */
} EXTENSION, *PEXTENSION;
static PEXTENSION extension;
static PO_FX_COMPONENT_IDLE_STATE states[2] = { { 0, 0, PO_FX_UNKNOWN_POWER }, { 10000, 100000, PO_FX_UNKNOWN_POWER } };

/* Completes the reads that wait. Each has activated the component. */
static VOID Drain(PEXTENSION ext)
{
    for (;;) {
        KIRQL irql;
        PIRP irp = NULL;
        KeAcquireSpinLock(&ext->Lock, &irql);
        if (ext->IsActive && !IsListEmpty(&ext->Waiting))
            irp = CONTAINING_RECORD(RemoveHeadList(&ext->Waiting), IRP, Tail.Overlay.ListEntry);
        KeReleaseSpinLock(&ext->Lock, irql);
        if (!irp)
            return;
        WDM_CHECK(ext->State == 0);
        Complete(irp, STATUS_SUCCESS, 4);
        PoFxIdleComponent(ext->Handle, 0, 0); /* told 3: PoFxNotCompleted */
        if (WRONG == 1)
            PoFxIdleComponent(ext->Handle, 0, 0); /* told 1: PoFxNotActive */
        IoReleaseRemoveLock(&ext->RemoveLock, irp);
    }
}

static VOID SetActive(PEXTENSION ext, BOOLEAN IsActive)
{
    KIRQL irql;
    KeAcquireSpinLock(&ext->Lock, &irql);
    ext->IsActive = IsActive;
    KeReleaseSpinLock(&ext->Lock, irql);
}

static VOID Active(PVOID Context, ULONG Component)
{
    WDM_CHECK(Context == extension && !Component);
    SetActive(Context, TRUE);
    Drain(Context);
}

static VOID Idle(PVOID Context, ULONG Component)
{
    PEXTENSION ext = Context;
    SetActive(ext, FALSE);
    if (WRONG != 3)
        PoFxCompleteIdleCondition(ext->Handle, Component);
}

static VOID ChangeState(PVOID Context, ULONG Component, ULONG State)
{
    PEXTENSION ext = Context;
    WDM_CHECK(State < 2 && State != ext->State);
    ext->State = State;
    if (WRONG != 4)
        PoFxCompleteIdleState(ext->Handle, Component);
    if (WRONG == 5)
        PoFxCompleteIdleState(ext->Handle, Component); /* told 5: PoFxNotAsked */
}

static VOID IsOn(PDEVICE_OBJECT DeviceObject, UCHAR Minor, POWER_STATE State, PVOID Context, PIO_STATUS_BLOCK IoStatus)
{
    PEXTENSION ext = Context;
    UNREFERENCED_PARAMETER(DeviceObject), UNREFERENCED_PARAMETER(Minor), UNREFERENCED_PARAMETER(State);
    UNREFERENCED_PARAMETER(IoStatus);
    if (WRONG != 6)
        PoFxReportDevicePoweredOn(ext->Handle);
}

static VOID IsOff(PDEVICE_OBJECT DeviceObject, UCHAR Minor, POWER_STATE State, PVOID Context, PIO_STATUS_BLOCK IoStatus)
{
    PEXTENSION ext = Context;
    UNREFERENCED_PARAMETER(DeviceObject), UNREFERENCED_PARAMETER(Minor), UNREFERENCED_PARAMETER(State);
    UNREFERENCED_PARAMETER(IoStatus);
    if (WRONG != 7)
        PoFxCompleteDevicePowerNotRequired(ext->Handle);
    KeSetEvent(&ext->Off, IO_NO_INCREMENT, FALSE);
}

/* Asks for the device's power; where that can't be done, it stays as it is. */
static VOID Request(PEXTENSION ext, DEVICE_POWER_STATE To, PREQUEST_POWER_COMPLETE Done)
{
    POWER_STATE state = { .DeviceState = To };
    IO_STATUS_BLOCK none = { .Status = STATUS_INSUFFICIENT_RESOURCES };
    if (!NT_SUCCESS(PoRequestPowerIrp(ext->Pdo, IRP_MN_SET_POWER, state, Done, ext, NULL)))
        Done(ext->Pdo, IRP_MN_SET_POWER, state, ext, &none);
}

static VOID Required(PVOID Context)
{
    PEXTENSION ext = Context;
    KeClearEvent(&ext->Off);
    InterlockedIncrement(&ext->Ons);
    Request(ext, PowerDeviceD0, IsOn);
}

static VOID NotRequired(PVOID Context) { Request(Context, PowerDeviceD3, IsOff); }

static NTSTATUS Read(PDEVICE_OBJECT DeviceObject, PIRP Irp)
{
    PEXTENSION ext = DeviceObject->DeviceExtension;
    KIRQL irql;
    NTSTATUS status = IoAcquireRemoveLock(&ext->RemoveLock, Irp);
    if (!NT_SUCCESS(status))
        return Complete(Irp, status, 0);
    IoMarkIrpPending(Irp);
    KeAcquireSpinLock(&ext->Lock, &irql);
    InsertTailList(&ext->Waiting, &Irp->Tail.Overlay.ListEntry);
    KeReleaseSpinLock(&ext->Lock, irql);
    PoFxActivateComponent(ext->Handle, WRONG == 8, PO_FX_FLAG_ASYNC_ONLY); /* told 6: PoFxNotCompleted */ /* told 7: PoFxNotCompleted */ /* told 8: PoFxHandle */
    Drain(ext);
    return STATUS_PENDING;
}

/* It needs the component now, on this thread. */
static NTSTATUS Control(PDEVICE_OBJECT DeviceObject, PIRP Irp)
{
    PEXTENSION ext = DeviceObject->DeviceExtension;
    NTSTATUS status = IoAcquireRemoveLock(&ext->RemoveLock, Irp);
    if (!NT_SUCCESS(status))
        return Complete(Irp, status, 0);
    KIRQL irql = PASSIVE_LEVEL;
    if (WRONG == 9)
        KeRaiseIrql(DISPATCH_LEVEL, &irql);
    PoFxActivateComponent(ext->Handle, 0, PO_FX_FLAG_BLOCKING); /* told 9: IrqlTooHigh */
    if (WRONG == 9)
        KeLowerIrql(irql);
    WDM_CHECK(ext->IsActive && ext->State == 0);
    PoFxIdleComponent(ext->Handle, 0, PO_FX_FLAG_BLOCKING);
    status = Complete(Irp, STATUS_SUCCESS, 0);
    IoReleaseRemoveLock(&ext->RemoveLock, Irp);
    return status;
}

static NTSTATUS Register(PEXTENSION ext)
{
    PO_FX_DEVICE device = { .Version = PO_FX_VERSION, .ComponentCount = 1, .ComponentActiveConditionCallback = Active,
                            .ComponentIdleConditionCallback = Idle, .ComponentIdleStateCallback = ChangeState,
                            .DevicePowerRequiredCallback = Required, .DevicePowerNotRequiredCallback = NotRequired,
                            .DeviceContext = ext };
    device.Components[0].IdleStateCount = 2;
    device.Components[0].IdleStates = states;
    NTSTATUS status = PoFxRegisterDevice(ext->Pdo, &device, &ext->Handle);
    if (!NT_SUCCESS(status))
        return status;
    PoFxSetComponentLatency(ext->Handle, 0, 20000);
    PoFxSetComponentResidency(ext->Handle, 0, 1000000);
    PoFxSetComponentWake(ext->Handle, 0, FALSE);
    PoFxSetDeviceIdleTimeout(ext->Handle, 0);
    PoFxStartDevicePowerManagement(ext->Handle); /* told 4: PoFxNotCompleted */
    return STATUS_SUCCESS;
}

static NTSTATUS Remove(PEXTENSION ext, PIRP Irp)
{
    IoReleaseRemoveLockAndWait(&ext->RemoveLock, Irp);
    if (ext->Handle && WRONG != 2)
        PoFxUnregisterDevice(ext->Handle);
    if (WRONG == 10)
        PoFxActivateComponent(ext->Handle, 0, 0); /* told 10: UsedInFreedMemory */
    Irp->IoStatus.Status = STATUS_SUCCESS;
    NTSTATUS status = PassDown(ext->Lower, Irp);
    IoDetachDevice(ext->Lower);
    IoDeleteDevice(ext->Self); /* told 2: PoFxKept */
    return status;
}

static NTSTATUS Pnp(PDEVICE_OBJECT DeviceObject, PIRP Irp)
{
    PEXTENSION ext = DeviceObject->DeviceExtension;
    const UCHAR minor = IoGetCurrentIrpStackLocation(Irp)->MinorFunction;
    NTSTATUS status = IoAcquireRemoveLock(&ext->RemoveLock, Irp);
    if (!NT_SUCCESS(status))
        return Complete(Irp, status, 0);
    if (minor == IRP_MN_REMOVE_DEVICE)
        return Remove(ext, Irp);
    if (minor == IRP_MN_START_DEVICE) {
        status = IoForwardIrpSynchronously(ext->Lower, Irp) ? Irp->IoStatus.Status : STATUS_UNSUCCESSFUL;
        if (NT_SUCCESS(status))
            status = Register(ext);
        Complete(Irp, status, 0);
    } else
        status = PassDown(ext->Lower, Irp);
    IoReleaseRemoveLock(&ext->RemoveLock, Irp);
    return status;
}

static NTSTATUS Pass(PDEVICE_OBJECT DeviceObject, PIRP Irp)
{
    return PassDown(((PEXTENSION)DeviceObject->DeviceExtension)->Lower, Irp);
}

static NTSTATUS AddDevice(PDRIVER_OBJECT DriverObject, PDEVICE_OBJECT Pdo)
{
    PDEVICE_OBJECT device;
    NTSTATUS status = IoCreateDevice(DriverObject, sizeof(EXTENSION), NULL, FILE_DEVICE_UNKNOWN, 0, FALSE, &device);
    if (!NT_SUCCESS(status))
        return status;
    PEXTENSION ext = extension = device->DeviceExtension;
    ext->Self = device;
    ext->Pdo = Pdo;
    IoInitializeRemoveLock(&ext->RemoveLock, 'xfop', 0, 0);
    KeInitializeSpinLock(&ext->Lock);
    InitializeListHead(&ext->Waiting);
    KeInitializeEvent(&ext->Off, NotificationEvent, FALSE);
    ext->Lower = IoAttachDeviceToDeviceStack(device, Pdo);
    device->Flags |= DO_BUFFERED_IO;
    device->Flags &= ~(ULONG)DO_DEVICE_INITIALIZING;
    return STATUS_SUCCESS;
}

static VOID Unload(PDRIVER_OBJECT DriverObject) { UNREFERENCED_PARAMETER(DriverObject); }

NTSTATUS DriverEntry(PDRIVER_OBJECT DriverObject, PUNICODE_STRING RegistryPath)
{
    UNREFERENCED_PARAMETER(RegistryPath);
    for (int i = 0; i <= IRP_MJ_MAXIMUM_FUNCTION; i++)
        DriverObject->MajorFunction[i] = Pass;
    DriverObject->MajorFunction[IRP_MJ_READ] = Read;
    DriverObject->MajorFunction[IRP_MJ_DEVICE_CONTROL] = Control;
    DriverObject->MajorFunction[IRP_MJ_PNP] = Pnp;
    DriverObject->DriverExtension->AddDevice = AddDevice;
    DriverObject->DriverUnload = Unload;
    return STATUS_SUCCESS;
}

static VOID AwaitOff(VOID) { KeWaitForSingleObject(&extension->Off, Executive, KernelMode, FALSE, NULL); }

/* Each time the device rests before it is wanted again. */
static VOID Use(PDEVICE_OBJECT Top)
{
    AwaitOff();
    WDM_CHECK(extension->State == 1 && !extension->IsActive && extension->Ons == 0);
    WDM_CHECK(WdmSend(Top, IRP_MJ_READ, 0, 4) == STATUS_SUCCESS);
    AwaitOff();
    WDM_CHECK(WdmSend(Top, IRP_MJ_READ, 0, 4) == STATUS_SUCCESS);
    AwaitOff();
    WDM_CHECK(extension->State == 1 && extension->Ons == 2);
    PoFxSetComponentLatency(extension->Handle, 0, 9999); /* too little for the second state */
    WDM_CHECK(WdmControl(Top, CODE, 4) == STATUS_SUCCESS);
    AwaitOff();
    WDM_CHECK(extension->State == 0 && extension->Ons == 3);
}

int main(void)
{
    PDRIVER_OBJECT driver = WdmLoadDriver("pofx", DriverEntry);
    PDEVICE_OBJECT pdo = WdmCreateBottom(FALSE);
    if (!driver || !NT_SUCCESS(WdmAddDevice(driver, pdo)))
        return WdmFinish();
    if (NT_SUCCESS(WdmPlugIn(pdo)))
        Use(IoGetAttachedDevice(pdo));
    WdmUnplug(pdo, FALSE);
    WdmUnloadDriver(driver);
    return WdmFinish();
}
