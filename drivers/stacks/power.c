/* power.c: a function driver that powers its device up: on SET_POWER D0 its routine keeps the packet, a work item
   readies the hardware and completes it. Reads wait in a cancel-safe queue while the device sleeps. */
#include "common.h"

typedef struct {
    PDEVICE_OBJECT Self, Lower;
    DEVICE_POWER_STATE State;
    IO_REMOVE_LOCK RemoveLock;
    IO_CSQ Csq;
    LIST_ENTRY Waiting;
    KSPIN_LOCK Lock;
    PIO_WORKITEM Item;
} EXTENSION, *PEXTENSION;

#define EXT(csq) CONTAINING_RECORD(csq, EXTENSION, Csq)

static VOID Insert(PIO_CSQ Csq, PIRP Irp) { InsertTailList(&EXT(Csq)->Waiting, &Irp->Tail.Overlay.ListEntry); }

static VOID Remove(PIO_CSQ Csq, PIRP Irp)
{
    UNREFERENCED_PARAMETER(Csq);
    RemoveEntryList(&Irp->Tail.Overlay.ListEntry);
}

static PIRP Peek(PIO_CSQ Csq, PIRP Irp, PVOID Context)
{
    PLIST_ENTRY head = &EXT(Csq)->Waiting, next = Irp ? Irp->Tail.Overlay.ListEntry.Flink : head->Flink;
    UNREFERENCED_PARAMETER(Context);
    return next == head ? NULL : CONTAINING_RECORD(next, IRP, Tail.Overlay.ListEntry);
}

static VOID Acquire(PIO_CSQ Csq, PKIRQL Irql) { KeAcquireSpinLock(&EXT(Csq)->Lock, Irql); }
static VOID Release(PIO_CSQ Csq, KIRQL Irql) { KeReleaseSpinLock(&EXT(Csq)->Lock, Irql); }

static VOID Cancelled(PIO_CSQ Csq, PIRP Irp)
{
    Complete(Irp, STATUS_CANCELLED, 0);
    IoReleaseRemoveLock(&EXT(Csq)->RemoveLock, Irp);
}

static VOID SendWaiting(PEXTENSION Ext)
{
    PIRP irp;
    while ((irp = IoCsqRemoveNextIrp(&Ext->Csq, NULL)) != NULL) {
        IoSkipCurrentIrpStackLocation(irp);
        IoCallDriver(Ext->Lower, irp);
        IoReleaseRemoveLock(&Ext->RemoveLock, irp);
    }
}

static VOID Ready(PDEVICE_OBJECT DeviceObject, PVOID Context)
{
    PEXTENSION ext = DeviceObject->DeviceExtension;
    PIRP irp = Context;
    Pause(2);
    InterlockedExchange((PLONG)&ext->State, PowerDeviceD0);
    SendWaiting(ext);
    IoCompleteRequest(irp, IO_NO_INCREMENT);
    IoReleaseRemoveLock(&ext->RemoveLock, irp);
}

static NTSTATUS PoweredUp(PDEVICE_OBJECT DeviceObject, PIRP Irp, PVOID Context)
{
    PEXTENSION ext = Context;
    UNREFERENCED_PARAMETER(DeviceObject);
    if (!NT_SUCCESS(Irp->IoStatus.Status)) {
        IoReleaseRemoveLock(&ext->RemoveLock, Irp);
        return STATUS_CONTINUE_COMPLETION;
    }
    IoQueueWorkItem(ext->Item, Ready, DelayedWorkQueue, Irp);
    return STATUS_MORE_PROCESSING_REQUIRED;
}

static NTSTATUS Power(PDEVICE_OBJECT DeviceObject, PIRP Irp)
{
    PEXTENSION ext = DeviceObject->DeviceExtension;
    PIO_STACK_LOCATION stack = IoGetCurrentIrpStackLocation(Irp);
    NTSTATUS status = IoAcquireRemoveLock(&ext->RemoveLock, Irp);
    if (!NT_SUCCESS(status))
        return Complete(Irp, status, 0);
    PoStartNextPowerIrp(Irp);
    if (stack->MinorFunction == IRP_MN_SET_POWER && stack->Parameters.Power.Type == DevicePowerState) {
        if (stack->Parameters.Power.State.DeviceState == PowerDeviceD0) {
            IoMarkIrpPending(Irp);
            IoCopyCurrentIrpStackLocationToNext(Irp);
            IoSetCompletionRoutine(Irp, PoweredUp, ext, TRUE, TRUE, TRUE);
            PoCallDriver(ext->Lower, Irp);
            return STATUS_PENDING;
        }
        InterlockedExchange((PLONG)&ext->State, stack->Parameters.Power.State.DeviceState);
    }
    status = PassDown(ext->Lower, Irp);
    IoReleaseRemoveLock(&ext->RemoveLock, Irp);
    return status;
}

static NTSTATUS Read(PDEVICE_OBJECT DeviceObject, PIRP Irp)
{
    PEXTENSION ext = DeviceObject->DeviceExtension;
    NTSTATUS status = IoAcquireRemoveLock(&ext->RemoveLock, Irp);
    if (!NT_SUCCESS(status))
        return Complete(Irp, status, 0);
    if (InterlockedOr((PLONG)&ext->State, 0) == PowerDeviceD0) {
        status = PassDown(ext->Lower, Irp);
        IoReleaseRemoveLock(&ext->RemoveLock, Irp);
        return status;
    }
    IoCsqInsertIrp(&ext->Csq, Irp, NULL);
    if (InterlockedOr((PLONG)&ext->State, 0) == PowerDeviceD0)
        SendWaiting(ext);
    return STATUS_PENDING;
}

static NTSTATUS Pnp(PDEVICE_OBJECT DeviceObject, PIRP Irp)
{
    PEXTENSION ext = DeviceObject->DeviceExtension;
    NTSTATUS status = IoAcquireRemoveLock(&ext->RemoveLock, Irp);
    if (!NT_SUCCESS(status))
        return Complete(Irp, status, 0);
    if (IoGetCurrentIrpStackLocation(Irp)->MinorFunction == IRP_MN_REMOVE_DEVICE) {
        IoReleaseRemoveLockAndWait(&ext->RemoveLock, Irp);
        status = PassDown(ext->Lower, Irp);
        IoFreeWorkItem(ext->Item);
        IoDetachDevice(ext->Lower);
        IoDeleteDevice(DeviceObject);
        return status;
    }
    status = PassDown(ext->Lower, Irp);
    IoReleaseRemoveLock(&ext->RemoveLock, Irp);
    return status;
}

/* WMI. */
static NTSTATUS SystemControl(PDEVICE_OBJECT DeviceObject, PIRP Irp)
{
    return PassDown(((PEXTENSION)DeviceObject->DeviceExtension)->Lower, Irp);
}

static NTSTATUS AddDevice(PDRIVER_OBJECT DriverObject, PDEVICE_OBJECT Pdo)
{
    PDEVICE_OBJECT device;
    NTSTATUS status = IoCreateDevice(DriverObject, sizeof(EXTENSION), NULL, FILE_DEVICE_UNKNOWN, 0, FALSE, &device);
    if (!NT_SUCCESS(status))
        return status;
    PEXTENSION ext = device->DeviceExtension;
    ext->State = PowerDeviceD3;
    ext->Item = IoAllocateWorkItem(device);
    IoInitializeRemoveLock(&ext->RemoveLock, 'rwoP', 0, 0);
    KeInitializeSpinLock(&ext->Lock);
    InitializeListHead(&ext->Waiting);
    IoCsqInitialize(&ext->Csq, Insert, Remove, Peek, Acquire, Release, Cancelled);
    ext->Lower = IoAttachDeviceToDeviceStack(device, Pdo);
    device->Flags |= DO_POWER_PAGABLE;
    device->Flags &= ~(ULONG)DO_DEVICE_INITIALIZING;
    return STATUS_SUCCESS;
}

NTSTATUS DriverEntry(PDRIVER_OBJECT DriverObject, PUNICODE_STRING RegistryPath)
{
    UNREFERENCED_PARAMETER(RegistryPath);
    DriverObject->MajorFunction[IRP_MJ_READ] = Read;
    DriverObject->MajorFunction[IRP_MJ_POWER] = Power;
    DriverObject->MajorFunction[IRP_MJ_PNP] = Pnp;
    DriverObject->MajorFunction[IRP_MJ_SYSTEM_CONTROL] = SystemControl;
    DriverObject->DriverExtension->AddDevice = AddDevice;
    return STATUS_SUCCESS;
}

static VOID SetPower(PDEVICE_OBJECT Top, DEVICE_POWER_STATE State)
{
    IO_STATUS_BLOCK iosb;
    KEVENT ended;
    KeInitializeEvent(&ended, NotificationEvent, FALSE);
    PIRP irp = WdmBuildIrp(Top, IRP_MJ_POWER, IRP_MN_SET_POWER, 0, &iosb, &ended);
    IoGetNextIrpStackLocation(irp)->Parameters.Power.Type = DevicePowerState;
    IoGetNextIrpStackLocation(irp)->Parameters.Power.State.DeviceState = State;
    PoCallDriver(Top, irp);
    KeWaitForSingleObject(&ended, Executive, KernelMode, FALSE, NULL);
}

int main(void)
{
    PDRIVER_OBJECT driver = WdmLoadDriver("power", DriverEntry);
    PDEVICE_OBJECT bottom = WdmCreateBottom(TRUE), top;
    AddDevice(driver, bottom);
    top = IoGetAttachedDevice(bottom);
    WdmSend(top, IRP_MJ_PNP, IRP_MN_START_DEVICE, 0);
    for (ULONG i = 0; i < WdmRounds(5); i++) {
        REQUEST a, b, c;
        Start(&a, top, IRP_MJ_READ, 4);
        Start(&b, top, IRP_MJ_READ, 4);
        IoCancelIrp(b.Irp);
        SetPower(top, PowerDeviceD0);
        Start(&c, top, IRP_MJ_READ, 4);
        Finish(&a);
        Finish(&b);
        Finish(&c);
        SetPower(top, PowerDeviceD3);
    }
    WdmSend(top, IRP_MJ_PNP, IRP_MN_REMOVE_DEVICE, 0);
    IoDeleteDevice(bottom);
    return WdmFinish();
}
