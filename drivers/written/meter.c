/* meter.c: an upper filter, written by hand from the WDK's pages. It notes how long each transfer takes, asks the
   driver below for its state on a control of its own, and has a work item write what it noted. */
#include <wdm.h>

#define METER_TAG 'retM'
#define IOCTL_METER_ASK CTL_CODE(FILE_DEVICE_UNKNOWN, 0x900, METHOD_BUFFERED, FILE_ANY_ACCESS)
#define IOCTL_LOWER_STATE CTL_CODE(FILE_DEVICE_UNKNOWN, 0x901, METHOD_BUFFERED, FILE_ANY_ACCESS)

typedef struct {
    PDEVICE_OBJECT Self, Lower;
    IO_REMOVE_LOCK RemoveLock;
    KSPIN_LOCK Lock;
    KSPIN_LOCK StateLock;
    PIO_WORKITEM WorkItem;
    KMUTEX LogMutex;
    KEVENT WorkDone;
    LONG WorkQueued;
    ULONG Transfers;
    LARGE_INTEGER Time;
    ULONG State;
} METER_EXTENSION, *PMETER_EXTENSION;

typedef struct {
    LARGE_INTEGER Begin;
    ULONG Length;
} TRANSFER, *PTRANSFER;

static NTSTATUS Complete(PIRP Irp, NTSTATUS Status, ULONG_PTR Information)
{
    Irp->IoStatus.Status = Status;
    Irp->IoStatus.Information = Information;
    IoCompleteRequest(Irp, IO_NO_INCREMENT);
    return Status;
}

static VOID WriteLog(PDEVICE_OBJECT DeviceObject, PVOID Context)
{
    PMETER_EXTENSION ext = Context;
    KeWaitForSingleObject(&ext->LogMutex, Executive, KernelMode, FALSE, NULL);
    DbgPrint("");
    KeReleaseMutex(&ext->LogMutex, FALSE);
    InterlockedExchange(&ext->WorkQueued, 0);
    KeSetEvent(&ext->WorkDone, IO_NO_INCREMENT, FALSE);
}

static NTSTATUS TransferDone(PDEVICE_OBJECT DeviceObject, PIRP Irp, PVOID Context)
{
    PMETER_EXTENSION ext = DeviceObject->DeviceExtension;
    PTRANSFER transfer = Context;
    LARGE_INTEGER now;
    KIRQL irql;
    KeQuerySystemTime(&now);
    KeAcquireSpinLock(&ext->Lock, &irql);
    ext->Transfers++;
    ext->Time.QuadPart += now.QuadPart - transfer->Begin.QuadPart;
    KeReleaseSpinLock(&ext->Lock, irql);
    ExFreePoolWithTag(transfer, METER_TAG);
    if (Irp->PendingReturned)
        IoMarkIrpPending(Irp);
    IoReleaseRemoveLock(&ext->RemoveLock, Irp);
    return STATUS_SUCCESS;
}

static NTSTATUS MeterTransfer(PDEVICE_OBJECT DeviceObject, PIRP Irp)
{
    PMETER_EXTENSION ext = DeviceObject->DeviceExtension;
    PIO_STACK_LOCATION stack = IoGetCurrentIrpStackLocation(Irp);
    PTRANSFER transfer;
    NTSTATUS status = IoAcquireRemoveLock(&ext->RemoveLock, Irp);
    if (!NT_SUCCESS(status))
        return Complete(Irp, status, 0);
    transfer = ExAllocatePoolWithTag(NonPagedPool, sizeof(TRANSFER), METER_TAG);
    if (transfer == NULL) {
        IoSkipCurrentIrpStackLocation(Irp);
        status = IoCallDriver(ext->Lower, Irp);
        IoReleaseRemoveLock(&ext->RemoveLock, Irp);
        return status;
    }
    transfer->Length = stack->Parameters.Read.Length;
    KeQuerySystemTime(&transfer->Begin);
    IoCopyCurrentIrpStackLocationToNext(Irp);
    IoSetCompletionRoutine(Irp, TransferDone, transfer, TRUE, TRUE, TRUE);
    return IoCallDriver(ext->Lower, Irp);
}

/* Asks the driver below, and waits for its answer. */
static NTSTATUS AskState(PMETER_EXTENSION ext, PULONG State)
{
    IO_STATUS_BLOCK iosb;
    KEVENT event;
    PIRP irp;
    NTSTATUS status;
    KeInitializeEvent(&event, NotificationEvent, FALSE);
    irp = IoBuildDeviceIoControlRequest(IOCTL_LOWER_STATE, ext->Lower, NULL, 0, State, sizeof(ULONG), FALSE, &event,
                                        &iosb);
    if (irp == NULL)
        return STATUS_INSUFFICIENT_RESOURCES;
    status = IoCallDriver(ext->Lower, irp);
    if (status == STATUS_PENDING) {
        KeWaitForSingleObject(&event, Executive, KernelMode, FALSE, NULL);
        status = iosb.Status;
    }
    return status;
}

static NTSTATUS MeterAsk(PMETER_EXTENSION ext, PIRP Irp)
{
    ULONG state = 0, room = IoGetCurrentIrpStackLocation(Irp)->Parameters.DeviceIoControl.OutputBufferLength;
    KIRQL irql;
    NTSTATUS status;
    if (room < sizeof(ULONG))
        return Complete(Irp, STATUS_BUFFER_TOO_SMALL, 0);
    status = AskState(ext, &state);
    if (!NT_SUCCESS(status))
        return Complete(Irp, status, 0);
    KeAcquireSpinLock(&ext->Lock, &irql);
    KeAcquireSpinLockAtDpcLevel(&ext->StateLock);
    ext->State = state;
    KeReleaseSpinLockFromDpcLevel(&ext->StateLock);
    KeReleaseSpinLock(&ext->Lock, irql);
    if (InterlockedCompareExchange(&ext->WorkQueued, 1, 0) == 0) {
        KeClearEvent(&ext->WorkDone);
        IoQueueWorkItem(ext->WorkItem, WriteLog, DelayedWorkQueue, ext);
    }
    *(PULONG)Irp->AssociatedIrp.SystemBuffer = state;
    return Complete(Irp, STATUS_SUCCESS, sizeof(ULONG));
}

static NTSTATUS MeterPassDown(PDEVICE_OBJECT DeviceObject, PIRP Irp)
{
    PMETER_EXTENSION ext = DeviceObject->DeviceExtension;
    NTSTATUS status = IoAcquireRemoveLock(&ext->RemoveLock, Irp);
    if (!NT_SUCCESS(status))
        return Complete(Irp, status, 0);
    IoSkipCurrentIrpStackLocation(Irp);
    status = IoCallDriver(ext->Lower, Irp);
    IoReleaseRemoveLock(&ext->RemoveLock, Irp);
    return status;
}

static NTSTATUS MeterControl(PDEVICE_OBJECT DeviceObject, PIRP Irp)
{
    PMETER_EXTENSION ext = DeviceObject->DeviceExtension;
    NTSTATUS status;
    if (IoGetCurrentIrpStackLocation(Irp)->Parameters.DeviceIoControl.IoControlCode != IOCTL_METER_ASK)
        return MeterPassDown(DeviceObject, Irp);
    status = IoAcquireRemoveLock(&ext->RemoveLock, Irp);
    if (!NT_SUCCESS(status))
        return Complete(Irp, status, 0);
    status = MeterAsk(ext, Irp);
    IoReleaseRemoveLock(&ext->RemoveLock, Irp);
    return status;
}

static NTSTATUS MeterPower(PDEVICE_OBJECT DeviceObject, PIRP Irp)
{
    PMETER_EXTENSION ext = DeviceObject->DeviceExtension;
    PoStartNextPowerIrp(Irp);
    IoSkipCurrentIrpStackLocation(Irp);
    return PoCallDriver(ext->Lower, Irp);
}

static NTSTATUS MeterPnp(PDEVICE_OBJECT DeviceObject, PIRP Irp)
{
    PMETER_EXTENSION ext = DeviceObject->DeviceExtension;
    NTSTATUS status;
    if (IoGetCurrentIrpStackLocation(Irp)->MinorFunction != IRP_MN_REMOVE_DEVICE)
        return MeterPassDown(DeviceObject, Irp);
    status = IoAcquireRemoveLock(&ext->RemoveLock, Irp);
    if (!NT_SUCCESS(status))
        return Complete(Irp, status, 0);
    IoReleaseRemoveLockAndWait(&ext->RemoveLock, Irp);
    KeWaitForSingleObject(&ext->WorkDone, Executive, KernelMode, FALSE, NULL);
    IoFreeWorkItem(ext->WorkItem);
    Irp->IoStatus.Status = STATUS_SUCCESS;
    IoSkipCurrentIrpStackLocation(Irp);
    status = IoCallDriver(ext->Lower, Irp);
    IoDetachDevice(ext->Lower);
    IoDeleteDevice(DeviceObject);
    return status;
}

static NTSTATUS MeterAddDevice(PDRIVER_OBJECT DriverObject, PDEVICE_OBJECT PhysicalDeviceObject)
{
    PDEVICE_OBJECT device;
    PMETER_EXTENSION ext;
    NTSTATUS status = IoCreateDevice(DriverObject, sizeof(METER_EXTENSION), NULL, FILE_DEVICE_UNKNOWN, 0, FALSE,
                                     &device);
    if (!NT_SUCCESS(status))
        return status;
    ext = device->DeviceExtension;
    RtlZeroMemory(ext, sizeof(METER_EXTENSION));
    ext->Self = device;
    IoInitializeRemoveLock(&ext->RemoveLock, METER_TAG, 0, 0);
    KeInitializeSpinLock(&ext->Lock);
    KeInitializeSpinLock(&ext->StateLock);
    KeInitializeMutex(&ext->LogMutex, 0);
    KeInitializeEvent(&ext->WorkDone, NotificationEvent, TRUE);
    ext->WorkItem = IoAllocateWorkItem(device);
    if (ext->WorkItem == NULL) {
        IoDeleteDevice(device);
        return STATUS_INSUFFICIENT_RESOURCES;
    }
    ext->Lower = IoAttachDeviceToDeviceStack(device, PhysicalDeviceObject);
    if (ext->Lower == NULL) {
        IoFreeWorkItem(ext->WorkItem);
        IoDeleteDevice(device);
        return STATUS_NO_SUCH_DEVICE;
    }
    device->Flags |= ext->Lower->Flags & (DO_BUFFERED_IO | DO_DIRECT_IO | DO_POWER_PAGABLE);
    device->Flags &= ~DO_DEVICE_INITIALIZING;
    return STATUS_SUCCESS;
}

static VOID MeterUnload(PDRIVER_OBJECT DriverObject)
{
}

NTSTATUS DriverEntry(PDRIVER_OBJECT DriverObject, PUNICODE_STRING RegistryPath)
{
    ULONG i;
    for (i = 0; i <= IRP_MJ_MAXIMUM_FUNCTION; i++)
        DriverObject->MajorFunction[i] = MeterPassDown;
    DriverObject->MajorFunction[IRP_MJ_READ] = MeterTransfer;
    DriverObject->MajorFunction[IRP_MJ_WRITE] = MeterTransfer;
    DriverObject->MajorFunction[IRP_MJ_DEVICE_CONTROL] = MeterControl;
    DriverObject->MajorFunction[IRP_MJ_POWER] = MeterPower;
    DriverObject->MajorFunction[IRP_MJ_PNP] = MeterPnp;
    DriverObject->DriverExtension->AddDevice = MeterAddDevice;
    DriverObject->DriverUnload = MeterUnload;
    return STATUS_SUCCESS;
}
