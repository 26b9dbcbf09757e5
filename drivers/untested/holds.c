/* holds.c: a function driver that answers writes and a control. While its device has no power, or was asked to stop or to go, it
   holds them, and completes them once that is over. BUG names a mistake: 1 and 2, power that comes back; 3, 4 and 5, a removal
   and a stop that are called off, and a start. */
#include <wdm.h>

#ifndef BUG
#define BUG 0
#endif
#define IOCTL_HOLDS_COUNT CTL_CODE(FILE_DEVICE_UNKNOWN, 0x910, METHOD_BUFFERED, FILE_ANY_ACCESS)
enum { NO_POWER = 1, STOPPING = 2, GOING = 4 }; /* why requests are held */

typedef struct {
    PDEVICE_OBJECT Lower;
    ULONG Holds, Count; /* under the lock, as is IsGone */
    BOOLEAN IsGone;
    KSPIN_LOCK Lock;
    LIST_ENTRY Held;
    IO_CSQ Queue;
    IO_REMOVE_LOCK Remove;
} EXTENSION, *PEXTENSION;

static PEXTENSION Of(PIO_CSQ Csq) { return CONTAINING_RECORD(Csq, EXTENSION, Queue); }
static VOID Acquire(PIO_CSQ Csq, PKIRQL Irql) { KeAcquireSpinLock(&Of(Csq)->Lock, Irql); }
static VOID Release(PIO_CSQ Csq, KIRQL Irql) { KeReleaseSpinLock(&Of(Csq)->Lock, Irql); }

static NTSTATUS End(PEXTENSION Ext, PIRP Irp, NTSTATUS Status, ULONG_PTR Information)
{
    Irp->IoStatus.Status = Status;
    Irp->IoStatus.Information = Information;
    IoCompleteRequest(Irp, IO_NO_INCREMENT);
    IoReleaseRemoveLock(&Ext->Remove, Irp);
    return Status;
}

/* Refuses what needn't be held. */
static NTSTATUS Insert(PIO_CSQ Csq, PIRP Irp, PVOID Context)
{
    UNREFERENCED_PARAMETER(Context);
    if (!Of(Csq)->Holds || Of(Csq)->IsGone)
        return STATUS_UNSUCCESSFUL;
    InsertTailList(&Of(Csq)->Held, &Irp->Tail.Overlay.ListEntry);
    return STATUS_SUCCESS;
}

static VOID Remove(PIO_CSQ Csq, PIRP Irp)
{
    UNREFERENCED_PARAMETER(Csq);
    RemoveEntryList(&Irp->Tail.Overlay.ListEntry);
}

static PIRP PeekNext(PIO_CSQ Csq, PIRP Irp, PVOID File)
{
    PLIST_ENTRY next = Irp ? Irp->Tail.Overlay.ListEntry.Flink : Of(Csq)->Held.Flink;
    for (; next != &Of(Csq)->Held; next = next->Flink) {
        PIRP irp = CONTAINING_RECORD(next, IRP, Tail.Overlay.ListEntry);
        if (!File || IoGetCurrentIrpStackLocation(irp)->FileObject == File)
            return irp;
    }
    return NULL;
}

static VOID CompleteCanceled(PIO_CSQ Csq, PIRP Irp) { End(Of(Csq), Irp, STATUS_CANCELLED, 0); }

static NTSTATUS Answer(PEXTENSION Ext, PIRP Irp)
{
    const PIO_STACK_LOCATION stack = IoGetCurrentIrpStackLocation(Irp);
    KIRQL irql;
    if (Ext->IsGone)
        return End(Ext, Irp, STATUS_DELETE_PENDING, 0);
    if (stack->MajorFunction == IRP_MJ_WRITE)
        return End(Ext, Irp, STATUS_SUCCESS, stack->Parameters.Write.Length);
    if (stack->Parameters.DeviceIoControl.IoControlCode != IOCTL_HOLDS_COUNT)
        return End(Ext, Irp, STATUS_INVALID_DEVICE_REQUEST, 0);
    if (stack->Parameters.DeviceIoControl.OutputBufferLength < sizeof Ext->Count)
        return End(Ext, Irp, STATUS_BUFFER_TOO_SMALL, 0);
    KeAcquireSpinLock(&Ext->Lock, &irql);
    *(ULONG *)Irp->AssociatedIrp.SystemBuffer = ++Ext->Count;
    KeReleaseSpinLock(&Ext->Lock, irql);
    return End(Ext, Irp, STATUS_SUCCESS, sizeof Ext->Count);
}

static NTSTATUS Take(PDEVICE_OBJECT DeviceObject, PIRP Irp)
{
    const PEXTENSION ext = DeviceObject->DeviceExtension;
    const NTSTATUS status = IoAcquireRemoveLock(&ext->Remove, Irp);
    if (!NT_SUCCESS(status)) {
        Irp->IoStatus.Status = status;
        IoCompleteRequest(Irp, IO_NO_INCREMENT);
        return status;
    }
    if (NT_SUCCESS(IoCsqInsertIrpEx(&ext->Queue, Irp, NULL, NULL))) /* told: NotRestored */
        return STATUS_PENDING;
    return Answer(ext, Irp);
}

/* Once nothing else is a reason to hold requests, they are answered. */
static VOID Let(PEXTENSION Ext, ULONG Reasons, BOOLEAN Restarts)
{
    KIRQL irql;
    PIRP irp;
    KeAcquireSpinLock(&Ext->Lock, &irql);
    Ext->Holds &= ~Reasons;
    const BOOLEAN goes = Restarts && (!Ext->Holds || Ext->IsGone);
    KeReleaseSpinLock(&Ext->Lock, irql);
    while (goes && (irp = IoCsqRemoveNextIrp(&Ext->Queue, NULL)) != NULL)
        Answer(Ext, irp);
}

static VOID Hold(PEXTENSION Ext, ULONG Reason, BOOLEAN IsGone)
{
    KIRQL irql;
    KeAcquireSpinLock(&Ext->Lock, &irql);
    Ext->Holds |= Reason;
    Ext->IsGone |= IsGone;
    KeReleaseSpinLock(&Ext->Lock, irql);
}

static NTSTATUS HasPower(PDEVICE_OBJECT DeviceObject, PIRP Irp, PVOID Context)
{
    if (Irp->PendingReturned)
        IoMarkIrpPending(Irp);
    if (BUG != 2)
        Let(Context, NO_POWER, BUG != 1);
    IoReleaseRemoveLock(&((PEXTENSION)Context)->Remove, Irp);
    return STATUS_CONTINUE_COMPLETION;
}

static NTSTATUS Pass(PDEVICE_OBJECT DeviceObject, PIRP Irp)
{
    IoSkipCurrentIrpStackLocation(Irp);
    return IoCallDriver(((PEXTENSION)DeviceObject->DeviceExtension)->Lower, Irp);
}

static NTSTATUS Power(PDEVICE_OBJECT DeviceObject, PIRP Irp)
{
    const PEXTENSION ext = DeviceObject->DeviceExtension;
    const PIO_STACK_LOCATION stack = IoGetCurrentIrpStackLocation(Irp);
    if (stack->MinorFunction != IRP_MN_SET_POWER || stack->Parameters.Power.Type != DevicePowerState ||
        !NT_SUCCESS(IoAcquireRemoveLock(&ext->Remove, Irp)))
        return Pass(DeviceObject, Irp);
    if (stack->Parameters.Power.State.DeviceState == PowerDeviceD0) {
        IoCopyCurrentIrpStackLocationToNext(Irp);
        IoSetCompletionRoutine(Irp, HasPower, ext, TRUE, TRUE, TRUE);
        IoMarkIrpPending(Irp);
        PoCallDriver(ext->Lower, Irp);
        return STATUS_PENDING;
    }
    Hold(ext, NO_POWER, FALSE);
    IoReleaseRemoveLock(&ext->Remove, Irp);
    return Pass(DeviceObject, Irp);
}

static NTSTATUS Cleanup(PDEVICE_OBJECT DeviceObject, PIRP Irp)
{
    const PEXTENSION ext = DeviceObject->DeviceExtension;
    PIRP irp;
    while ((irp = IoCsqRemoveNextIrp(&ext->Queue, IoGetCurrentIrpStackLocation(Irp)->FileObject)) != NULL)
        End(ext, irp, STATUS_CANCELLED, 0);
    return Pass(DeviceObject, Irp);
}

static NTSTATUS StartDevice(PEXTENSION Ext, PIRP Irp)
{
    IoForwardIrpSynchronously(Ext->Lower, Irp);
    const NTSTATUS status = Irp->IoStatus.Status;
    if (NT_SUCCESS(status) && BUG != 5)
        Let(Ext, STOPPING | GOING, TRUE);
    IoCompleteRequest(Irp, IO_NO_INCREMENT);
    return status;
}

/* The device goes, and all that is held with it. */
static NTSTATUS RemoveDevice(PDEVICE_OBJECT DeviceObject, PIRP Irp)
{
    const PEXTENSION ext = DeviceObject->DeviceExtension;
    IoAcquireRemoveLock(&ext->Remove, Irp);
    Hold(ext, GOING, TRUE);
    Let(ext, 0, TRUE);
    IoReleaseRemoveLockAndWait(&ext->Remove, Irp);
    Irp->IoStatus.Status = STATUS_SUCCESS;
    const NTSTATUS status = Pass(DeviceObject, Irp);
    IoDetachDevice(ext->Lower);
    IoDeleteDevice(DeviceObject);
    return status;
}

/* The driver below has called it off first. */
static NTSTATUS CallOff(PEXTENSION Ext, PIRP Irp, ULONG Reason, BOOLEAN Restarts)
{
    IoForwardIrpSynchronously(Ext->Lower, Irp);
    if (Restarts)
        Let(Ext, Reason, TRUE);
    const NTSTATUS status = Irp->IoStatus.Status = STATUS_SUCCESS;
    IoCompleteRequest(Irp, IO_NO_INCREMENT);
    return status;
}

static NTSTATUS Pnp(PDEVICE_OBJECT DeviceObject, PIRP Irp)
{
    const PEXTENSION ext = DeviceObject->DeviceExtension;
    switch (IoGetCurrentIrpStackLocation(Irp)->MinorFunction) {
    case IRP_MN_START_DEVICE: return StartDevice(ext, Irp);
    case IRP_MN_QUERY_STOP_DEVICE: Hold(ext, STOPPING, FALSE); break;
    case IRP_MN_QUERY_REMOVE_DEVICE: Hold(ext, GOING, FALSE); break;
    case IRP_MN_CANCEL_STOP_DEVICE: return CallOff(ext, Irp, STOPPING, BUG != 4);
    case IRP_MN_CANCEL_REMOVE_DEVICE: return CallOff(ext, Irp, GOING, BUG != 3);
    case IRP_MN_SURPRISE_REMOVAL:
        Hold(ext, GOING, TRUE);
        Let(ext, 0, TRUE);
        break;
    case IRP_MN_STOP_DEVICE: break;
    case IRP_MN_REMOVE_DEVICE: return RemoveDevice(DeviceObject, Irp);
    default: return Pass(DeviceObject, Irp);
    }
    Irp->IoStatus.Status = STATUS_SUCCESS;
    return Pass(DeviceObject, Irp);
}

static NTSTATUS AddDevice(PDRIVER_OBJECT DriverObject, PDEVICE_OBJECT Pdo)
{
    PDEVICE_OBJECT device;
    const NTSTATUS status = IoCreateDevice(DriverObject, sizeof(EXTENSION), NULL, FILE_DEVICE_UNKNOWN, 0, FALSE, &device);
    if (!NT_SUCCESS(status))
        return status;
    const PEXTENSION ext = device->DeviceExtension;
    KeInitializeSpinLock(&ext->Lock);
    InitializeListHead(&ext->Held);
    IoCsqInitializeEx(&ext->Queue, Insert, Remove, PeekNext, Acquire, Release, CompleteCanceled);
    IoInitializeRemoveLock(&ext->Remove, 'dloH', 0, 0);
    ext->Lower = IoAttachDeviceToDeviceStack(device, Pdo);
    device->Flags |= DO_BUFFERED_IO | DO_POWER_PAGABLE;
    device->Flags &= ~(ULONG)DO_DEVICE_INITIALIZING;
    return STATUS_SUCCESS;
}

static VOID Unload(PDRIVER_OBJECT DriverObject) { UNREFERENCED_PARAMETER(DriverObject); }

NTSTATUS DriverEntry(PDRIVER_OBJECT DriverObject, PUNICODE_STRING RegistryPath)
{
    UNREFERENCED_PARAMETER(RegistryPath);
    for (int i = 0; i <= IRP_MJ_MAXIMUM_FUNCTION; i++)
        DriverObject->MajorFunction[i] = Pass;
    DriverObject->MajorFunction[IRP_MJ_WRITE] = DriverObject->MajorFunction[IRP_MJ_DEVICE_CONTROL] = Take;
    DriverObject->MajorFunction[IRP_MJ_CLEANUP] = Cleanup;
    DriverObject->MajorFunction[IRP_MJ_POWER] = Power;
    DriverObject->MajorFunction[IRP_MJ_PNP] = Pnp;
    DriverObject->DriverExtension->AddDevice = AddDevice;
    DriverObject->DriverUnload = Unload;
    return STATUS_SUCCESS;
}
