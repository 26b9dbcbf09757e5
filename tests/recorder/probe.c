/* probe.c: ordinary WDM source. */
#include "probe.h"

static NTSTATUS NTAPI Routine(PDEVICE_OBJECT DeviceObject, PIRP Irp, PVOID Context)
{
    const PROBE *x = Context;
    UNREFERENCED_PARAMETER(DeviceObject);
    if (x->Routine == KEEPS)
        return STATUS_MORE_PROCESSING_REQUIRED;
    if (x->Routine == MENDS) {
        Irp->IoStatus.Status = STATUS_SUCCESS;
        Irp->IoStatus.Information = 9;
    }
    if (x->Routine != FORGETS && Irp->PendingReturned)
        IoMarkIrpPending(Irp);
    return STATUS_CONTINUE_COMPLETION;
}

static NTSTATUS Complete(PIRP Irp, NTSTATUS Status, ULONG Information)
{
    Irp->IoStatus.Status = Status;
    Irp->IoStatus.Information = Information;
    IoCompleteRequest(Irp, IO_NO_INCREMENT);
    return Status;
}

static VOID NTAPI CancelFinishes(PDEVICE_OBJECT DeviceObject, PIRP Irp)
{
    ((PPROBE)DeviceObject->DeviceExtension)->Held = NULL;
    IoReleaseCancelSpinLock(Irp->CancelIrql);
    Complete(Irp, STATUS_CANCELLED, 0);
}

static VOID NTAPI CancelLeaves(PDEVICE_OBJECT DeviceObject, PIRP Irp)
{
    UNREFERENCED_PARAMETER(DeviceObject);
    IoReleaseCancelSpinLock(Irp->CancelIrql);
}

static NTSTATUS NTAPI OwnDone(PDEVICE_OBJECT DeviceObject, PIRP Irp, PVOID Context)
{
    UNREFERENCED_PARAMETER(DeviceObject);
    *(NTSTATUS *)Context = Irp->IoStatus.Status;
    IoFreeIrp(Irp);
    return STATUS_MORE_PROCESSING_REQUIRED;
}

static NTSTATUS Hold(PPROBE x, PIRP Irp)
{
    if (x->Mode == HOLDS)
        IoMarkIrpPending(Irp);
    if (x->Cancel != NO_CANCEL) {
        IoSetCancelRoutine(Irp, x->Cancel == CANCEL_FINISHES ? CancelFinishes : CancelLeaves);
        if (Irp->Cancel && IoSetCancelRoutine(Irp, NULL)) {
            Complete(Irp, STATUS_CANCELLED, 0);
            return STATUS_PENDING;
        }
    }
    x->Held = Irp;
    return STATUS_PENDING;
}

static NTSTATUS Skip(PPROBE x, PIRP Irp)
{
    IoSkipCurrentIrpStackLocation(Irp);
    if (x->Mode == SKIPS_WITH_ROUTINE)
        IoSetCompletionRoutine(Irp, Routine, x, TRUE, TRUE, TRUE);
    return IoCallDriver(x->Lower, Irp);
}

static NTSTATUS Forward(PPROBE x, PIRP Irp)
{
    if (x->Mode == FORWARDS_PENDING)
        IoMarkIrpPending(Irp);
    IoCopyCurrentIrpStackLocationToNext(Irp);
    if (x->Routine != NO_ROUTINE)
        IoSetCompletionRoutine(Irp, Routine, x, x->OnSuccess, x->OnError, x->OnCancel);
    NTSTATUS status = IoCallDriver(x->Lower, Irp);
    if (x->Mode == FORWARDS_AND_WAITS) { /* on one thread the driver below has finished by now */
        status = Irp->IoStatus.Status;
        IoCompleteRequest(Irp, IO_NO_INCREMENT);
    }
    return x->Mode == FORWARDS_PENDING ? STATUS_PENDING : status;
}

static NTSTATUS SendOwn(PPROBE x, PIRP Irp)
{
    NTSTATUS status = STATUS_UNSUCCESSFUL;
    PIRP own = IoAllocateIrp(x->Lower->StackSize, FALSE);
    IoGetNextIrpStackLocation(own)->MajorFunction = IRP_MJ_READ;
    IoGetNextIrpStackLocation(own)->Parameters.Read.Length = 4;
    IoSetCompletionRoutine(own, OwnDone, &status, TRUE, TRUE, TRUE);
    IoCallDriver(x->Lower, own);
    return Complete(Irp, status, 4);
}

static NTSTATUS NTAPI Dispatch(PDEVICE_OBJECT DeviceObject, PIRP Irp)
{
    PPROBE x = DeviceObject->DeviceExtension;
    NTSTATUS status;
    switch (x->Mode) {
    case HOLDS:
    case HOLDS_UNMARKED:
        return Hold(x, Irp);
    case SKIPS:
    case SKIPS_WITH_ROUTINE:
        return Skip(x, Irp);
    case FORWARDS:
    case FORWARDS_PENDING:
    case FORWARDS_AND_WAITS:
        return Forward(x, Irp);
    case SENDS_ITS_OWN:
        return SendOwn(x, Irp);
    default:
        status = Complete(Irp, x->Status, x->Information);
        if (x->Mode == FINISHES_TWICE)
            IoCompleteRequest(Irp, IO_NO_INCREMENT);
        return status;
    }
}

VOID ProbeComplete(PDEVICE_OBJECT Device, NTSTATUS Status, ULONG Information)
{
    PPROBE x = Device->DeviceExtension;
    if (x->Cancel != NO_CANCEL)
        IoSetCancelRoutine(x->Held, NULL);
    Complete(x->Held, Status, Information);
}

PDEVICE_OBJECT ProbeAddDevice(PDRIVER_OBJECT DriverObject, PDEVICE_OBJECT Pdo)
{
    PDEVICE_OBJECT device;
    if (!NT_SUCCESS(IoCreateDevice(DriverObject, sizeof(PROBE), NULL, FILE_DEVICE_UNKNOWN, 0, FALSE, &device)))
        return NULL;
    PPROBE x = device->DeviceExtension;
    x->Lower = Pdo ? IoAttachDeviceToDeviceStack(device, Pdo) : NULL;
    x->OnSuccess = x->OnError = x->OnCancel = TRUE;
    device->Flags &= ~DO_DEVICE_INITIALIZING;
    return device;
}

NTSTATUS NTAPI ProbeDriverEntry(PDRIVER_OBJECT DriverObject, PUNICODE_STRING RegistryPath)
{
    UNREFERENCED_PARAMETER(RegistryPath);
    IrpxWrapDriver(DriverObject);
    DriverObject->MajorFunction[IRP_MJ_READ] = Dispatch;
    DriverObject->MajorFunction[IRP_MJ_WRITE] = Dispatch;
    return STATUS_SUCCESS;
}
