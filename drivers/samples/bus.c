/* bus.c: a bus driver in WDM style. Its device is the bottom of the stack. Reads wait in a queue, can be cancelled. */
#include <wdm.h>

typedef struct {
    KSPIN_LOCK Lock;
    LIST_ENTRY Reads;
} PDO_EXTENSION, *PPDO_EXTENSION;

DRIVER_INITIALIZE DriverEntry;
static DRIVER_DISPATCH BusPnp, BusPower, BusRead, BusWrite;
static DRIVER_CANCEL BusCancelRead;

static NTSTATUS BusComplete(PIRP Irp, NTSTATUS Status, ULONG_PTR Information)
{
    Irp->IoStatus.Status = Status;
    Irp->IoStatus.Information = Information;
    IoCompleteRequest(Irp, IO_NO_INCREMENT);
    return Status;
}

NTSTATUS DriverEntry(PDRIVER_OBJECT DriverObject, PUNICODE_STRING RegistryPath)
{
    UNREFERENCED_PARAMETER(RegistryPath);
    DriverObject->MajorFunction[IRP_MJ_PNP] = BusPnp;
    DriverObject->MajorFunction[IRP_MJ_POWER] = BusPower;
    DriverObject->MajorFunction[IRP_MJ_READ] = BusRead;
    DriverObject->MajorFunction[IRP_MJ_WRITE] = BusWrite;
    return STATUS_SUCCESS;
}

/* What enumeration does. */
NTSTATUS BusCreatePdo(PDRIVER_OBJECT DriverObject, PDEVICE_OBJECT *Pdo)
{
    NTSTATUS status = IoCreateDevice(DriverObject, sizeof(PDO_EXTENSION), NULL, FILE_DEVICE_BUS_EXTENDER, 0, FALSE,
                                     Pdo);
    if (NT_SUCCESS(status)) {
        PPDO_EXTENSION ext = (*Pdo)->DeviceExtension;
        KeInitializeSpinLock(&ext->Lock);
        InitializeListHead(&ext->Reads);
        (*Pdo)->Flags &= ~(ULONG)DO_DEVICE_INITIALIZING;
    }
    return status;
}

static NTSTATUS BusPnp(PDEVICE_OBJECT DeviceObject, PIRP Irp)
{
    PIO_STACK_LOCATION stack = IoGetCurrentIrpStackLocation(Irp);
    UNREFERENCED_PARAMETER(DeviceObject);
    switch (stack->MinorFunction) {
    case IRP_MN_START_DEVICE:
    case IRP_MN_REMOVE_DEVICE:
        return BusComplete(Irp, STATUS_SUCCESS, 0);
    default:
        return BusComplete(Irp, Irp->IoStatus.Status, Irp->IoStatus.Information);
    }
}

static NTSTATUS BusPower(PDEVICE_OBJECT DeviceObject, PIRP Irp)
{
    UNREFERENCED_PARAMETER(DeviceObject);
    PoStartNextPowerIrp(Irp);
    return BusComplete(Irp, STATUS_SUCCESS, 0);
}

static NTSTATUS BusWrite(PDEVICE_OBJECT DeviceObject, PIRP Irp)
{
    PIO_STACK_LOCATION stack = IoGetCurrentIrpStackLocation(Irp);
    ULONG length = stack->Parameters.Write.Length;
    UNREFERENCED_PARAMETER(DeviceObject);
    if (length == 0)
        return BusComplete(Irp, STATUS_INVALID_PARAMETER, 0);
    return BusComplete(Irp, STATUS_SUCCESS, length);
}

static NTSTATUS BusRead(PDEVICE_OBJECT DeviceObject, PIRP Irp)
{
    PPDO_EXTENSION ext = DeviceObject->DeviceExtension;
    KIRQL irql;
    KeAcquireSpinLock(&ext->Lock, &irql);
    IoSetCancelRoutine(Irp, BusCancelRead);
    if (Irp->Cancel && IoSetCancelRoutine(Irp, NULL) != NULL) {
        KeReleaseSpinLock(&ext->Lock, irql);
        return BusComplete(Irp, STATUS_CANCELLED, 0);
    }
    IoMarkIrpPending(Irp);
    InsertTailList(&ext->Reads, &Irp->Tail.Overlay.ListEntry);
    KeReleaseSpinLock(&ext->Lock, irql);
    return STATUS_PENDING;
}

static VOID BusCancelRead(PDEVICE_OBJECT DeviceObject, PIRP Irp)
{
    PPDO_EXTENSION ext = DeviceObject->DeviceExtension;
    KIRQL irql;
    IoReleaseCancelSpinLock(Irp->CancelIrql);
    KeAcquireSpinLock(&ext->Lock, &irql);
    RemoveEntryList(&Irp->Tail.Overlay.ListEntry);
    KeReleaseSpinLock(&ext->Lock, irql);
    BusComplete(Irp, STATUS_CANCELLED, 0);
}

/* What the interrupt would do: the oldest read gets its data. */
BOOLEAN BusDataArrived(PDEVICE_OBJECT Pdo, ULONG Bytes)
{
    PPDO_EXTENSION ext = Pdo->DeviceExtension;
    PIRP irp = NULL;
    KIRQL irql;
    KeAcquireSpinLock(&ext->Lock, &irql);
    for (PLIST_ENTRY e = ext->Reads.Flink; e != &ext->Reads; e = e->Flink) {
        PIRP next = CONTAINING_RECORD(e, IRP, Tail.Overlay.ListEntry);
        if (IoSetCancelRoutine(next, NULL) != NULL) { /* else its cancel routine runs, and waits for the lock */
            irp = next;
            RemoveEntryList(e);
            break;
        }
    }
    KeReleaseSpinLock(&ext->Lock, irql);
    if (irp == NULL)
        return FALSE;
    BusComplete(irp, STATUS_SUCCESS, min(Bytes, IoGetCurrentIrpStackLocation(irp)->Parameters.Read.Length));
    return TRUE;
}
