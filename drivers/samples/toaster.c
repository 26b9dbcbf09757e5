/* toaster.c: a function driver in WDM style: a remove lock, a start that forwards and waits, a packet of its own. */
#include <wdm.h>

typedef struct {
    PDEVICE_OBJECT Self, Lower;
    IO_REMOVE_LOCK RemoveLock;
    BOOLEAN Started;
} FDO_EXTENSION, *PFDO_EXTENSION;

DRIVER_INITIALIZE DriverEntry;
static DRIVER_ADD_DEVICE ToasterAddDevice;
static DRIVER_DISPATCH ToasterPnp, ToasterPower, ToasterSystemControl, ToasterReadWrite, ToasterControl;
static IO_COMPLETION_ROUTINE ToasterStarted, ToasterDone, ToasterControlDone;

NTSTATUS DriverEntry(PDRIVER_OBJECT DriverObject, PUNICODE_STRING RegistryPath)
{
    UNREFERENCED_PARAMETER(RegistryPath);
    DriverObject->DriverExtension->AddDevice = ToasterAddDevice;
    DriverObject->MajorFunction[IRP_MJ_PNP] = ToasterPnp;
    DriverObject->MajorFunction[IRP_MJ_POWER] = ToasterPower;
    DriverObject->MajorFunction[IRP_MJ_SYSTEM_CONTROL] = ToasterSystemControl;
    DriverObject->MajorFunction[IRP_MJ_READ] = ToasterReadWrite;
    DriverObject->MajorFunction[IRP_MJ_WRITE] = ToasterReadWrite;
    DriverObject->MajorFunction[IRP_MJ_DEVICE_CONTROL] = ToasterControl;
    return STATUS_SUCCESS;
}

static NTSTATUS ToasterAddDevice(PDRIVER_OBJECT DriverObject, PDEVICE_OBJECT Pdo)
{
    PDEVICE_OBJECT fdo;
    NTSTATUS status = IoCreateDevice(DriverObject, sizeof(FDO_EXTENSION), NULL, FILE_DEVICE_UNKNOWN, 0, FALSE, &fdo);
    if (!NT_SUCCESS(status))
        return status;
    PFDO_EXTENSION ext = fdo->DeviceExtension;
    ext->Self = fdo;
    IoInitializeRemoveLock(&ext->RemoveLock, 'tsoT', 0, 0);
    ext->Lower = IoAttachDeviceToDeviceStack(fdo, Pdo);
    if (ext->Lower == NULL) {
        IoDeleteDevice(fdo);
        return STATUS_NO_SUCH_DEVICE;
    }
    fdo->Flags |= DO_BUFFERED_IO;
    fdo->Flags &= ~(ULONG)DO_DEVICE_INITIALIZING;
    return STATUS_SUCCESS;
}

static NTSTATUS ToasterFail(PIRP Irp, NTSTATUS Status)
{
    Irp->IoStatus.Status = Status;
    Irp->IoStatus.Information = 0;
    IoCompleteRequest(Irp, IO_NO_INCREMENT);
    return Status;
}

static NTSTATUS ToasterPnp(PDEVICE_OBJECT DeviceObject, PIRP Irp)
{
    PFDO_EXTENSION ext = DeviceObject->DeviceExtension;
    PIO_STACK_LOCATION stack = IoGetCurrentIrpStackLocation(Irp);
    KEVENT event;
    NTSTATUS status = IoAcquireRemoveLock(&ext->RemoveLock, Irp);
    if (!NT_SUCCESS(status))
        return ToasterFail(Irp, status);
    switch (stack->MinorFunction) {
    case IRP_MN_START_DEVICE: /* the drivers below first: forward, wait, complete */
        KeInitializeEvent(&event, NotificationEvent, FALSE);
        IoCopyCurrentIrpStackLocationToNext(Irp);
        IoSetCompletionRoutine(Irp, ToasterStarted, &event, TRUE, TRUE, TRUE);
        status = IoCallDriver(ext->Lower, Irp);
        if (status == STATUS_PENDING) {
            KeWaitForSingleObject(&event, Executive, KernelMode, FALSE, NULL);
            status = Irp->IoStatus.Status;
        }
        if (NT_SUCCESS(status))
            ext->Started = TRUE;
        Irp->IoStatus.Status = status;
        IoCompleteRequest(Irp, IO_NO_INCREMENT);
        IoReleaseRemoveLock(&ext->RemoveLock, Irp);
        return status;
    case IRP_MN_REMOVE_DEVICE:
        IoReleaseRemoveLockAndWait(&ext->RemoveLock, Irp);
        Irp->IoStatus.Status = STATUS_SUCCESS;
        IoSkipCurrentIrpStackLocation(Irp);
        status = IoCallDriver(ext->Lower, Irp);
        IoDetachDevice(ext->Lower);
        IoDeleteDevice(DeviceObject);
        return status;
    default:
        IoSkipCurrentIrpStackLocation(Irp);
        status = IoCallDriver(ext->Lower, Irp);
        IoReleaseRemoveLock(&ext->RemoveLock, Irp);
        return status;
    }
}

static NTSTATUS ToasterStarted(PDEVICE_OBJECT DeviceObject, PIRP Irp, PVOID Context)
{
    UNREFERENCED_PARAMETER(DeviceObject);
    if (Irp->PendingReturned)
        KeSetEvent((PKEVENT)Context, IO_NO_INCREMENT, FALSE);
    return STATUS_MORE_PROCESSING_REQUIRED;
}

static NTSTATUS ToasterPower(PDEVICE_OBJECT DeviceObject, PIRP Irp)
{
    PFDO_EXTENSION ext = DeviceObject->DeviceExtension;
    NTSTATUS status = IoAcquireRemoveLock(&ext->RemoveLock, Irp);
    PoStartNextPowerIrp(Irp);
    if (!NT_SUCCESS(status))
        return ToasterFail(Irp, status);
    IoSkipCurrentIrpStackLocation(Irp);
    status = PoCallDriver(ext->Lower, Irp);
    IoReleaseRemoveLock(&ext->RemoveLock, Irp);
    return status;
}

static NTSTATUS ToasterSystemControl(PDEVICE_OBJECT DeviceObject, PIRP Irp)
{
    IoSkipCurrentIrpStackLocation(Irp);
    return IoCallDriver(((PFDO_EXTENSION)DeviceObject->DeviceExtension)->Lower, Irp);
}

/* Reads and writes go down; the routine gives the remove lock back. */
static NTSTATUS ToasterReadWrite(PDEVICE_OBJECT DeviceObject, PIRP Irp)
{
    PFDO_EXTENSION ext = DeviceObject->DeviceExtension;
    NTSTATUS status = IoAcquireRemoveLock(&ext->RemoveLock, Irp);
    if (!NT_SUCCESS(status))
        return ToasterFail(Irp, status);
    IoMarkIrpPending(Irp);
    IoCopyCurrentIrpStackLocationToNext(Irp);
    IoSetCompletionRoutine(Irp, ToasterDone, ext, TRUE, TRUE, TRUE);
    status = IoCallDriver(ext->Lower, Irp);
    return STATUS_PENDING;
}

static NTSTATUS ToasterDone(PDEVICE_OBJECT DeviceObject, PIRP Irp, PVOID Context)
{
    PFDO_EXTENSION ext = Context;
    UNREFERENCED_PARAMETER(DeviceObject);
    if (Irp->PendingReturned)
        IoMarkIrpPending(Irp);
    IoReleaseRemoveLock(&ext->RemoveLock, Irp);
    return STATUS_CONTINUE_COMPLETION;
}

/* A control request is held, and a read of the driver's own is sent down for it. */
static NTSTATUS ToasterControl(PDEVICE_OBJECT DeviceObject, PIRP Irp)
{
    PFDO_EXTENSION ext = DeviceObject->DeviceExtension;
    NTSTATUS status = IoAcquireRemoveLock(&ext->RemoveLock, Irp);
    if (!NT_SUCCESS(status))
        return ToasterFail(Irp, status);
    PIRP read = IoAllocateIrp(ext->Lower->StackSize, FALSE);
    if (read == NULL) {
        IoReleaseRemoveLock(&ext->RemoveLock, Irp);
        return ToasterFail(Irp, STATUS_INSUFFICIENT_RESOURCES);
    }
    IoMarkIrpPending(Irp);
    Irp->Tail.Overlay.DriverContext[0] = ext;
    PIO_STACK_LOCATION next = IoGetNextIrpStackLocation(read);
    next->MajorFunction = IRP_MJ_WRITE;
    next->Parameters.Write.Length = 4;
    IoSetCompletionRoutine(read, ToasterControlDone, Irp, TRUE, TRUE, TRUE);
    IoCallDriver(ext->Lower, read);
    return STATUS_PENDING;
}

static NTSTATUS ToasterControlDone(PDEVICE_OBJECT DeviceObject, PIRP Irp, PVOID Context)
{
    PIRP control = Context;
    PFDO_EXTENSION ext = control->Tail.Overlay.DriverContext[0];
    UNREFERENCED_PARAMETER(DeviceObject);
    control->IoStatus.Status = Irp->IoStatus.Status;
    control->IoStatus.Information = 0; /* what was written down there isn't for its buffer */
    IoFreeIrp(Irp);
    IoCompleteRequest(control, IO_NO_INCREMENT);
    IoReleaseRemoveLock(&ext->RemoveLock, control);
    return STATUS_MORE_PROCESSING_REQUIRED;
}
