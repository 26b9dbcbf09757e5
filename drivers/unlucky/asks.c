/* asks.c: a filter over answers.c, which has always answered when IoCallDriver returns. Each mistake shows only where
   that driver pends. There is none where RIGHT is defined. */
#include <wdm.h>

#ifdef RIGHT
enum { IS_RIGHT = 1 };
#else
enum { IS_RIGHT = 0 };
#endif
#define IOCTL_ASKS_STATE CTL_CODE(FILE_DEVICE_UNKNOWN, 0x910, METHOD_BUFFERED, FILE_ANY_ACCESS)

static PDEVICE_OBJECT lower;
static ULONG_PTR written;

static NTSTATUS Complete(PIRP Irp, NTSTATUS Status)
{
    Irp->IoStatus.Status = Status;
    Irp->IoStatus.Information = 0;
    IoCompleteRequest(Irp, IO_NO_INCREMENT);
    return Status;
}

/* Forgets the mark. */
static NTSTATUS ReadDone(PDEVICE_OBJECT DeviceObject, PIRP Irp, PVOID Context)
{ /* told: Mark in ReadDone */
    UNREFERENCED_PARAMETER(DeviceObject), UNREFERENCED_PARAMETER(Context);
    if (IS_RIGHT && Irp->PendingReturned)
        IoMarkIrpPending(Irp);
    return STATUS_CONTINUE_COMPLETION;
}

static NTSTATUS Read(PDEVICE_OBJECT DeviceObject, PIRP Irp)
{
    UNREFERENCED_PARAMETER(DeviceObject);
    IoCopyCurrentIrpStackLocationToNext(Irp);
    IoSetCompletionRoutine(Irp, ReadDone, NULL, TRUE, TRUE, TRUE);
    return IoCallDriver(lower, Irp);
}

static NTSTATUS KeepForMe(PDEVICE_OBJECT DeviceObject, PIRP Irp, PVOID Context)
{
    UNREFERENCED_PARAMETER(DeviceObject), UNREFERENCED_PARAMETER(Irp);
    KeSetEvent(Context, IO_NO_INCREMENT, FALSE);
    return STATUS_MORE_PROCESSING_REQUIRED;
}

/* Counts what was written before it waits, so it reads from a packet that the driver below may still have. */
static NTSTATUS Write(PDEVICE_OBJECT DeviceObject, PIRP Irp)
{
    KEVENT event;
    ULONG_PTR more = 0;
    UNREFERENCED_PARAMETER(DeviceObject);
    KeInitializeEvent(&event, NotificationEvent, FALSE);
    IoCopyCurrentIrpStackLocationToNext(Irp);
    IoSetCompletionRoutine(Irp, KeepForMe, &event, TRUE, TRUE, TRUE);
    const NTSTATUS status = IoCallDriver(lower, Irp);
    if (!IS_RIGHT)
        more = Irp->IoStatus.Information; /* told: TouchedAfterSend */
    if (status == STATUS_PENDING)
        KeWaitForSingleObject(&event, Executive, KernelMode, FALSE, NULL);
    if (IS_RIGHT)
        more = Irp->IoStatus.Information;
    written += more;
    return Complete(Irp, Irp->IoStatus.Status);
}

/* Says that it is done, where it is only pended. */
static NTSTATUS Flush(PDEVICE_OBJECT DeviceObject, PIRP Irp)
{
    UNREFERENCED_PARAMETER(DeviceObject);
    IoSkipCurrentIrpStackLocation(Irp);
    const NTSTATUS status = IoCallDriver(lower, Irp);
    return IS_RIGHT ? status : STATUS_SUCCESS; /* told: Status in Flush, dispatch */
}

/* Returns while its own request writes to the event and the status block in its frame. */
static NTSTATUS Control(PDEVICE_OBJECT DeviceObject, PIRP Irp)
{
    IO_STATUS_BLOCK iosb;
    KEVENT event;
    UNREFERENCED_PARAMETER(DeviceObject);
    KeInitializeEvent(&event, NotificationEvent, FALSE);
    const ULONG code = IOCTL_ASKS_STATE;
    PIRP own = IoBuildDeviceIoControlRequest(code, lower, 0, 0, 0, 0, FALSE, &event, &iosb); /* told: StackBlock */
    if (!own)
        return Complete(Irp, STATUS_INSUFFICIENT_RESOURCES);
    NTSTATUS status = IoCallDriver(lower, own);
    if (status == STATUS_PENDING && IS_RIGHT) {
        KeWaitForSingleObject(&event, Executive, KernelMode, FALSE, NULL);
        status = iosb.Status;
    }
    return Complete(Irp, status == STATUS_PENDING ? STATUS_SUCCESS : status);
}

static NTSTATUS Pass(PDEVICE_OBJECT DeviceObject, PIRP Irp)
{
    const PIO_STACK_LOCATION stack = IoGetCurrentIrpStackLocation(Irp);
    const BOOLEAN goes = stack->MajorFunction == IRP_MJ_PNP && stack->MinorFunction == IRP_MN_REMOVE_DEVICE;
    IoSkipCurrentIrpStackLocation(Irp);
    const NTSTATUS status = IoCallDriver(lower, Irp);
    if (goes) {
        IoDetachDevice(lower);
        IoDeleteDevice(DeviceObject);
    }
    return status;
}

static NTSTATUS AddDevice(PDRIVER_OBJECT DriverObject, PDEVICE_OBJECT Pdo)
{
    PDEVICE_OBJECT device;
    const NTSTATUS status = IoCreateDevice(DriverObject, 0, NULL, FILE_DEVICE_UNKNOWN, 0, FALSE, &device);
    if (!NT_SUCCESS(status))
        return status;
    lower = IoAttachDeviceToDeviceStack(device, Pdo);
    device->Flags |= DO_BUFFERED_IO;
    device->Flags &= ~(ULONG)DO_DEVICE_INITIALIZING;
    return STATUS_SUCCESS;
}

NTSTATUS DriverEntry(PDRIVER_OBJECT DriverObject, PUNICODE_STRING RegistryPath)
{
    UNREFERENCED_PARAMETER(RegistryPath);
    for (int i = 0; i <= IRP_MJ_MAXIMUM_FUNCTION; i++)
        DriverObject->MajorFunction[i] = Pass;
    DriverObject->MajorFunction[IRP_MJ_READ] = Read;
    DriverObject->MajorFunction[IRP_MJ_WRITE] = Write;
    DriverObject->MajorFunction[IRP_MJ_FLUSH_BUFFERS] = Flush;
    DriverObject->MajorFunction[IRP_MJ_DEVICE_CONTROL] = Control;
    DriverObject->DriverExtension->AddDevice = AddDevice;
    return STATUS_SUCCESS;
}
