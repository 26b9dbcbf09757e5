/* allocates.c: mistakes that show where a block ends with its page, where there is no memory, and where a completion
   routine runs at DISPATCH_LEVEL. There is none where RIGHT is defined. */
#include <wdm.h>
#ifdef RIGHT
enum { IS_RIGHT = 1 };
#else
enum { IS_RIGHT = 0 };
#endif
static PDEVICE_OBJECT lower;
static NTSTATUS Complete(PIRP Irp, NTSTATUS Status)
{
    Irp->IoStatus.Status = Status;
    Irp->IoStatus.Information = 0;
    IoCompleteRequest(Irp, IO_NO_INCREMENT);
    return Status;
}
static NTSTATUS Read(PDEVICE_OBJECT DeviceObject, PIRP Irp)
{
    volatile UCHAR *bytes = ExAllocatePoolWithTag(NonPagedPool, 32, 'etyB'), sum = 0;
    if (!bytes)
        return IS_RIGHT ? Complete(Irp, STATUS_INSUFFICIENT_RESOURCES)
            : STATUS_INSUFFICIENT_RESOURCES; /* told: Lost in Read, dispatch */
    for (int i = 0; i < 32 + !IS_RIGHT; i++)
        sum += bytes[i]; /* told: PoolOverrun */
    ExFreePoolWithTag((PVOID)bytes, 'etyB');
    return Complete(Irp, sum ? STATUS_SUCCESS : STATUS_UNSUCCESSFUL);
}
static NTSTATUS Write(PDEVICE_OBJECT DeviceObject, PIRP Irp)
{
    PULONG length = ExAllocatePoolWithTag(NonPagedPool, sizeof *length, 'htgL');
    if (IS_RIGHT && !length)
        return Complete(Irp, STATUS_INSUFFICIENT_RESOURCES);
    *length = IoGetCurrentIrpStackLocation(Irp)->Parameters.Write.Length; /* told: STOPPED */
    ExFreePool(length);
    volatile UCHAR *bytes = MmGetSystemAddressForMdlSafe(Irp->MdlAddress, NormalPagePriority);
    if (IS_RIGHT && !bytes)
        return Complete(Irp, STATUS_INSUFFICIENT_RESOURCES);
    return Complete(Irp, bytes[0] ? STATUS_UNSUCCESSFUL : STATUS_SUCCESS); /* told: STOPPED */
}
static NTSTATUS Control(PDEVICE_OBJECT DeviceObject, PIRP Irp)
{
    HANDLE handle = NULL;
    PVOID event = NULL;
    NTSTATUS status = ZwCreateEvent(&handle, EVENT_ALL_ACCESS, NULL, NotificationEvent, FALSE);
    if (IS_RIGHT && !NT_SUCCESS(status))
        return Complete(Irp, status);
    ObReferenceObjectByHandle(handle, EVENT_ALL_ACCESS, *ExEventObjectType, KernelMode, &event, NULL);
    const UCHAR type = *(volatile UCHAR *)event; /* told: STOPPED */
    ObDereferenceObject(event);
    ZwClose(handle);
    return Complete(Irp, type ? STATUS_SUCCESS : STATUS_UNSUCCESSFUL);
}
static NTSTATUS Flushed(PDEVICE_OBJECT DeviceObject, PIRP Irp, PVOID Context)
{
    LARGE_INTEGER moment = { .QuadPart = -10 };
    if (Irp->PendingReturned)
        IoMarkIrpPending(Irp);
    if (!IS_RIGHT)
        KeDelayExecutionThread(KernelMode, FALSE, &moment); /* told: IrqlTooHigh */
    return STATUS_CONTINUE_COMPLETION;
}
static NTSTATUS Flush(PDEVICE_OBJECT DeviceObject, PIRP Irp)
{
    IoCopyCurrentIrpStackLocationToNext(Irp);
    IoSetCompletionRoutine(Irp, Flushed, NULL, TRUE, TRUE, TRUE);
    return IoCallDriver(lower, Irp);
}
static NTSTATUS Pass(PDEVICE_OBJECT DeviceObject, PIRP Irp)
{
    const PIO_STACK_LOCATION stack = IoGetCurrentIrpStackLocation(Irp);
    const BOOLEAN goes = stack->MajorFunction == IRP_MJ_PNP && stack->MinorFunction == IRP_MN_REMOVE_DEVICE;
    IoSkipCurrentIrpStackLocation(Irp);
    NTSTATUS status = IoCallDriver(lower, Irp);
    if (goes) {
        IoDetachDevice(lower);
        IoDeleteDevice(DeviceObject);
    }
    return status;
}
static NTSTATUS AddDevice(PDRIVER_OBJECT DriverObject, PDEVICE_OBJECT Pdo)
{
    PDEVICE_OBJECT device;
    NTSTATUS status = IoCreateDevice(DriverObject, 0, NULL, FILE_DEVICE_UNKNOWN, 0, FALSE, &device);
    if (!NT_SUCCESS(status))
        return status;
    lower = IoAttachDeviceToDeviceStack(device, Pdo);
    device->Flags |= DO_DIRECT_IO;
    device->Flags &= ~(ULONG)DO_DEVICE_INITIALIZING;
    return STATUS_SUCCESS;
}
NTSTATUS DriverEntry(PDRIVER_OBJECT DriverObject, PUNICODE_STRING RegistryPath)
{
    for (int i = 0; i <= IRP_MJ_MAXIMUM_FUNCTION; i++)
        DriverObject->MajorFunction[i] = Pass;
    DriverObject->MajorFunction[IRP_MJ_READ] = Read;
    DriverObject->MajorFunction[IRP_MJ_WRITE] = Write;
    DriverObject->MajorFunction[IRP_MJ_FLUSH_BUFFERS] = Flush;
    DriverObject->MajorFunction[IRP_MJ_DEVICE_CONTROL] = Control;
    DriverObject->DriverExtension->AddDevice = AddDevice;
    return STATUS_SUCCESS;
}
