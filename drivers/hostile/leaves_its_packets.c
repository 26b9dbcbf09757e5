/* A driver that is never unloaded, allocates a packet for each read, and frees none. Where RIGHT is defined it sends its one
   packet again. */
#include "hostile.h"

static PDEVICE_OBJECT lower;
static PIRP kept;

static NTSTATUS Ended(PDEVICE_OBJECT DeviceObject, PIRP Irp, PVOID Context)
{
    KeSetEvent(Context, IO_NO_INCREMENT, FALSE);
    return STATUS_MORE_PROCESSING_REQUIRED;
}

static NTSTATUS Read(PDEVICE_OBJECT DeviceObject, PIRP Irp)
{
    KEVENT ended;
    if (kept)
        IoReuseIrp(kept, STATUS_SUCCESS);
    else
        kept = IoAllocateIrp(lower->StackSize, FALSE);
    KeInitializeEvent(&ended, NotificationEvent, FALSE);
    IoGetNextIrpStackLocation(kept)->MajorFunction = IRP_MJ_FLUSH_BUFFERS;
    IoSetCompletionRoutine(kept, Ended, &ended, TRUE, TRUE, TRUE);
    if (IoCallDriver(lower, kept) == STATUS_PENDING)
        KeWaitForSingleObject(&ended, Executive, KernelMode, FALSE, NULL);
#ifndef RIGHT
    kept = NULL;
#endif
    return Complete(Irp, STATUS_SUCCESS);
}

static NTSTATUS Flush(PDEVICE_OBJECT DeviceObject, PIRP Irp) { return Any(DeviceObject, Irp); }

NTSTATUS DriverEntry(PDRIVER_OBJECT DriverObject, PUNICODE_STRING RegistryPath)
{
    NTSTATUS status = Begin(DriverObject, 0);
    lower = DriverObject->DeviceObject; /* the older one, which is below nothing */
    DriverObject->MajorFunction[IRP_MJ_FLUSH_BUFFERS] = Flush;
    DriverObject->DriverUnload = NULL;
    return status;
}
