/* touch_after.c: 0 preemptions, TouchedAfterSend. The dispatch reads the packet after IoCallDriver, where that returned
   STATUS_PENDING. That is told in each order, since it doesn't own the packet any more. For the packet to have ended by then
   it takes two: the dispatch is preempted so that the work item of the device below begins to sleep, and once more, with
   its time coming early, before the read. */
#include "race.h"

typedef struct { PDEVICE_OBJECT Lower; LONG Reads; } EXTENSION, *PEXTENSION;

static NTSTATUS Read(PDEVICE_OBJECT DeviceObject, PIRP Irp)
{
    PEXTENSION ext = DeviceObject->DeviceExtension;
    IoSkipCurrentIrpStackLocation(Irp);
    NTSTATUS status = IoCallDriver(ext->Lower, Irp);
#ifdef RIGHT
    if (status == STATUS_PENDING)
#else
    if (status == STATUS_PENDING && Irp->AssociatedIrp.SystemBuffer) /* the fault */
#endif
        InterlockedIncrement(&ext->Reads);
    return status;
}

static NTSTATUS AddDevice(PDRIVER_OBJECT DriverObject, PDEVICE_OBJECT Pdo)
{
    PDEVICE_OBJECT device;
    NTSTATUS status = IoCreateDevice(DriverObject, sizeof(EXTENSION), NULL, FILE_DEVICE_UNKNOWN, 0, FALSE, &device);
    if (!NT_SUCCESS(status))
        return status;
    device->Flags |= DO_BUFFERED_IO;
    ((PEXTENSION)device->DeviceExtension)->Lower = IoAttachDeviceToDeviceStack(device, Pdo);
    device->Flags &= ~(ULONG)DO_DEVICE_INITIALIZING;
    return STATUS_SUCCESS;
}

NTSTATUS DriverEntry(PDRIVER_OBJECT DriverObject, PUNICODE_STRING RegistryPath)
{
    UNREFERENCED_PARAMETER(RegistryPath);
    DriverObject->MajorFunction[IRP_MJ_READ] = Read;
    return STATUS_SUCCESS;
}

int main(void)
{
    PDEVICE_OBJECT bottom = WdmCreateBottom(TRUE);
    AddDevice(WdmLoadDriver("touch_after", DriverEntry), bottom);
    for (int i = 0; i < ROUNDS; i++)
        WdmSend(IoGetAttachedDevice(bottom), IRP_MJ_READ, 0, 8);
    return WdmFinish();
}
