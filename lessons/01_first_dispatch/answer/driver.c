/* A device that answers each request at once.
 *
 * Why. A packet is completed by IoCompleteRequest and by nothing else: the status in the packet and the return
 * value end no request. Only that call wakes whoever waits for the packet. Fill in IoStatus first, since after the
 * call the packet isn't yours any more: the return value comes from a constant or a local variable, never from the
 * packet. */
#include <wdm.h>

static NTSTATUS Answer(PDEVICE_OBJECT DeviceObject, PIRP Irp)
{
    UNREFERENCED_PARAMETER(DeviceObject);
    Irp->IoStatus.Status = STATUS_SUCCESS;
    Irp->IoStatus.Information = 0;
    IoCompleteRequest(Irp, IO_NO_INCREMENT);
    return STATUS_SUCCESS;
}

NTSTATUS DriverEntry(PDRIVER_OBJECT DriverObject, PUNICODE_STRING RegistryPath)
{
    PDEVICE_OBJECT device;
    UNREFERENCED_PARAMETER(RegistryPath);
    for (int i = 0; i <= IRP_MJ_MAXIMUM_FUNCTION; i++)
        DriverObject->MajorFunction[i] = Answer;
    return IoCreateDevice(DriverObject, 0, NULL, FILE_DEVICE_NULL, 0, FALSE, &device);
}
