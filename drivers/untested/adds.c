/* adds.c: a device of its own that counts the bytes which it was asked for. Where BUG is 1 nothing orders two requests that
   count at once. */
#include <wdm.h>

typedef struct { LONG Bytes; } EXTENSION, *PEXTENSION;

static NTSTATUS Count(PDEVICE_OBJECT DeviceObject, PIRP Irp)
{
    PEXTENSION ext = DeviceObject->DeviceExtension;
    const LONG length = (LONG)IoGetCurrentIrpStackLocation(Irp)->Parameters.Read.Length;
#if BUG == 1
    ext->Bytes += length; /* told: LostUpdate */
#else
    InterlockedExchangeAdd(&ext->Bytes, length);
#endif
    Irp->IoStatus.Status = STATUS_SUCCESS;
    Irp->IoStatus.Information = 0;
    IoCompleteRequest(Irp, IO_NO_INCREMENT);
    return STATUS_SUCCESS;
}

NTSTATUS DriverEntry(PDRIVER_OBJECT DriverObject, PUNICODE_STRING RegistryPath)
{
    PDEVICE_OBJECT device;
    UNREFERENCED_PARAMETER(RegistryPath);
    DriverObject->MajorFunction[IRP_MJ_READ] = Count;
    DriverObject->MajorFunction[IRP_MJ_WRITE] = Count;
    return IoCreateDevice(DriverObject, sizeof(EXTENSION), NULL, FILE_DEVICE_UNKNOWN, 0, FALSE, &device);
}
