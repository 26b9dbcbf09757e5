/* Neither DO_BUFFERED_IO nor DO_DIRECT_IO is set, and a dispatch writes to the system buffer. */
#include "hostile.h"

static NTSTATUS Read(PDEVICE_OBJECT DeviceObject, PIRP Irp)
{
    UNREFERENCED_PARAMETER(DeviceObject);
    if (IoGetCurrentIrpStackLocation(Irp)->Parameters.Read.Length >= 4)
        *(volatile ULONG *)Irp->AssociatedIrp.SystemBuffer = 1;
    return Complete(Irp, STATUS_SUCCESS);
}

NTSTATUS DriverEntry(PDRIVER_OBJECT DriverObject, PUNICODE_STRING RegistryPath)
{
    UNREFERENCED_PARAMETER(RegistryPath);
    const NTSTATUS status = Begin(DriverObject, 0);
#ifdef RIGHT
    DriverObject->DeviceObject->Flags |= DO_BUFFERED_IO;
#endif
    return status;
}
