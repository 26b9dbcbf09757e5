/* A table of dispatches with a pointer to no function. */
#include "hostile.h"

static NTSTATUS Read(PDEVICE_OBJECT DeviceObject, PIRP Irp) { return Any(DeviceObject, Irp); }

NTSTATUS DriverEntry(PDRIVER_OBJECT DriverObject, PUNICODE_STRING RegistryPath)
{
    const NTSTATUS status = Begin(DriverObject, 0);
    DriverObject->MajorFunction[IRP_MJ_WRITE] = (PDRIVER_DISPATCH)0x1234;
    return status;
}
