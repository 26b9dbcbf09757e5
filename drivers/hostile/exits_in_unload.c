/* A driver that ends the process with status 0 when it is unloaded. */
#include "hostile.h"

static NTSTATUS Read(PDEVICE_OBJECT DeviceObject, PIRP Irp) { return Any(DeviceObject, Irp); }

static VOID Leave(PDRIVER_OBJECT DriverObject)
{
    Unload(DriverObject);
    exit(0);
}

NTSTATUS DriverEntry(PDRIVER_OBJECT DriverObject, PUNICODE_STRING RegistryPath)
{
    const NTSTATUS status = Begin(DriverObject, 0);
    DriverObject->DriverUnload = Leave;
    return status;
}
