/* A driver that completes a read and deletes its device in the dispatch. */
#include "hostile.h"

static NTSTATUS Read(PDEVICE_OBJECT DeviceObject, PIRP Irp)
{
    const NTSTATUS status = Any(DeviceObject, Irp);
    IoDeleteDevice(DeviceObject);
    return status;
}

NTSTATUS DriverEntry(PDRIVER_OBJECT DriverObject, PUNICODE_STRING RegistryPath) { return Begin(DriverObject, 0); }
