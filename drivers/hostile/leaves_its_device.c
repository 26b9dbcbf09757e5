/* A driver that is unloaded, and leaves its device. */
#include "hostile.h"

static NTSTATUS Read(PDEVICE_OBJECT DeviceObject, PIRP Irp) { return Any(DeviceObject, Irp); }

static VOID Nothing(PDRIVER_OBJECT DriverObject) { }

NTSTATUS DriverEntry(PDRIVER_OBJECT DriverObject, PUNICODE_STRING RegistryPath)
{
    const NTSTATUS status = Begin(DriverObject, 0);
    DriverObject->DriverUnload = Nothing;
    return status;
}
