/* A driver that forks: a second process would go on with the run. */
#include "hostile.h"
#include <unistd.h>

static NTSTATUS Read(PDEVICE_OBJECT DeviceObject, PIRP Irp)
{
    fork();
    return Any(DeviceObject, Irp);
}

NTSTATUS DriverEntry(PDRIVER_OBJECT DriverObject, PUNICODE_STRING RegistryPath) { return Begin(DriverObject, 0); }
