/* A driver that stops its process by a signal. */
#include "hostile.h"
#include <signal.h>

static NTSTATUS Read(PDEVICE_OBJECT DeviceObject, PIRP Irp)
{
    raise(SIGSTOP);
    return Any(DeviceObject, Irp);
}

NTSTATUS DriverEntry(PDRIVER_OBJECT DriverObject, PUNICODE_STRING RegistryPath) { return Begin(DriverObject, 0); }
