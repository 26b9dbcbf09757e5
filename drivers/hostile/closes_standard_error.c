/* A driver that closes all descriptors, and then completes twice. */
#include <unistd.h>
#include "hostile.h"

static NTSTATUS Read(PDEVICE_OBJECT DeviceObject, PIRP Irp)
{
    for (int i = 0; i < 64; i++)
        close(i);
    Complete(Irp, STATUS_SUCCESS);
    return Complete(Irp, STATUS_SUCCESS);
}

NTSTATUS DriverEntry(PDRIVER_OBJECT DriverObject, PUNICODE_STRING RegistryPath) { return Begin(DriverObject, 0); }
