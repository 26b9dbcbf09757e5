/* A division by a length that is zero. */
#include "hostile.h"

static volatile ULONG zero;

static NTSTATUS Read(PDEVICE_OBJECT DeviceObject, PIRP Irp)
{
    const ULONG share = 100 / zero;
    return Complete(Irp, (NTSTATUS)share);
}

NTSTATUS DriverEntry(PDRIVER_OBJECT DriverObject, PUNICODE_STRING RegistryPath) { return Begin(DriverObject, 0); }
