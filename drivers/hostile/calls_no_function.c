/* A pointer to a function that points to none. */
#include "hostile.h"

static NTSTATUS (*volatile nowhere)(PIRP) = (NTSTATUS (*)(PIRP))0x10;

static NTSTATUS Read(PDEVICE_OBJECT DeviceObject, PIRP Irp)
{
    return Complete(Irp, nowhere(Irp));
}

NTSTATUS DriverEntry(PDRIVER_OBJECT DriverObject, PUNICODE_STRING RegistryPath) { return Begin(DriverObject, 0); }
