/* A loop that waits for a word which nobody writes. */
#include "hostile.h"

static volatile LONG never;

static NTSTATUS Read(PDEVICE_OBJECT DeviceObject, PIRP Irp)
{
    while (!never)
        ;
    return Complete(Irp, STATUS_SUCCESS);
}

NTSTATUS DriverEntry(PDRIVER_OBJECT DriverObject, PUNICODE_STRING RegistryPath) { return Begin(DriverObject, 0); }
