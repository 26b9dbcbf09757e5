/* A loop that prints. */
#include "hostile.h"

static NTSTATUS Read(PDEVICE_OBJECT DeviceObject, PIRP Irp)
{
    for (ULONG i = 0; Irp; i++)
        DbgPrint("again and again and again and again and again and again and again: %u\n", i);
    return STATUS_SUCCESS;
}

NTSTATUS DriverEntry(PDRIVER_OBJECT DriverObject, PUNICODE_STRING RegistryPath) { return Begin(DriverObject, 0); }
