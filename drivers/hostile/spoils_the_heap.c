/* A pointer into memory is freed, so that the allocator itself stops the program. */
#pragma GCC diagnostic ignored "-Wfree-nonheap-object"
#include "hostile.h"

static NTSTATUS Read(PDEVICE_OBJECT DeviceObject, PIRP Irp)
{
    PUCHAR volatile memory = malloc(2000);
    free(memory + 8);
    return Complete(Irp, STATUS_SUCCESS);
}

NTSTATUS DriverEntry(PDRIVER_OBJECT DriverObject, PUNICODE_STRING RegistryPath) { return Begin(DriverObject, 0); }
