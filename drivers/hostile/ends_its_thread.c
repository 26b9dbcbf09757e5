/* A dispatch that ends the thread it runs on. */
#include <pthread.h>
#include "hostile.h"

static NTSTATUS Read(PDEVICE_OBJECT DeviceObject, PIRP Irp)
{
    if (Irp)
        pthread_exit(NULL);
    return STATUS_SUCCESS;
}

NTSTATUS DriverEntry(PDRIVER_OBJECT DriverObject, PUNICODE_STRING RegistryPath) { return Begin(DriverObject, 0); }
