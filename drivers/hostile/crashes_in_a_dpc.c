/* A deferred call that writes through a null pointer. */
#include "hostile.h"

static PULONG nothing;
static KDPC dpc;

static VOID Deferred(PKDPC Dpc, PVOID Context, PVOID Argument1, PVOID Argument2)
{
    *nothing = Context != NULL;
}

static NTSTATUS Read(PDEVICE_OBJECT DeviceObject, PIRP Irp)
{
    KeInitializeDpc(&dpc, Deferred, NULL);
    KeInsertQueueDpc(&dpc, NULL, NULL);
    KeFlushQueuedDpcs();
    return Complete(Irp, STATUS_SUCCESS);
}

NTSTATUS DriverEntry(PDRIVER_OBJECT DriverObject, PUNICODE_STRING RegistryPath) { return Begin(DriverObject, 0); }
