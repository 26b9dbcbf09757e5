/* A driver that is unloaded while deferred calls are queued: it doesn't wait by KeFlushQueuedDpcs. */
#include "hostile.h"

static KDPC dpcs[64];

static VOID Deferred(PKDPC Dpc, PVOID Context, PVOID Argument1, PVOID Argument2) { KeStallExecutionProcessor(100000); }

static NTSTATUS Read(PDEVICE_OBJECT DeviceObject, PIRP Irp) { return Complete(Irp, STATUS_SUCCESS); }

static VOID UnloadAtOnce(PDRIVER_OBJECT DriverObject)
{
    Unload(DriverObject);
    for (int i = 0; i < 64; i++) {
        KeInitializeDpc(&dpcs[i], Deferred, NULL);
        KeInsertQueueDpc(&dpcs[i], NULL, NULL);
    }
}

NTSTATUS DriverEntry(PDRIVER_OBJECT DriverObject, PUNICODE_STRING RegistryPath)
{
    const NTSTATUS status = Begin(DriverObject, 0);
    DriverObject->DriverUnload = UnloadAtOnce;
    return status;
}
