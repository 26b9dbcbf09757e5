/* A driver that is unloaded while its timer is set. */
#include "hostile.h"

static KTIMER timer;
static KDPC dpc;

static VOID Deferred(PKDPC Dpc, PVOID Context, PVOID Argument1, PVOID Argument2) { }

static NTSTATUS Read(PDEVICE_OBJECT DeviceObject, PIRP Irp)
{
    LARGE_INTEGER due = { .QuadPart = -600000000 };
    KeInitializeDpc(&dpc, Deferred, NULL);
    if (!timer.Header.Inserted)
        KeInitializeTimer(&timer);
    KeSetTimer(&timer, due, &dpc);
    return Complete(Irp, STATUS_SUCCESS);
}

NTSTATUS DriverEntry(PDRIVER_OBJECT DriverObject, PUNICODE_STRING RegistryPath) { return Begin(DriverObject, 0); }
