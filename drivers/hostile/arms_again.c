/* A timer that its own deferred call arms again, and under a lock a packet that waits for what nobody does. */
#include "hostile.h"

static KTIMER timer;
static KDPC dpc;
static KMUTEX mutex;
static KEVENT never;

static VOID Again(PKDPC Dpc, PVOID Context, PVOID Argument1, PVOID Argument2)
{
    LARGE_INTEGER moment = { .QuadPart = -200000 };
    KeSetTimer(&timer, moment, &dpc);
}

static NTSTATUS Read(PDEVICE_OBJECT DeviceObject, PIRP Irp)
{
    KeWaitForSingleObject(&mutex, Executive, KernelMode, FALSE, NULL);
    KeWaitForSingleObject(&never, Executive, KernelMode, FALSE, NULL);
    KeReleaseMutex(&mutex, FALSE);
    return Complete(Irp, STATUS_SUCCESS);
}

NTSTATUS DriverEntry(PDRIVER_OBJECT DriverObject, PUNICODE_STRING RegistryPath)
{
    KeInitializeMutex(&mutex, 0);
    KeInitializeEvent(&never, NotificationEvent, FALSE);
    KeInitializeTimer(&timer);
    KeInitializeDpc(&dpc, Again, NULL);
    Again(&dpc, NULL, NULL, NULL);
    return Begin(DriverObject, 0);
}
