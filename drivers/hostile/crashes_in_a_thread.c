/* A thread of the driver that writes through a null pointer. */
#include "hostile.h"

static PULONG nothing;

static VOID Thread(PVOID Context)
{
    LARGE_INTEGER moment = { .QuadPart = -10000 };
    KeDelayExecutionThread(KernelMode, FALSE, &moment);
    *nothing = Context != NULL;
}

static NTSTATUS Read(PDEVICE_OBJECT DeviceObject, PIRP Irp)
{
    HANDLE thread;
    LARGE_INTEGER minute = { .QuadPart = -600000000 };
    PsCreateSystemThread(&thread, THREAD_ALL_ACCESS, NULL, NULL, NULL, Thread, NULL);
    KeDelayExecutionThread(KernelMode, FALSE, &minute);
    return Complete(Irp, STATUS_SUCCESS);
}

NTSTATUS DriverEntry(PDRIVER_OBJECT DriverObject, PUNICODE_STRING RegistryPath) { return Begin(DriverObject, 0); }
