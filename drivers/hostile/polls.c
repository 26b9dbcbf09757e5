/* A thread that polls: the machine is never quiet, and the packet that nobody completes hangs all the same. */
#include "hostile.h"

static VOID Poll(PVOID Context)
{
    LARGE_INTEGER moment = { .QuadPart = -1000000 };
    for (;;)
        KeDelayExecutionThread(KernelMode, FALSE, &moment);
}

static NTSTATUS Read(PDEVICE_OBJECT DeviceObject, PIRP Irp)
{
    IoMarkIrpPending(Irp);
    return STATUS_PENDING;
}

NTSTATUS DriverEntry(PDRIVER_OBJECT DriverObject, PUNICODE_STRING RegistryPath)
{
    HANDLE thread;
    PsCreateSystemThread(&thread, THREAD_ALL_ACCESS, NULL, NULL, NULL, Poll, NULL);
    return Begin(DriverObject, 0);
}
