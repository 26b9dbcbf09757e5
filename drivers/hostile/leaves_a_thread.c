/* A driver that is unloaded while its thread runs. */
#include "hostile.h"

static KEVENT never;

static VOID Thread(PVOID Context) { KeWaitForSingleObject(&never, Executive, KernelMode, FALSE, NULL); }

static NTSTATUS Read(PDEVICE_OBJECT DeviceObject, PIRP Irp) { return Any(DeviceObject, Irp); }

NTSTATUS DriverEntry(PDRIVER_OBJECT DriverObject, PUNICODE_STRING RegistryPath)
{
    HANDLE thread;
    KeInitializeEvent(&never, NotificationEvent, FALSE);
    PsCreateSystemThread(&thread, THREAD_ALL_ACCESS, NULL, NULL, NULL, Thread, NULL);
    ZwClose(thread);
    return Begin(DriverObject, 0);
}
