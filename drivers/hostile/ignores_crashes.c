/* A driver that ignores the signal of a crash, and crashes. */
#include "hostile.h"
#include <signal.h>

static NTSTATUS Read(PDEVICE_OBJECT DeviceObject, PIRP Irp)
{
    volatile int *nothing = NULL;
    signal(SIGSEGV, SIG_IGN);
    *nothing = 1;
    return Any(DeviceObject, Irp);
}

NTSTATUS DriverEntry(PDRIVER_OBJECT DriverObject, PUNICODE_STRING RegistryPath) { return Begin(DriverObject, 0); }
