/* A dispatch that reads through a null pointer, in a function that it calls. */
#include "hostile.h"

static PULONG nothing;

static __attribute__((noinline)) ULONG Helper(PULONG Where) { return Where[4] * 2; }

static NTSTATUS Read(PDEVICE_OBJECT DeviceObject, PIRP Irp)
{
    return Complete(Irp, Helper(nothing) ? STATUS_SUCCESS : STATUS_UNSUCCESSFUL);
}

NTSTATUS DriverEntry(PDRIVER_OBJECT DriverObject, PUNICODE_STRING RegistryPath) { return Begin(DriverObject, 0); }
