/* A function that calls itself until the stack is full. */
#pragma GCC diagnostic ignored "-Winfinite-recursion"
#include "hostile.h"

static volatile ULONG depth;

static __attribute__((noinline)) ULONG Deeper(ULONG Level)
{
    volatile UCHAR room[512];
    room[Level % sizeof room] = (UCHAR)Level;
    depth = Level;
    return Deeper(Level + 1) + room[0];
}

static NTSTATUS Read(PDEVICE_OBJECT DeviceObject, PIRP Irp)
{
    return Complete(Irp, (NTSTATUS)Deeper(0));
}

NTSTATUS DriverEntry(PDRIVER_OBJECT DriverObject, PUNICODE_STRING RegistryPath) { return Begin(DriverObject, 0); }
