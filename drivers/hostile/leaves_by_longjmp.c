/* A driver that sends a read to its own device, and leaves the dispatch of that by longjmp: who sent it is never answered. */
#include "hostile.h"
#include <setjmp.h>

static jmp_buf outside;
static PIRP own;

static VOID Deeper(PIRP Irp)
{
    if (Irp == own)
        longjmp(outside, 1);
}

static NTSTATUS Read(PDEVICE_OBJECT DeviceObject, PIRP Irp)
{
    Deeper(Irp);
    return Any(DeviceObject, Irp);
}

static NTSTATUS Write(PDEVICE_OBJECT DeviceObject, PIRP Irp)
{
    if (setjmp(outside))
        return Complete(Irp, STATUS_SUCCESS);
    own = IoAllocateIrp(DeviceObject->StackSize, FALSE);
    IoGetNextIrpStackLocation(own)->MajorFunction = IRP_MJ_READ;
    IoCallDriver(DeviceObject, own);
    IoFreeIrp(own);
    return Complete(Irp, STATUS_SUCCESS);
}

/* A jump within one routine, as a flush makes it, is right. */
static NTSTATUS Flush(PDEVICE_OBJECT DeviceObject, PIRP Irp)
{
    static jmp_buf inside;
    if (!setjmp(inside))
        longjmp(inside, 1);
    return Any(DeviceObject, Irp);
}

NTSTATUS DriverEntry(PDRIVER_OBJECT DriverObject, PUNICODE_STRING RegistryPath)
{
    const NTSTATUS status = Begin(DriverObject, 0);
    DriverObject->MajorFunction[IRP_MJ_FLUSH_BUFFERS] = Flush;
#ifndef RIGHT
    DriverObject->MajorFunction[IRP_MJ_WRITE] = Write;
#else
    UNREFERENCED_PARAMETER(Write);
#endif
    return status;
}
