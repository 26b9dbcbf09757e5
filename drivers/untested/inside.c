/* inside.c: a driver that other drivers ask for work by an internal control; it does one work at a time. BUG names a mistake:
   1, it completes the control twice; 2, two that come at once may both work. */
#include <wdm.h>

#ifndef BUG
#define BUG 0
#endif
#ifndef METHOD
#define METHOD METHOD_BUFFERED
#endif
#define IOCTL_INSIDE_WORK CTL_CODE(FILE_DEVICE_UNKNOWN, 0x930, METHOD, FILE_ANY_ACCESS)
static LONG busy, inside;

static NTSTATUS Complete(PIRP Irp, NTSTATUS Status)
{
    Irp->IoStatus.Status = Status;
    Irp->IoStatus.Information = 0;
    IoCompleteRequest(Irp, IO_NO_INCREMENT); /* told: CompletedTwice */
    return Status;
}

static BOOLEAN BeginWork(VOID)
{
    if (BUG != 2)
        return InterlockedCompareExchange(&busy, 1, 0) == 0;
    if (busy)
        return FALSE;
    busy = 1;
    return TRUE;
}

static NTSTATUS Inside(PDEVICE_OBJECT DeviceObject, PIRP Irp)
{
    UNREFERENCED_PARAMETER(DeviceObject);
    if (IoGetCurrentIrpStackLocation(Irp)->Parameters.DeviceIoControl.IoControlCode != IOCTL_INSIDE_WORK)
        return Complete(Irp, STATUS_INVALID_DEVICE_REQUEST);
    if (!BeginWork())
        return Complete(Irp, STATUS_DEVICE_BUSY);
    if (InterlockedIncrement(&inside) != 1)
        KeBugCheckEx(0xE2, 0, 0, 0, 0);
    InterlockedDecrement(&inside);
    InterlockedExchange(&busy, 0);
    if (BUG == 1)
        Complete(Irp, STATUS_SUCCESS);
    return Complete(Irp, STATUS_SUCCESS);
}

/* A program gets nothing of it. */
static NTSTATUS Control(PDEVICE_OBJECT DeviceObject, PIRP Irp)
{
    UNREFERENCED_PARAMETER(DeviceObject);
    return Complete(Irp, STATUS_INVALID_DEVICE_REQUEST);
}

static NTSTATUS Open(PDEVICE_OBJECT DeviceObject, PIRP Irp)
{
    UNREFERENCED_PARAMETER(DeviceObject);
    return Complete(Irp, STATUS_SUCCESS);
}

NTSTATUS DriverEntry(PDRIVER_OBJECT DriverObject, PUNICODE_STRING RegistryPath)
{
    PDEVICE_OBJECT device;
    UNREFERENCED_PARAMETER(RegistryPath);
    DriverObject->MajorFunction[IRP_MJ_CREATE] = DriverObject->MajorFunction[IRP_MJ_CLEANUP] = Open;
    DriverObject->MajorFunction[IRP_MJ_CLOSE] = Open;
    DriverObject->MajorFunction[IRP_MJ_DEVICE_CONTROL] = Control;
    DriverObject->MajorFunction[IRP_MJ_INTERNAL_DEVICE_CONTROL] = Inside;
    return IoCreateDevice(DriverObject, 0, NULL, FILE_DEVICE_UNKNOWN, 0, FALSE, &device);
}
