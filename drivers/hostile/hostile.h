/* hostile.h: what each driver of this folder begins with. All requests succeed at once, but for READ, which is its own. */
#ifndef HOSTILE_H
#define HOSTILE_H

#include <wdm.h>

static DRIVER_DISPATCH Read;

static inline NTSTATUS Complete(PIRP Irp, NTSTATUS Status)
{
    Irp->IoStatus.Status = Status;
    Irp->IoStatus.Information = 0;
    IoCompleteRequest(Irp, IO_NO_INCREMENT);
    return Status;
}

static inline NTSTATUS Any(PDEVICE_OBJECT DeviceObject, PIRP Irp)
{
    return Complete(Irp, STATUS_SUCCESS);
}

static inline VOID Unload(PDRIVER_OBJECT DriverObject)
{
    while (DriverObject->DeviceObject)
        IoDeleteDevice(DriverObject->DeviceObject);
}

static inline NTSTATUS Begin(PDRIVER_OBJECT DriverObject, ULONG Extension)
{
    PDEVICE_OBJECT device;
    for (int i = 0; i <= IRP_MJ_MAXIMUM_FUNCTION; i++)
        DriverObject->MajorFunction[i] = Any;
    DriverObject->MajorFunction[IRP_MJ_READ] = Read;
    DriverObject->DriverUnload = Unload;
    return IoCreateDevice(DriverObject, Extension, NULL, FILE_DEVICE_UNKNOWN, 0, FALSE, &device);
}

#endif
