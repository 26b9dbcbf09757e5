/* filter.h: the plain part of a filter, for the files of this folder: each has a Read and a main, and mistakes by
   -DWRONG=N, at the lines that say what is told. */
#ifndef DRIVERS_WINDOWS_FILTER_H
#define DRIVERS_WINDOWS_FILTER_H

#include <wdm.h>
#include "wdm_test.h"

#ifndef WRONG
#define WRONG 0
#endif
typedef struct { PDEVICE_OBJECT Lower; } FILTER;

static DRIVER_DISPATCH Read;

static inline NTSTATUS Complete(PIRP Irp, NTSTATUS Status, ULONG_PTR Information)
{
    Irp->IoStatus.Status = Status;
    Irp->IoStatus.Information = Information;
    IoCompleteRequest(Irp, IO_NO_INCREMENT);
    return Status;
}

static PDEVICE_OBJECT LowerOf(PDEVICE_OBJECT DeviceObject) { return ((FILTER *)DeviceObject->DeviceExtension)->Lower; }

static NTSTATUS Pass(PDEVICE_OBJECT DeviceObject, PIRP Irp)
{
    IoSkipCurrentIrpStackLocation(Irp);
    return IoCallDriver(LowerOf(DeviceObject), Irp);
}

static NTSTATUS Pnp(PDEVICE_OBJECT DeviceObject, PIRP Irp)
{
    PDEVICE_OBJECT lower = LowerOf(DeviceObject);
    const UCHAR minor = IoGetCurrentIrpStackLocation(Irp)->MinorFunction;
    IoSkipCurrentIrpStackLocation(Irp);
    const NTSTATUS status = IoCallDriver(lower, Irp);
    if (minor == IRP_MN_REMOVE_DEVICE) {
        IoDetachDevice(lower);
        IoDeleteDevice(DeviceObject);
    }
    return status;
}

static NTSTATUS AddFilter(PDRIVER_OBJECT DriverObject, PDEVICE_OBJECT Pdo)
{
    PDEVICE_OBJECT device;
    const NTSTATUS status = IoCreateDevice(DriverObject, sizeof(FILTER), NULL, FILE_DEVICE_UNKNOWN, 0, FALSE, &device);
    if (!NT_SUCCESS(status))
        return status;
    ((FILTER *)device->DeviceExtension)->Lower = IoAttachDeviceToDeviceStack(device, Pdo);
    device->Flags |= DO_BUFFERED_IO | DO_POWER_PAGABLE;
    device->Flags &= ~(ULONG)DO_DEVICE_INITIALIZING;
    return STATUS_SUCCESS;
}

static VOID Unload(PDRIVER_OBJECT DriverObject) { UNREFERENCED_PARAMETER(DriverObject); }

static NTSTATUS FilterEntry(PDRIVER_OBJECT DriverObject, PUNICODE_STRING RegistryPath)
{
    UNREFERENCED_PARAMETER(RegistryPath);
    for (int i = 0; i <= IRP_MJ_MAXIMUM_FUNCTION; i++)
        DriverObject->MajorFunction[i] = Pass;
    DriverObject->MajorFunction[IRP_MJ_READ] = Read;
    DriverObject->MajorFunction[IRP_MJ_PNP] = Pnp;
    DriverObject->DriverExtension->AddDevice = AddFilter;
    DriverObject->DriverUnload = Unload;
    return STATUS_SUCCESS;
}

/* A filter over a bottom device of this style, started. Returns the stack's bottom. */
static inline PDEVICE_OBJECT StartFilter(ULONG Style)
{
    PDEVICE_OBJECT pdo = WdmCreateBottomOf(Style);
    WdmAddDevice(WdmLoadDriver("filter", FilterEntry), pdo);
    WDM_CHECK(WdmPlugIn(pdo) == STATUS_SUCCESS);
    return pdo;
}

#endif
