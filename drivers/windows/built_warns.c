/* built_warns.c: a control that ends with a warning gives its caller what is in the buffer; one with an error gives nothing.
   WRONG=1 takes the buffer of one that failed for an answer. */
#include <wdm.h>
#include "wdm_test.h"

#ifndef WRONG
#define WRONG 0
#endif

enum { WARNS = CTL_CODE(FILE_DEVICE_UNKNOWN, 0x801, METHOD_BUFFERED, FILE_ANY_ACCESS),
       FAILS = CTL_CODE(FILE_DEVICE_UNKNOWN, 0x802, METHOD_BUFFERED, FILE_ANY_ACCESS) };

static NTSTATUS Control(PDEVICE_OBJECT DeviceObject, PIRP Irp)
{
    const ULONG code = IoGetCurrentIrpStackLocation(Irp)->Parameters.DeviceIoControl.IoControlCode;
    const NTSTATUS status = code == (ULONG)WARNS ? STATUS_BUFFER_OVERFLOW : STATUS_UNSUCCESSFUL;
    UNREFERENCED_PARAMETER(DeviceObject);
    memcpy(Irp->AssociatedIrp.SystemBuffer, "ghijkl", 6);
    Irp->IoStatus.Status = status;
    Irp->IoStatus.Information = 3;
    IoCompleteRequest(Irp, IO_NO_INCREMENT);
    return status;
}

static NTSTATUS Entry(PDRIVER_OBJECT DriverObject, PUNICODE_STRING RegistryPath)
{
    PDEVICE_OBJECT device;
    UNREFERENCED_PARAMETER(RegistryPath);
    DriverObject->MajorFunction[IRP_MJ_DEVICE_CONTROL] = Control;
    return IoCreateDevice(DriverObject, 0, NULL, FILE_DEVICE_UNKNOWN, 0, FALSE, &device);
}

static NTSTATUS Ask(PDEVICE_OBJECT Device, ULONG Code, char *Buffer, PIO_STATUS_BLOCK Iosb)
{
    KEVENT done;
    KeInitializeEvent(&done, NotificationEvent, FALSE);
    PIRP irp = IoBuildDeviceIoControlRequest(Code, Device, Buffer, 6, Buffer, 6, FALSE, &done, Iosb);
    return irp ? IoCallDriver(Device, irp) : STATUS_INSUFFICIENT_RESOURCES;
}

int main(void)
{
    char warned[8] = "abcdef", failed[8] = "abcdef";
    IO_STATUS_BLOCK iosb = { .Status = STATUS_TIMEOUT };
    PDEVICE_OBJECT device = WdmLoadDriver("warns", Entry)->DeviceObject;
    WDM_CHECK(Ask(device, FAILS, failed, &iosb) == STATUS_UNSUCCESSFUL && iosb.Status == STATUS_TIMEOUT);
    WDM_CHECK(Ask(device, WARNS, warned, &iosb) == STATUS_BUFFER_OVERFLOW && iosb.Status == STATUS_BUFFER_OVERFLOW);
    WDM_CHECK(!memcmp(warned, "ghidef", 6));
    WDM_CHECK(!memcmp(failed, WRONG == 1 ? "ghidef" : "abcdef", 6)); /* told 1: Check */
    return WdmFinish();
}
