/* interface_seen.c: 0 preemptions, Hang. A read looks whether its device's interface is enabled, and if it isn't yet, leaves
   the packet to whoever enables it. That one knows nothing of it. Usually the read looks later. */
#include "race.h"

static const GUID class = { 0x11223344, 0x5566, 0x7788, { 1, 2, 3, 4, 5, 6, 7, 8 } };
static UNICODE_STRING link;

static NTSTATUS Read(PDEVICE_OBJECT DeviceObject, PIRP Irp)
{
    PWSTR links;
    UNREFERENCED_PARAMETER(DeviceObject);
    IoMarkIrpPending(Irp);
    IoGetDeviceInterfaces(&class, NULL, 0, &links);
    AwaitChange();
#ifdef RIGHT
    Complete(Irp, *links ? STATUS_SUCCESS : STATUS_DEVICE_NOT_READY, 0);
#else
    if (*links) /* the fault: nobody else completes it */
        Complete(Irp, STATUS_SUCCESS, 0);
#endif
    ExFreePool(links);
    return STATUS_PENDING;
}

NTSTATUS DriverEntry(PDRIVER_OBJECT DriverObject, PUNICODE_STRING RegistryPath)
{
    UNREFERENCED_PARAMETER(RegistryPath);
    return MakeDevice(DriverObject, 0, Read) ? STATUS_SUCCESS : STATUS_INSUFFICIENT_RESOURCES;
}

static void *change(void *device)
{
    UNREFERENCED_PARAMETER(device);
    IoSetDeviceInterfaceState(&link, TRUE);
    TellOfChange();
    IoSetDeviceInterfaceState(&link, FALSE);
    return NULL;
}

int main(void)
{
    PDEVICE_OBJECT device = WdmLoadDriver("interface_seen", DriverEntry)->DeviceObject;
    IoRegisterDeviceInterface(device, &class, NULL, &link);
    return ReadWhile(change, device);
}
