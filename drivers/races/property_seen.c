/* property_seen.c: 0 preemptions, Hang. A read looks whether its device has a property, and if it hasn't yet, leaves the packet
   to whoever sets it. That one knows nothing of it. Usually the read looks later. */
#include "race.h"

static const DEVPROPKEY key = { { 0x11223344, 0x5566, 0x7788, { 1, 2, 3, 4, 5, 6, 7, 8 } }, 2 };

static NTSTATUS Read(PDEVICE_OBJECT DeviceObject, PIRP Irp)
{
    ULONG value, needed;
    DEVPROPTYPE type;
    IoMarkIrpPending(Irp);
    const NTSTATUS status = IoGetDevicePropertyData(DeviceObject, &key, 0, 0, sizeof value, &value, &needed, &type);
    AwaitChange();
#ifdef RIGHT
    Complete(Irp, NT_SUCCESS(status) ? STATUS_DEVICE_BUSY : STATUS_SUCCESS, 0);
#else
    if (NT_SUCCESS(status)) /* the fault: nobody else completes it */
        Complete(Irp, STATUS_SUCCESS, 0);
#endif
    return STATUS_PENDING;
}

NTSTATUS DriverEntry(PDRIVER_OBJECT DriverObject, PUNICODE_STRING RegistryPath)
{
    UNREFERENCED_PARAMETER(RegistryPath);
    return MakeDevice(DriverObject, 0, Read) ? STATUS_SUCCESS : STATUS_INSUFFICIENT_RESOURCES;
}

static void *change(void *device)
{
    ULONG value = 1;
    IoSetDevicePropertyData(device, &key, 0, 0, DEVPROP_TYPE_UINT32, sizeof value, &value);
    TellOfChange();
    return NULL;
}

int main(void)
{
    PDEVICE_OBJECT device = WdmLoadDriver("property_seen", DriverEntry)->DeviceObject;
    return ReadWhile(change, device);
}
