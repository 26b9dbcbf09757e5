/* resource_tried.c: 0 preemptions, Hang. A read that gets to share a resource leaves its packet to whoever has it alone next.
   That one goes without where it doesn't get it at once. Usually it has it already, and the read ends. */
#include "race.h"

static ERESOURCE resource;

static NTSTATUS Read(PDEVICE_OBJECT DeviceObject, PIRP Irp)
{
    UNREFERENCED_PARAMETER(DeviceObject);
    IoMarkIrpPending(Irp);
    const BOOLEAN is_mine = ExAcquireResourceSharedLite(&resource, FALSE);
    AwaitChange();
#ifdef RIGHT
    Complete(Irp, is_mine ? STATUS_SUCCESS : STATUS_DEVICE_BUSY, 0);
#else
    if (!is_mine) /* the fault: nobody else completes it */
        Complete(Irp, STATUS_DEVICE_BUSY, 0);
#endif
    if (is_mine)
        ExReleaseResourceLite(&resource);
    return STATUS_PENDING;
}

NTSTATUS DriverEntry(PDRIVER_OBJECT DriverObject, PUNICODE_STRING RegistryPath)
{
    UNREFERENCED_PARAMETER(RegistryPath);
    return MakeDevice(DriverObject, 0, Read) ? STATUS_SUCCESS : STATUS_INSUFFICIENT_RESOURCES;
}

static void *change(void *device)
{
    UNREFERENCED_PARAMETER(device);
    const BOOLEAN is_mine = ExAcquireResourceExclusiveLite(&resource, FALSE);
    TellOfChange();
    if (is_mine)
        ExReleaseResourceLite(&resource);
    return NULL;
}

int main(void)
{
    PDEVICE_OBJECT device = WdmLoadDriver("resource_tried", DriverEntry)->DeviceObject;
    ExInitializeResourceLite(&resource);
    return ReadWhile(change, device);
}
