/* mdl_seen.c: 0 preemptions, Hang. A read looks whether the pages of an MDL are locked, and if they aren't yet, leaves its packet to
   whoever locks them. That one knows nothing of it. Usually the read looks later. */
#include "race.h"

static PMDL mdl;
static UCHAR bytes[16];

static NTSTATUS Read(PDEVICE_OBJECT DeviceObject, PIRP Irp)
{
    UNREFERENCED_PARAMETER(DeviceObject);
    IoMarkIrpPending(Irp);
    const BOOLEAN is_locked = (mdl->MdlFlags & MDL_PAGES_LOCKED) != 0;
    AwaitChange();
#ifdef RIGHT
    Complete(Irp, is_locked ? STATUS_DEVICE_BUSY : STATUS_SUCCESS, 0);
#else
    if (is_locked) /* the fault: nobody else completes it */
        Complete(Irp, STATUS_SUCCESS, 0);
#endif
    return STATUS_PENDING;
}

NTSTATUS DriverEntry(PDRIVER_OBJECT DriverObject, PUNICODE_STRING RegistryPath)
{
    UNREFERENCED_PARAMETER(RegistryPath);
    return MakeDevice(DriverObject, 0, Read) ? STATUS_SUCCESS : STATUS_INSUFFICIENT_RESOURCES;
}

static void *change(void *device)
{
    UNREFERENCED_PARAMETER(device);
    MmProbeAndLockPages(mdl, KernelMode, IoReadAccess);
    TellOfChange();
    MmUnlockPages(mdl);
    return NULL;
}

int main(void)
{
    PDEVICE_OBJECT device = WdmLoadDriver("mdl_seen", DriverEntry)->DeviceObject;
    mdl = IoAllocateMdl(bytes, sizeof bytes, FALSE, FALSE, NULL);
    return ReadWhile(change, device);
}
