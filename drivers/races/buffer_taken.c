/* buffer_taken.c: 0 preemptions, Hang. A read that gets the one free buffer of an interlocked list leaves its packet to whoever
   comes for the next one. That one goes without. Usually it has the buffer already, and the read ends. */
#include "race.h"

static SLIST_HEADER free_buffers;
static SLIST_ENTRY buffer;

static NTSTATUS Read(PDEVICE_OBJECT DeviceObject, PIRP Irp)
{
    UNREFERENCED_PARAMETER(DeviceObject);
    IoMarkIrpPending(Irp);
    PSLIST_ENTRY mine = InterlockedPopEntrySList(&free_buffers);
    AwaitChange();
#ifdef RIGHT
    Complete(Irp, mine ? STATUS_SUCCESS : STATUS_INSUFFICIENT_RESOURCES, 0);
#else
    if (!mine) /* the fault: nobody else completes it */
        Complete(Irp, STATUS_INSUFFICIENT_RESOURCES, 0);
#endif
    if (mine)
        InterlockedPushEntrySList(&free_buffers, mine);
    return STATUS_PENDING;
}

NTSTATUS DriverEntry(PDRIVER_OBJECT DriverObject, PUNICODE_STRING RegistryPath)
{
    UNREFERENCED_PARAMETER(RegistryPath);
    return MakeDevice(DriverObject, 0, Read) ? STATUS_SUCCESS : STATUS_INSUFFICIENT_RESOURCES;
}

static void *change(void *device)
{
    UNREFERENCED_PARAMETER(device);
    PSLIST_ENTRY mine = InterlockedPopEntrySList(&free_buffers);
    TellOfChange();
    if (mine)
        InterlockedPushEntrySList(&free_buffers, mine);
    return NULL;
}

int main(void)
{
    PDEVICE_OBJECT device = WdmLoadDriver("buffer_taken", DriverEntry)->DeviceObject;
    InterlockedPushEntrySList(&free_buffers, &buffer);
    return ReadWhile(change, device);
}
