/* plain_count.c: 1 preemption, Hang. Two parts of a packet are done by two work items, that count down without an
   interlocked call. One is preempted between its read and its write, and neither sees that it is the last. */
#include "race.h"

typedef struct { PIRP Irp; volatile LONG Left; } PARTS;
static PDEVICE_OBJECT device;
static PARTS parts;

static VOID Part(PDEVICE_OBJECT DeviceObject, PVOID Context)
{
    UNREFERENCED_PARAMETER(DeviceObject);
    IoFreeWorkItem(Context);
#ifdef RIGHT
    const LONG left = InterlockedDecrement(&parts.Left);
#else
    const LONG left = parts.Left - 1; /* the fault */
    parts.Left = left;
#endif
    if (!left)
        Complete(parts.Irp, STATUS_SUCCESS, 2);
}

static NTSTATUS Read(PDEVICE_OBJECT DeviceObject, PIRP Irp)
{
    IoMarkIrpPending(Irp);
    parts.Irp = Irp;
    parts.Left = 2;
    for (int i = 0; i < 2; i++) {
        PIO_WORKITEM item = IoAllocateWorkItem(DeviceObject);
        IoQueueWorkItem(item, Part, DelayedWorkQueue, item);
    }
    return STATUS_PENDING;
}

NTSTATUS DriverEntry(PDRIVER_OBJECT DriverObject, PUNICODE_STRING RegistryPath)
{
    UNREFERENCED_PARAMETER(RegistryPath);
    device = MakeDevice(DriverObject, 0, Read);
    return STATUS_SUCCESS;
}

int main(void)
{
    WdmLoadDriver("plain_count", DriverEntry);
    WdmSend(device, IRP_MJ_READ, 0, 2);
    return WdmFinish();
}
