/* freed_while_used.c: 1 preemption, UsedAfterFree. The dispatch looks into the block that it has handed to the work item,
   which frees it. It is preempted before that look, and the work item runs whole. */
#include "race.h"

typedef struct { PIRP Irp; PIO_WORKITEM Item; ULONG Length; } WORK;
static PDEVICE_OBJECT device;
static ULONG asked;

static VOID Work(PDEVICE_OBJECT DeviceObject, PVOID Context)
{
    WORK *w = Context;
    UNREFERENCED_PARAMETER(DeviceObject);
    Complete(w->Irp, STATUS_SUCCESS, w->Length);
    IoFreeWorkItem(w->Item);
    ExFreePoolWithTag(w, 'ecaR');
}

static NTSTATUS Read(PDEVICE_OBJECT DeviceObject, PIRP Irp)
{
    WORK *w = ExAllocatePool2(POOL_FLAG_NON_PAGED, sizeof *w, 'ecaR');
    w->Irp = Irp;
    w->Item = IoAllocateWorkItem(DeviceObject);
    w->Length = IoGetCurrentIrpStackLocation(Irp)->Parameters.Read.Length;
    IoMarkIrpPending(Irp);
#ifdef RIGHT
    asked += w->Length;
#endif
    IoQueueWorkItem(w->Item, Work, DelayedWorkQueue, w);
#ifndef RIGHT
    asked += w->Length; /* the fault */
#endif
    return STATUS_PENDING;
}

NTSTATUS DriverEntry(PDRIVER_OBJECT DriverObject, PUNICODE_STRING RegistryPath)
{
    UNREFERENCED_PARAMETER(RegistryPath);
    device = MakeDevice(DriverObject, 0, Read);
    return STATUS_SUCCESS;
}

int main(void)
{
    WdmLoadDriver("freed_while_used", DriverEntry);
    for (int i = 0; i < ROUNDS; i++)
        WdmSend(device, IRP_MJ_READ, 0, 4);
    return WdmFinish();
}
