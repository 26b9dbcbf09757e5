/* two_calls.c: 1 preemption, Hang. Two deferred calls run at once on two processors, and count down without a lock. One is
   preempted between its read and its write, and neither sees that it is the last. */
#include "race.h"

static KDPC dpcs[2];
static PIRP waiting;
static volatile LONG left = 2;

static VOID Called(PKDPC Dpc, PVOID Context, PVOID A, PVOID B)
{
    UNREFERENCED_PARAMETER(Dpc), UNREFERENCED_PARAMETER(Context), UNREFERENCED_PARAMETER(A), UNREFERENCED_PARAMETER(B);
#ifdef RIGHT
    const LONG now = InterlockedDecrement(&left);
#else
    const LONG now = left - 1; /* the fault */
    left = now;
#endif
    if (!now)
        Complete(waiting, STATUS_SUCCESS, 0);
}

static NTSTATUS Read(PDEVICE_OBJECT DeviceObject, PIRP Irp)
{
    UNREFERENCED_PARAMETER(DeviceObject);
    IoMarkIrpPending(Irp);
    waiting = Irp;
    for (int i = 0; i < 2; i++) {
        KeInitializeDpc(&dpcs[i], Called, NULL);
        KeInsertQueueDpc(&dpcs[i], NULL, NULL);
    }
    return STATUS_PENDING;
}

NTSTATUS DriverEntry(PDRIVER_OBJECT DriverObject, PUNICODE_STRING RegistryPath)
{
    UNREFERENCED_PARAMETER(RegistryPath);
    return MakeDevice(DriverObject, 0, Read) ? STATUS_SUCCESS : STATUS_INSUFFICIENT_RESOURCES;
}

int main(void)
{
    PDEVICE_OBJECT device = WdmLoadDriver("two_calls", DriverEntry)->DeviceObject;
    WdmSend(device, IRP_MJ_READ, 0, 4);
    return WdmFinish();
}
