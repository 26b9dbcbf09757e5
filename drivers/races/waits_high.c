/* waits_high.c: 1 preemption, Stuck. On one processor: a deferred call spins until the read has let go of a flag. Time passes
   early, which counts as the preemption, while the read has the flag; then the deferred call comes to the read's own
   processor, and the read never goes on. */
#include "race.h"

static KTIMER timer;
static KDPC dpc;
#ifdef RIGHT
static KSPIN_LOCK lock;
#else
static LONG taken;
#endif

static VOID Called(PKDPC Dpc, PVOID Context, PVOID A, PVOID B)
{
    UNREFERENCED_PARAMETER(Dpc), UNREFERENCED_PARAMETER(Context), UNREFERENCED_PARAMETER(A), UNREFERENCED_PARAMETER(B);
#ifdef RIGHT
    KeAcquireSpinLockAtDpcLevel(&lock);
    KeReleaseSpinLockFromDpcLevel(&lock);
#else
    while (InterlockedCompareExchange(&taken, 1, 0)) /* the fault */
        KeStallExecutionProcessor(1);
    InterlockedExchange(&taken, 0);
#endif
}

static NTSTATUS Read(PDEVICE_OBJECT DeviceObject, PIRP Irp)
{
    UNREFERENCED_PARAMETER(DeviceObject);
    KeSetTimer(&timer, Milliseconds(1), &dpc);
#ifdef RIGHT
    KIRQL irql;
    KeAcquireSpinLock(&lock, &irql);
    KeReleaseSpinLock(&lock, irql);
#else
    while (InterlockedCompareExchange(&taken, 1, 0))
        ;
    InterlockedExchange(&taken, 0);
#endif
    return Complete(Irp, STATUS_SUCCESS, 0);
}

NTSTATUS DriverEntry(PDRIVER_OBJECT DriverObject, PUNICODE_STRING RegistryPath)
{
    UNREFERENCED_PARAMETER(RegistryPath);
#ifdef RIGHT
    KeInitializeSpinLock(&lock);
#endif
    KeInitializeTimer(&timer);
    KeInitializeDpc(&dpc, Called, NULL);
    return MakeDevice(DriverObject, 0, Read) ? STATUS_SUCCESS : STATUS_INSUFFICIENT_RESOURCES;
}

int main(void)
{
    PDEVICE_OBJECT device = WdmLoadDriver("waits_high", DriverEntry)->DeviceObject;
    WdmSend(device, IRP_MJ_READ, 0, 4);
    KeFlushQueuedDpcs();
    return WdmFinish();
}
