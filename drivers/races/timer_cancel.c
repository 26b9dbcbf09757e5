/* timer_cancel.c: 1 preemption, CompletedTwice. A timer's call and the cancel routine agree by a plain flag who completes
   the packet. The cancel routine is preempted between its look at the flag and its write, and the timer goes off there:
   that time passes and that it is preempted is one and the same choice. */
#include "race.h"

typedef struct { PIRP Current; volatile BOOLEAN Done; LONG Taken; KTIMER Timer; KDPC Dpc; } EXTENSION, *PEXTENSION;
static PDEVICE_OBJECT device;

static BOOLEAN TakeIt(PEXTENSION Ext)
{
#ifdef RIGHT
    return !InterlockedExchange(&Ext->Taken, 1);
#endif
    if (Ext->Done)
        return FALSE;
    Ext->Done = TRUE; /* the fault: no InterlockedExchange */
    return TRUE;
}

static VOID TimedOut(PKDPC Dpc, PVOID Context, PVOID A, PVOID B)
{
    PEXTENSION ext = Context;
    UNREFERENCED_PARAMETER(Dpc), UNREFERENCED_PARAMETER(A), UNREFERENCED_PARAMETER(B);
    if (TakeIt(ext)) {
        PIRP irp = ext->Current;
        IoSetCancelRoutine(irp, NULL);
        Complete(irp, STATUS_IO_TIMEOUT, 0);
    }
}

static VOID CancelRead(PDEVICE_OBJECT DeviceObject, PIRP Irp)
{
    PEXTENSION ext = DeviceObject->DeviceExtension;
    IoReleaseCancelSpinLock(Irp->CancelIrql);
    if (TakeIt(ext)) {
        KeCancelTimer(&ext->Timer);
        Complete(Irp, STATUS_CANCELLED, 0);
    }
}

static NTSTATUS Read(PDEVICE_OBJECT DeviceObject, PIRP Irp)
{
    PEXTENSION ext = DeviceObject->DeviceExtension;
    IoMarkIrpPending(Irp);
    ext->Current = Irp;
    ext->Done = FALSE;
    ext->Taken = 0;
    IoSetCancelRoutine(Irp, CancelRead);
    KeSetTimer(&ext->Timer, Milliseconds(1), &ext->Dpc);
    return STATUS_PENDING;
}

NTSTATUS DriverEntry(PDRIVER_OBJECT DriverObject, PUNICODE_STRING RegistryPath)
{
    UNREFERENCED_PARAMETER(RegistryPath);
    DriverObject->MajorFunction[IRP_MJ_READ] = Read;
    NTSTATUS status = IoCreateDevice(DriverObject, sizeof(EXTENSION), NULL, FILE_DEVICE_UNKNOWN, 0, FALSE, &device);
    if (NT_SUCCESS(status)) {
        PEXTENSION ext = device->DeviceExtension;
        KeInitializeTimer(&ext->Timer);
        KeInitializeDpc(&ext->Dpc, TimedOut, ext);
    }
    return status;
}

int main(void)
{
    WdmLoadDriver("timer_cancel", DriverEntry);
    for (int i = 0; i < ROUNDS; i++) {
        REQUEST r;
        Start(&r, device, IRP_MJ_READ, 4);
        if (i)
            IoCancelIrp(r.Irp);
        Finish(&r);
    }
    return WdmFinish();
}
