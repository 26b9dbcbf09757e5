/* completed_again.c: a read with a limit of time, as the WDK's "Different ways of handling IRPs" has it: the completion
   routine keeps a packet whose cancel has begun, and the filter completes it once more. So it is over a device that has a read
   until it is cancelled; over one that answers late the limit may be first, or the answer. WRONG=1 completes it a third time. */
#include "filter.h"

typedef enum { CANCELABLE, CANCEL_STARTED, CANCEL_COMPLETE, COMPLETED } STATE;
typedef struct { KEVENT Event; LONG State; } WAITING;

static NTSTATUS ReadDone(PDEVICE_OBJECT DeviceObject, PIRP Irp, PVOID Context)
{
    WAITING *waiting = Context;
    UNREFERENCED_PARAMETER(DeviceObject), UNREFERENCED_PARAMETER(Irp);
    return InterlockedExchange(&waiting->State, COMPLETED) == CANCEL_STARTED ? STATUS_MORE_PROCESSING_REQUIRED
                                                                             : STATUS_CONTINUE_COMPLETION;
}

static void CancelAndWait(PIRP Own, WAITING *Waiting)
{
    if (InterlockedExchange(&Waiting->State, CANCEL_STARTED) == CANCELABLE) {
        IoCancelIrp(Own);
        if (InterlockedExchange(&Waiting->State, CANCEL_COMPLETE) == COMPLETED) {
            IoCompleteRequest(Own, IO_NO_INCREMENT);
            if (WRONG == 1)
                IoCompleteRequest(Own, IO_NO_INCREMENT); /* told 1, by --schedule usual: CompletedTwice */
        }
    }
    KeWaitForSingleObject(&Waiting->Event, Executive, KernelMode, FALSE, NULL);
}

static NTSTATUS Read(PDEVICE_OBJECT DeviceObject, PIRP Irp)
{
    WAITING waiting = { .State = CANCELABLE };
    IO_STATUS_BLOCK iosb = { .Status = STATUS_SUCCESS };
    LARGE_INTEGER offset = { .QuadPart = 0 }, limit = { .QuadPart = -1000 };
    ULONG buffer = 0;
    KeInitializeEvent(&waiting.Event, NotificationEvent, FALSE);
    PIRP own = IoBuildSynchronousFsdRequest(IRP_MJ_READ, LowerOf(DeviceObject), &buffer, sizeof buffer, &offset,
                                            &waiting.Event, &iosb);
    if (!own)
        return Complete(Irp, STATUS_INSUFFICIENT_RESOURCES, 0);
    IoSetCompletionRoutine(own, ReadDone, &waiting, TRUE, TRUE, TRUE);
    NTSTATUS status = IoCallDriver(LowerOf(DeviceObject), own);
    if (status == STATUS_PENDING) {
        if (KeWaitForSingleObject(&waiting.Event, Executive, KernelMode, FALSE, &limit) == STATUS_TIMEOUT)
            CancelAndWait(own, &waiting);
        status = iosb.Status;
    }
    return Complete(Irp, status, 0);
}

static VOID CancelHeld(PDEVICE_OBJECT DeviceObject, PIRP Irp)
{
    UNREFERENCED_PARAMETER(DeviceObject);
    IoReleaseCancelSpinLock(Irp->CancelIrql);
    Complete(Irp, STATUS_CANCELLED, 0);
}

static NTSTATUS Hold(PDEVICE_OBJECT DeviceObject, PIRP Irp)
{
    UNREFERENCED_PARAMETER(DeviceObject);
    IoMarkIrpPending(Irp);
    IoSetCancelRoutine(Irp, CancelHeld);
    if (Irp->Cancel && IoSetCancelRoutine(Irp, NULL))
        Complete(Irp, STATUS_CANCELLED, 0);
    return STATUS_PENDING;
}

static NTSTATUS HolderEntry(PDRIVER_OBJECT DriverObject, PUNICODE_STRING RegistryPath)
{
    PDEVICE_OBJECT device;
    UNREFERENCED_PARAMETER(RegistryPath);
    DriverObject->MajorFunction[IRP_MJ_READ] = Hold;
    return IoCreateDevice(DriverObject, 0, NULL, FILE_DEVICE_UNKNOWN, 0, FALSE, &device);
}

static VOID ReadHeld(PDRIVER_OBJECT Filter)
{
    PDEVICE_OBJECT holder = WdmLoadDriver("holder", HolderEntry)->DeviceObject;
    WdmAddDevice(Filter, holder);
    PDEVICE_OBJECT top = IoGetAttachedDevice(holder);
    WDM_CHECK(WdmSend(top, IRP_MJ_READ, 0, 16) == STATUS_CANCELLED);
    IoDetachDevice(holder);
    IoDeleteDevice(top);
    IoDeleteDevice(holder);
}

int main(void)
{
    PDEVICE_OBJECT pdo = StartFilter(WDM_BOTTOM_LATE);
    ReadHeld(IoGetAttachedDevice(pdo)->DriverObject);
    for (int i = 0; i < 3; i++)
        WdmSend(IoGetAttachedDevice(pdo), IRP_MJ_READ, 0, 16);
    WdmUnplug(pdo, FALSE);
    return WdmFinish();
}
