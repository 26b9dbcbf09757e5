/* released_early.c: 1 preemption, UsedAfterFree. The completion routine counts in the extension after it has released the
   remove lock. It is preempted between both, and the device is removed and deleted there. The right one only returns there.
   With -DAT_ONCE the read ends within its send, on a thread of its own: the removal detaches the device before that returns.
   With -DBY_WORK, too, a work item sends it. */
#include "race.h"

typedef struct {
    PDEVICE_OBJECT Lower;
    IO_REMOVE_LOCK RemoveLock;
    LONG Done;
    PIO_WORKITEM Item;
} EXTENSION, *PEXTENSION;

static NTSTATUS ReadDone(PDEVICE_OBJECT DeviceObject, PIRP Irp, PVOID Context)
{
    PEXTENSION ext = Context;
    UNREFERENCED_PARAMETER(DeviceObject);
    if (Irp->PendingReturned)
        IoMarkIrpPending(Irp);
#ifdef RIGHT
    InterlockedIncrement(&ext->Done);
    IoReleaseRemoveLock(&ext->RemoveLock, Irp);
#else
    IoReleaseRemoveLock(&ext->RemoveLock, Irp);
    InterlockedIncrement(&ext->Done); /* the fault */
#endif
    return STATUS_SUCCESS;
}

static NTSTATUS SendDown(PEXTENSION ext, PIRP Irp)
{
    IoCopyCurrentIrpStackLocationToNext(Irp);
    IoSetCompletionRoutine(Irp, ReadDone, ext, TRUE, TRUE, TRUE);
    return IoCallDriver(ext->Lower, Irp);
}

#ifdef BY_WORK
static VOID SendByWork(PDEVICE_OBJECT DeviceObject, PVOID Context)
{
    SendDown(DeviceObject->DeviceExtension, Context);
}
#endif

static NTSTATUS Read(PDEVICE_OBJECT DeviceObject, PIRP Irp)
{
    PEXTENSION ext = DeviceObject->DeviceExtension;
    const NTSTATUS status = IoAcquireRemoveLock(&ext->RemoveLock, Irp);
    if (!NT_SUCCESS(status))
        return Complete(Irp, status, 0);
#ifdef BY_WORK
    IoMarkIrpPending(Irp);
    IoQueueWorkItem(ext->Item, SendByWork, DelayedWorkQueue, Irp);
    return STATUS_PENDING;
#else
    return SendDown(ext, Irp);
#endif
}

static NTSTATUS Remove(PDEVICE_OBJECT DeviceObject, PIRP Irp)
{
    PEXTENSION ext = DeviceObject->DeviceExtension;
    IoAcquireRemoveLock(&ext->RemoveLock, Irp);
    Irp->IoStatus.Status = STATUS_SUCCESS;
    const NTSTATUS status = PassDown(ext->Lower, Irp);
    IoReleaseRemoveLockAndWait(&ext->RemoveLock, Irp);
    IoDetachDevice(ext->Lower);
    IoDeleteDevice(DeviceObject);
    return status;
}

NTSTATUS DriverEntry(PDRIVER_OBJECT DriverObject, PUNICODE_STRING RegistryPath)
{
    UNREFERENCED_PARAMETER(RegistryPath);
    DriverObject->MajorFunction[IRP_MJ_READ] = Read;
    DriverObject->MajorFunction[IRP_MJ_PNP] = Remove;
    return STATUS_SUCCESS;
}

static VOID ReadAndRemove(PDEVICE_OBJECT Device)
{
#ifdef AT_ONCE
    pthread_t reader;
    const PIO_WORKITEM item = IoAllocateWorkItem(Device);
    ((PEXTENSION)Device->DeviceExtension)->Item = item;
    ObReferenceObject(Device);
    pthread_create(&reader, NULL, send_read, Device);
    WdmSend(Device, IRP_MJ_PNP, IRP_MN_REMOVE_DEVICE, 0);
    pthread_join(reader, NULL);
    ObDereferenceObject(Device);
    IoFreeWorkItem(item);
#else
    REQUEST read;
    Start(&read, Device, IRP_MJ_READ, 4);
    WdmSend(Device, IRP_MJ_PNP, IRP_MN_REMOVE_DEVICE, 0);
    Finish(&read);
#endif
}

int main(void)
{
#ifdef AT_ONCE
    const BOOLEAN late = FALSE;
#else
    const BOOLEAN late = TRUE;
#endif
    PDRIVER_OBJECT driver = WdmLoadDriver("released_early", DriverEntry);
    PDEVICE_OBJECT bottom = WdmCreateBottom(late), top;
    IoCreateDevice(driver, sizeof(EXTENSION), NULL, FILE_DEVICE_UNKNOWN, 0, FALSE, &top);
    IoInitializeRemoveLock(&((PEXTENSION)top->DeviceExtension)->RemoveLock, 'ecaR', 0, 0);
    ((PEXTENSION)top->DeviceExtension)->Lower = IoAttachDeviceToDeviceStack(top, bottom);
    ReadAndRemove(top);
    IoDeleteDevice(bottom);
    return WdmFinish();
}
