/* remove_lock.c: 1 preemption, InFlight. The reader releases the remove lock before it completes the packet. It is preempted
   between both, and the device is removed there. */
#include "race.h"

typedef struct {
    PDEVICE_OBJECT Lower;
    IO_REMOVE_LOCK RemoveLock;
} EXTENSION, *PEXTENSION;

/* Of the driver: its reader goes on when the device is gone. */
static KSPIN_LOCK lock;
static LIST_ENTRY reads;
static KSEMAPHORE count;

static VOID Reader(PVOID Context)
{
    PEXTENSION ext = Context;
    for (;;) {
        KeWaitForSingleObject(&count, Executive, KernelMode, FALSE, NULL);
        PLIST_ENTRY e = ExInterlockedRemoveHeadList(&reads, &lock);
        if (!e)
            break;
        PIRP irp = CONTAINING_RECORD(e, IRP, Tail.Overlay.ListEntry);
#ifdef RIGHT
        Complete(irp, STATUS_SUCCESS, 0);
        IoReleaseRemoveLock(&ext->RemoveLock, irp);
#else
        IoReleaseRemoveLock(&ext->RemoveLock, irp); /* the fault: before the completion */
        Complete(irp, STATUS_SUCCESS, 0);
#endif
    }
    PsTerminateSystemThread(STATUS_SUCCESS);
}

static NTSTATUS Read(PDEVICE_OBJECT DeviceObject, PIRP Irp)
{
    PEXTENSION ext = DeviceObject->DeviceExtension;
    NTSTATUS status = IoAcquireRemoveLock(&ext->RemoveLock, Irp);
    if (!NT_SUCCESS(status))
        return Complete(Irp, status, 0);
    IoMarkIrpPending(Irp);
    ExInterlockedInsertTailList(&reads, &Irp->Tail.Overlay.ListEntry, &lock);
    KeReleaseSemaphore(&count, 0, 1, FALSE);
    return STATUS_PENDING;
}

static NTSTATUS Pnp(PDEVICE_OBJECT DeviceObject, PIRP Irp)
{
    PEXTENSION ext = DeviceObject->DeviceExtension;
    NTSTATUS status = IoAcquireRemoveLock(&ext->RemoveLock, Irp);
    if (!NT_SUCCESS(status))
        return Complete(Irp, status, 0);
    if (IoGetCurrentIrpStackLocation(Irp)->MinorFunction == IRP_MN_REMOVE_DEVICE) {
        IoReleaseRemoveLockAndWait(&ext->RemoveLock, Irp);
        Irp->IoStatus.Status = STATUS_SUCCESS;
        status = PassDown(ext->Lower, Irp);
        IoDetachDevice(ext->Lower);
        IoDeleteDevice(DeviceObject);
        return status;
    }
    Irp->IoStatus.Status = STATUS_SUCCESS;
    status = PassDown(ext->Lower, Irp);
    IoReleaseRemoveLock(&ext->RemoveLock, Irp);
    return status;
}

static NTSTATUS AddDevice(PDRIVER_OBJECT DriverObject, PDEVICE_OBJECT Pdo)
{
    PDEVICE_OBJECT device;
    HANDLE thread;
    NTSTATUS status = IoCreateDevice(DriverObject, sizeof(EXTENSION), NULL, FILE_DEVICE_UNKNOWN, 0, FALSE, &device);
    if (!NT_SUCCESS(status))
        return status;
    PEXTENSION ext = device->DeviceExtension;
    IoInitializeRemoveLock(&ext->RemoveLock, 'ecaR', 0, 0);
    KeInitializeSpinLock(&lock);
    InitializeListHead(&reads);
    KeInitializeSemaphore(&count, 0, 100);
    ext->Lower = IoAttachDeviceToDeviceStack(device, Pdo);
    device->Flags &= ~(ULONG)DO_DEVICE_INITIALIZING;
    return PsCreateSystemThread(&thread, THREAD_ALL_ACCESS, NULL, NULL, NULL, Reader, ext);
}

NTSTATUS DriverEntry(PDRIVER_OBJECT DriverObject, PUNICODE_STRING RegistryPath)
{
    UNREFERENCED_PARAMETER(RegistryPath);
    DriverObject->MajorFunction[IRP_MJ_READ] = Read;
    DriverObject->MajorFunction[IRP_MJ_PNP] = Pnp;
    return STATUS_SUCCESS;
}

int main(void)
{
    PDEVICE_OBJECT bottom = WdmCreateBottom(FALSE), top;
    AddDevice(WdmLoadDriver("remove_lock", DriverEntry), bottom);
    top = IoGetAttachedDevice(bottom);
    REQUEST a, b;
    WdmSend(top, IRP_MJ_PNP, IRP_MN_START_DEVICE, 0);
    Start(&a, top, IRP_MJ_READ, 4);
    Start(&b, top, IRP_MJ_READ, 4);
    WdmSend(top, IRP_MJ_PNP, IRP_MN_REMOVE_DEVICE, 0);
    Finish(&a);
    Finish(&b);
    IoDeleteDevice(bottom);
    return WdmFinish();
}
