/* removal.c: a device that goes while reads are in flight. Its remove waits for them; a thread of the driver completes
   them, and is still returning while the device goes. */
#include "common.h"

typedef struct {
    PDEVICE_OBJECT Self, Lower;
    IO_REMOVE_LOCK RemoveLock;
    KSPIN_LOCK Lock;
    LIST_ENTRY Reads;
    KEVENT Work;
    BOOLEAN Stop;
    PVOID Thread;
} EXTENSION, *PEXTENSION;

static VOID CancelRead(PDEVICE_OBJECT DeviceObject, PIRP Irp)
{
    PEXTENSION ext = DeviceObject->DeviceExtension;
    KIRQL irql;
    IoReleaseCancelSpinLock(Irp->CancelIrql);
    KeAcquireSpinLock(&ext->Lock, &irql);
    RemoveEntryList(&Irp->Tail.Overlay.ListEntry);
    KeReleaseSpinLock(&ext->Lock, irql);
    Complete(Irp, STATUS_CANCELLED, 0);
    IoReleaseRemoveLock(&ext->RemoveLock, Irp);
}

static PIRP NextRead(PEXTENSION Ext, BOOLEAN *Stop)
{
    KIRQL irql;
    PIRP found = NULL;
    KeAcquireSpinLock(&Ext->Lock, &irql);
    for (PLIST_ENTRY e = Ext->Reads.Flink; e != &Ext->Reads && !found; e = e->Flink) {
        PIRP irp = CONTAINING_RECORD(e, IRP, Tail.Overlay.ListEntry);
        if (IoSetCancelRoutine(irp, NULL) != NULL)
            found = irp;
    }
    if (found)
        RemoveEntryList(&found->Tail.Overlay.ListEntry);
    *Stop = Ext->Stop;
    KeReleaseSpinLock(&Ext->Lock, irql);
    return found;
}

static VOID Reader(PVOID Context)
{
    PEXTENSION ext = Context;
    BOOLEAN stop = FALSE;
    while (!stop) {
        PIRP irp;
        KeWaitForSingleObject(&ext->Work, Executive, KernelMode, FALSE, NULL);
        while ((irp = NextRead(ext, &stop)) != NULL) {
            Complete(irp, stop ? STATUS_DEVICE_NOT_CONNECTED : STATUS_SUCCESS, 0);
            IoReleaseRemoveLock(&ext->RemoveLock, irp);
        }
    }
    PsTerminateSystemThread(STATUS_SUCCESS);
}

static NTSTATUS Read(PDEVICE_OBJECT DeviceObject, PIRP Irp)
{
    PEXTENSION ext = DeviceObject->DeviceExtension;
    KIRQL irql;
    NTSTATUS status = IoAcquireRemoveLock(&ext->RemoveLock, Irp);
    if (!NT_SUCCESS(status))
        return Complete(Irp, status, 0);
    KeAcquireSpinLock(&ext->Lock, &irql);
    IoMarkIrpPending(Irp);
    IoSetCancelRoutine(Irp, CancelRead);
    if (Irp->Cancel && IoSetCancelRoutine(Irp, NULL) != NULL) {
        KeReleaseSpinLock(&ext->Lock, irql);
        Complete(Irp, STATUS_CANCELLED, 0);
        IoReleaseRemoveLock(&ext->RemoveLock, Irp);
        return STATUS_PENDING;
    }
    InsertTailList(&ext->Reads, &Irp->Tail.Overlay.ListEntry);
    KeReleaseSpinLock(&ext->Lock, irql);
    return STATUS_PENDING;
}

static VOID StopReader(PEXTENSION Ext)
{
    KIRQL irql;
    KeAcquireSpinLock(&Ext->Lock, &irql);
    Ext->Stop = TRUE;
    KeReleaseSpinLock(&Ext->Lock, irql);
    KeSetEvent(&Ext->Work, IO_NO_INCREMENT, FALSE);
}

static NTSTATUS Pnp(PDEVICE_OBJECT DeviceObject, PIRP Irp)
{
    PEXTENSION ext = DeviceObject->DeviceExtension;
    const UCHAR minor = IoGetCurrentIrpStackLocation(Irp)->MinorFunction;
    const BOOLEAN is_handled = minor <= IRP_MN_CANCEL_STOP_DEVICE || minor == IRP_MN_SURPRISE_REMOVAL;
    NTSTATUS status = IoAcquireRemoveLock(&ext->RemoveLock, Irp);
    if (!NT_SUCCESS(status))
        return Complete(Irp, status, 0);
    if (minor == IRP_MN_REMOVE_DEVICE) {
        StopReader(ext);
        IoReleaseRemoveLockAndWait(&ext->RemoveLock, Irp);
        KeWaitForSingleObject(ext->Thread, Executive, KernelMode, FALSE, NULL);
        ObDereferenceObject(ext->Thread);
        Irp->IoStatus.Status = STATUS_SUCCESS;
        status = PassDown(ext->Lower, Irp);
        IoDetachDevice(ext->Lower);
        IoDeleteDevice(DeviceObject);
        return status;
    }
    if (minor == IRP_MN_SURPRISE_REMOVAL)
        KeSetEvent(&ext->Work, IO_NO_INCREMENT, FALSE);
    Irp->IoStatus.Status = is_handled ? STATUS_SUCCESS : Irp->IoStatus.Status;
    status = PassDown(ext->Lower, Irp);
    IoReleaseRemoveLock(&ext->RemoveLock, Irp);
    return status;
}

static KEVENT gave_back;

/* Completes its packet, gives the lock back, and takes its time to return. */
static NTSTATUS Write(PDEVICE_OBJECT DeviceObject, PIRP Irp)
{
    PEXTENSION ext = DeviceObject->DeviceExtension;
    NTSTATUS status = IoAcquireRemoveLock(&ext->RemoveLock, Irp);
    if (!NT_SUCCESS(status))
        return Complete(Irp, status, 0);
    Complete(Irp, STATUS_SUCCESS, 0);
    IoReleaseRemoveLock(&ext->RemoveLock, Irp);
    KeSetEvent(&gave_back, IO_NO_INCREMENT, FALSE);
    Pause(60);
    return STATUS_SUCCESS;
}

/* Power and WMI. */
static NTSTATUS Other(PDEVICE_OBJECT DeviceObject, PIRP Irp)
{
    return PassDown(((PEXTENSION)DeviceObject->DeviceExtension)->Lower, Irp);
}

static NTSTATUS AddDevice(PDRIVER_OBJECT DriverObject, PDEVICE_OBJECT Pdo)
{
    PDEVICE_OBJECT device;
    HANDLE thread;
    NTSTATUS status = IoCreateDevice(DriverObject, sizeof(EXTENSION), NULL, FILE_DEVICE_UNKNOWN, 0, FALSE, &device);
    if (!NT_SUCCESS(status))
        return status;
    PEXTENSION ext = device->DeviceExtension;
    IoInitializeRemoveLock(&ext->RemoveLock, 'vmeR', 0, 0);
    KeInitializeSpinLock(&ext->Lock);
    InitializeListHead(&ext->Reads);
    KeInitializeEvent(&ext->Work, SynchronizationEvent, FALSE);
    status = PsCreateSystemThread(&thread, THREAD_ALL_ACCESS, NULL, NULL, NULL, Reader, ext);
    if (!NT_SUCCESS(status)) {
        IoDeleteDevice(device);
        return status;
    }
    ObReferenceObjectByHandle(thread, THREAD_ALL_ACCESS, NULL, KernelMode, &ext->Thread, NULL);
    ZwClose(thread);
    ext->Lower = IoAttachDeviceToDeviceStack(device, Pdo);
    device->Flags &= ~(ULONG)DO_DEVICE_INITIALIZING;
    return STATUS_SUCCESS;
}

NTSTATUS DriverEntry(PDRIVER_OBJECT DriverObject, PUNICODE_STRING RegistryPath)
{
    UNREFERENCED_PARAMETER(RegistryPath);
    DriverObject->MajorFunction[IRP_MJ_READ] = Read;
    DriverObject->MajorFunction[IRP_MJ_WRITE] = Write;
    DriverObject->MajorFunction[IRP_MJ_PNP] = Pnp;
    DriverObject->MajorFunction[IRP_MJ_POWER] = DriverObject->MajorFunction[IRP_MJ_SYSTEM_CONTROL] = Other;
    DriverObject->DriverExtension->AddDevice = AddDevice;
    return STATUS_SUCCESS;
}

static PDEVICE_OBJECT top;

static void *write_once(void *context)
{
    WdmSend(top, IRP_MJ_WRITE, 0, 1);
    return context;
}

int main(void)
{
    PDRIVER_OBJECT driver = WdmLoadDriver("removal", DriverEntry);
    PDEVICE_OBJECT bottom = WdmCreateBottom(FALSE);
    REQUEST r[4];
    pthread_t t;
    if (!NT_SUCCESS(AddDevice(driver, bottom)))
        return WdmFinish();
    top = IoGetAttachedDevice(bottom);
    WdmSend(top, IRP_MJ_PNP, IRP_MN_START_DEVICE, 0);
    for (int i = 0; i < 4; i++)
        Start(&r[i], top, IRP_MJ_READ, 6);
    IoCancelIrp(r[1].Irp);
    WdmSend(top, IRP_MJ_PNP, IRP_MN_SURPRISE_REMOVAL, 0);
    KeInitializeEvent(&gave_back, NotificationEvent, FALSE);
    pthread_create(&t, NULL, write_once, NULL);
    KeWaitForSingleObject(&gave_back, Executive, KernelMode, FALSE, NULL);
    WdmSend(top, IRP_MJ_PNP, IRP_MN_REMOVE_DEVICE, 0);
    for (int i = 0; i < 4; i++)
        Finish(&r[i]);
    IoDeleteDevice(bottom);
    pthread_join(t, NULL);
    return WdmFinish();
}
