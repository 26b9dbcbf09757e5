/* retry.c: a driver that sends what failed again, from a thread of its own, after a pause. The thread waits for ever
   where there is nothing to do, also when the run ends. */
#include "common.h"

typedef struct {
    PDEVICE_OBJECT Self, Lower;
    KSPIN_LOCK Lock;
    LIST_ENTRY Failed;
    KSEMAPHORE Count;
} EXTENSION, *PEXTENSION;

static NTSTATUS ReadDone(PDEVICE_OBJECT DeviceObject, PIRP Irp, PVOID Context)
{
    PEXTENSION ext = Context;
    UNREFERENCED_PARAMETER(DeviceObject);
    if (NT_SUCCESS(Irp->IoStatus.Status) || Irp->Cancel)
        return STATUS_CONTINUE_COMPLETION; /* its dispatch has marked */
    ExInterlockedInsertTailList(&ext->Failed, &Irp->Tail.Overlay.ListEntry, &ext->Lock);
    KeReleaseSemaphore(&ext->Count, IO_NO_INCREMENT, 1, FALSE);
    return STATUS_MORE_PROCESSING_REQUIRED;
}

static VOID SendDown(PEXTENSION Ext, PIRP Irp)
{
    IoCopyCurrentIrpStackLocationToNext(Irp);
    IoSetCompletionRoutine(Irp, ReadDone, Ext, TRUE, TRUE, TRUE);
    IoCallDriver(Ext->Lower, Irp);
}

static VOID Retry(PVOID Context)
{
    PEXTENSION ext = Context;
    for (;;) {
        KeWaitForSingleObject(&ext->Count, Executive, KernelMode, FALSE, NULL);
        PLIST_ENTRY e = ExInterlockedRemoveHeadList(&ext->Failed, &ext->Lock);
        if (e) {
            Pause(1);
            SendDown(ext, CONTAINING_RECORD(e, IRP, Tail.Overlay.ListEntry));
        }
    }
}

static NTSTATUS Read(PDEVICE_OBJECT DeviceObject, PIRP Irp)
{
    IoMarkIrpPending(Irp);
    SendDown(DeviceObject->DeviceExtension, Irp);
    return STATUS_PENDING;
}

/* The device below: every second read fails. */
static NTSTATUS FlakyRead(PDEVICE_OBJECT DeviceObject, PIRP Irp)
{
    static LONG reads;
    UNREFERENCED_PARAMETER(DeviceObject);
    const BOOLEAN fails = InterlockedIncrement(&reads) % 2;
    return fails ? Complete(Irp, STATUS_IO_DEVICE_ERROR, 0) : Complete(Irp, STATUS_SUCCESS, 4);
}

static NTSTATUS FlakyEntry(PDRIVER_OBJECT DriverObject, PUNICODE_STRING RegistryPath)
{
    PDEVICE_OBJECT device;
    UNREFERENCED_PARAMETER(RegistryPath);
    DriverObject->MajorFunction[IRP_MJ_READ] = FlakyRead;
    return IoCreateDevice(DriverObject, 0, NULL, FILE_DEVICE_UNKNOWN, 0, FALSE, &device);
}

static NTSTATUS AddDevice(PDRIVER_OBJECT DriverObject, PDEVICE_OBJECT Pdo)
{
    PDEVICE_OBJECT device;
    HANDLE thread;
    NTSTATUS status = IoCreateDevice(DriverObject, sizeof(EXTENSION), NULL, FILE_DEVICE_UNKNOWN, 0, FALSE, &device);
    if (!NT_SUCCESS(status))
        return status;
    PEXTENSION ext = device->DeviceExtension;
    KeInitializeSpinLock(&ext->Lock);
    InitializeListHead(&ext->Failed);
    KeInitializeSemaphore(&ext->Count, 0, 1000);
    ext->Lower = IoAttachDeviceToDeviceStack(device, Pdo);
    device->Flags &= ~(ULONG)DO_DEVICE_INITIALIZING;
    status = PsCreateSystemThread(&thread, THREAD_ALL_ACCESS, NULL, NULL, NULL, Retry, ext);
    if (!NT_SUCCESS(status)) {
        IoDetachDevice(ext->Lower);
        IoDeleteDevice(device);
    }
    return status;
}

NTSTATUS DriverEntry(PDRIVER_OBJECT DriverObject, PUNICODE_STRING RegistryPath)
{
    UNREFERENCED_PARAMETER(RegistryPath);
    DriverObject->MajorFunction[IRP_MJ_READ] = Read;
    return STATUS_SUCCESS;
}

int main(void)
{
    PDRIVER_OBJECT flaky = WdmLoadDriver("flaky", FlakyEntry), driver = WdmLoadDriver("retry", DriverEntry);
    if (!NT_SUCCESS(AddDevice(driver, flaky->DeviceObject)))
        return WdmFinish();
    for (ULONG i = 0; i < WdmRounds(10); i++)
        WdmSend(IoGetAttachedDevice(flaky->DeviceObject), IRP_MJ_READ, 0, 4);
    return WdmFinish();
}
