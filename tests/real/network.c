/* network.c: the network below a client of Winsock Kernel: it pends each packet, and a thread completes them, one after
   the other, with the status and the information that came as arguments. One that comes with STATUS_PENDING waits. */
#include <wdm.h>

static LIST_ENTRY queue;
static KSPIN_LOCK queue_lock;
static KSEMAPHORE queued;
static PVOID thread;

static NTSTATUS pend(PDEVICE_OBJECT device, PIRP irp)
{
    UNREFERENCED_PARAMETER(device);
    const LONG_PTR status = (LONG_PTR)IoGetCurrentIrpStackLocation(irp)->Parameters.Others.Argument1;
    IoMarkIrpPending(irp);
    if (status == STATUS_PENDING)
        return STATUS_PENDING;
    ExInterlockedInsertTailList(&queue, &irp->Tail.Overlay.ListEntry, &queue_lock);
    KeReleaseSemaphore(&queued, 0, 1, FALSE);
    return STATUS_PENDING;
}

static VOID answer(PVOID context)
{
    UNREFERENCED_PARAMETER(context);
    for (;;) {
        KeWaitForSingleObject(&queued, Executive, KernelMode, FALSE, NULL);
        PLIST_ENTRY entry = ExInterlockedRemoveHeadList(&queue, &queue_lock);
        if (!entry)
            PsTerminateSystemThread(STATUS_SUCCESS);
        PIRP irp = CONTAINING_RECORD(entry, IRP, Tail.Overlay.ListEntry);
        const PIO_STACK_LOCATION location = IoGetCurrentIrpStackLocation(irp);
        irp->IoStatus.Status = (NTSTATUS)(LONG_PTR)location->Parameters.Others.Argument1;
        irp->IoStatus.Information = (ULONG_PTR)location->Parameters.Others.Argument2;
        IoCompleteRequest(irp, IO_NETWORK_INCREMENT);
    }
}

static VOID unload(PDRIVER_OBJECT driver)
{
    KeReleaseSemaphore(&queued, 0, 1, FALSE);
    KeWaitForSingleObject(thread, Executive, KernelMode, FALSE, NULL);
    ObDereferenceObject(thread);
    IoDeleteDevice(driver->DeviceObject);
}

NTSTATUS DriverEntry(PDRIVER_OBJECT driver, PUNICODE_STRING path)
{
    HANDLE handle;
    PDEVICE_OBJECT device;
    UNREFERENCED_PARAMETER(path);
    InitializeListHead(&queue);
    KeInitializeSpinLock(&queue_lock);
    KeInitializeSemaphore(&queued, 0, 1000);
    driver->MajorFunction[IRP_MJ_INTERNAL_DEVICE_CONTROL] = pend;
    driver->DriverUnload = unload;
    PsCreateSystemThread(&handle, THREAD_ALL_ACCESS, NULL, NULL, NULL, answer, NULL);
    ObReferenceObjectByHandle(handle, THREAD_ALL_ACCESS, NULL, KernelMode, &thread, NULL);
    ZwClose(handle);
    return IoCreateDevice(driver, 0, NULL, FILE_DEVICE_NETWORK, 0, FALSE, &device);
}
