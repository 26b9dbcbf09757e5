/* lost_wakeup.c: 1 preemption, Hang. The driver's thread clears its event after it has looked into the queue. It is
   preempted between both; the next packet comes there, and its event is cleared. */
#include "race.h"

typedef struct { KSPIN_LOCK Lock; LIST_ENTRY Reads; KEVENT Work; } EXTENSION, *PEXTENSION;
static PDEVICE_OBJECT device;

static VOID Reader(PVOID Context)
{
    PEXTENSION ext = Context;
    for (;;) {
        PLIST_ENTRY e;
        KeWaitForSingleObject(&ext->Work, Executive, KernelMode, FALSE, NULL);
#ifdef RIGHT
        KeClearEvent(&ext->Work);
#endif
        while ((e = ExInterlockedRemoveHeadList(&ext->Reads, &ext->Lock)) != NULL)
            Complete(CONTAINING_RECORD(e, IRP, Tail.Overlay.ListEntry), STATUS_SUCCESS, 0);
#ifndef RIGHT
        KeClearEvent(&ext->Work); /* the fault: a packet may have come since the queue was empty */
#endif
    }
}

static NTSTATUS Read(PDEVICE_OBJECT DeviceObject, PIRP Irp)
{
    PEXTENSION ext = DeviceObject->DeviceExtension;
    IoMarkIrpPending(Irp);
    ExInterlockedInsertTailList(&ext->Reads, &Irp->Tail.Overlay.ListEntry, &ext->Lock);
    KeSetEvent(&ext->Work, IO_NO_INCREMENT, FALSE);
    return STATUS_PENDING;
}

NTSTATUS DriverEntry(PDRIVER_OBJECT DriverObject, PUNICODE_STRING RegistryPath)
{
    HANDLE thread;
    UNREFERENCED_PARAMETER(RegistryPath);
    DriverObject->MajorFunction[IRP_MJ_READ] = Read;
    NTSTATUS status = IoCreateDevice(DriverObject, sizeof(EXTENSION), NULL, FILE_DEVICE_UNKNOWN, 0, FALSE, &device);
    if (!NT_SUCCESS(status))
        return status;
    PEXTENSION ext = device->DeviceExtension;
    KeInitializeSpinLock(&ext->Lock);
    InitializeListHead(&ext->Reads);
    KeInitializeEvent(&ext->Work, NotificationEvent, FALSE);
    return PsCreateSystemThread(&thread, THREAD_ALL_ACCESS, NULL, NULL, NULL, Reader, ext);
}

int main(void)
{
    WdmLoadDriver("lost_wakeup", DriverEntry);
    for (int i = 0; i < ROUNDS; i++)
        WdmSend(device, IRP_MJ_READ, 0, 4);
    return WdmFinish();
}
