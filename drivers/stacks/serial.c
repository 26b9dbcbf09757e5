/* serial.c: a serial port. Writes wait in a queue, one is sent at a time by a timer's deferred call, each can be
   cancelled until it is sent. */
#include "common.h"

typedef struct {
    PDEVICE_OBJECT Self;
    KSPIN_LOCK Lock;
    LIST_ENTRY Queue;
    PIRP Current;
    KTIMER Timer;
    KDPC Dpc;
} EXTENSION, *PEXTENSION;

static VOID CancelQueued(PDEVICE_OBJECT DeviceObject, PIRP Irp)
{
    PEXTENSION ext = DeviceObject->DeviceExtension;
    KIRQL irql;
    IoReleaseCancelSpinLock(Irp->CancelIrql);
    KeAcquireSpinLock(&ext->Lock, &irql);
    RemoveEntryList(&Irp->Tail.Overlay.ListEntry);
    KeReleaseSpinLock(&ext->Lock, irql);
    Complete(Irp, STATUS_CANCELLED, 0);
}

/* The lock is held. The next packet that isn't being cancelled becomes the current one. */
static VOID StartNext(PEXTENSION Ext)
{
    for (PLIST_ENTRY e = Ext->Queue.Flink, next; e != &Ext->Queue && !Ext->Current; e = next) {
        PIRP irp = CONTAINING_RECORD(e, IRP, Tail.Overlay.ListEntry);
        next = e->Flink;
        if (IoSetCancelRoutine(irp, NULL) != NULL) {
            RemoveEntryList(e);
            Ext->Current = irp;
            KeSetTimer(&Ext->Timer, Milliseconds(1), &Ext->Dpc);
        }
    }
}

static VOID Sent(PKDPC Dpc, PVOID Context, PVOID A, PVOID B)
{
    PEXTENSION ext = Context;
    UNREFERENCED_PARAMETER(Dpc), UNREFERENCED_PARAMETER(A), UNREFERENCED_PARAMETER(B);
    KeAcquireSpinLockAtDpcLevel(&ext->Lock);
    PIRP irp = ext->Current;
    ext->Current = NULL;
    StartNext(ext);
    KeReleaseSpinLockFromDpcLevel(&ext->Lock);
    if (irp)
        Complete(irp, STATUS_SUCCESS, IoGetCurrentIrpStackLocation(irp)->Parameters.Write.Length);
}

static NTSTATUS Write(PDEVICE_OBJECT DeviceObject, PIRP Irp)
{
    PEXTENSION ext = DeviceObject->DeviceExtension;
    KIRQL irql;
    KeAcquireSpinLock(&ext->Lock, &irql);
    IoSetCancelRoutine(Irp, CancelQueued);
    if (Irp->Cancel && IoSetCancelRoutine(Irp, NULL) != NULL) {
        KeReleaseSpinLock(&ext->Lock, irql);
        return Complete(Irp, STATUS_CANCELLED, 0);
    }
    IoMarkIrpPending(Irp);
    InsertTailList(&ext->Queue, &Irp->Tail.Overlay.ListEntry);
    if (!ext->Current)
        StartNext(ext);
    KeReleaseSpinLock(&ext->Lock, irql);
    return STATUS_PENDING;
}

NTSTATUS DriverEntry(PDRIVER_OBJECT DriverObject, PUNICODE_STRING RegistryPath)
{
    PDEVICE_OBJECT device;
    UNREFERENCED_PARAMETER(RegistryPath);
    DriverObject->MajorFunction[IRP_MJ_WRITE] = Write;
    NTSTATUS status = IoCreateDevice(DriverObject, sizeof(EXTENSION), NULL, FILE_DEVICE_SERIAL_PORT, 0, FALSE, &device);
    if (!NT_SUCCESS(status))
        return status;
    PEXTENSION ext = device->DeviceExtension;
    KeInitializeSpinLock(&ext->Lock);
    InitializeListHead(&ext->Queue);
    KeInitializeTimer(&ext->Timer);
    KeInitializeDpc(&ext->Dpc, Sent, ext);
    return STATUS_SUCCESS;
}

static PDEVICE_OBJECT port;

static void *writer(void *context)
{
    for (ULONG i = 0; i < WdmRounds(6); i++) {
        REQUEST a, b;
        Start(&a, port, IRP_MJ_WRITE, 4);
        Start(&b, port, IRP_MJ_WRITE, 5);
        if ((i + (ULONG)(intptr_t)context) % 2)
            IoCancelIrp(b.Irp);
        Finish(&b);
        Finish(&a);
    }
    return NULL;
}

int main(void)
{
    pthread_t t[3];
    port = WdmLoadDriver("serial", DriverEntry)->DeviceObject;
    const int threads = (int)WdmRounds(3);
    for (int i = 0; i < threads; i++)
        pthread_create(&t[i], NULL, writer, (void *)(intptr_t)i);
    for (int i = 0; i < threads; i++)
        pthread_join(t[i], NULL);
    return WdmFinish();
}
