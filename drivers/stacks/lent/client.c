/* client.c: a driver that has the transport send its packets: one of its own for a write, and its caller's own for a read,
   from the dispatch or from a work item. The length says whether the transport answers later (1), and whether the work
   item sends (2). */
#include "transport.h"

static PIO_WORKITEM Item;

static NTSTATUS Keep(PDEVICE_OBJECT DeviceObject, PIRP Irp, PVOID Context)
{
    UNREFERENCED_PARAMETER(DeviceObject), UNREFERENCED_PARAMETER(Irp);
    KeSetEvent(Context, IO_NO_INCREMENT, FALSE);
    return STATUS_MORE_PROCESSING_REQUIRED;
}

static NTSTATUS Write(PDEVICE_OBJECT DeviceObject, PIRP Irp)
{
    KEVENT done;
    const ULONG how = IoGetCurrentIrpStackLocation(Irp)->Parameters.Write.Length;
    PIRP own = IoAllocateIrp(DeviceObject->StackSize, FALSE);
    NTSTATUS status = STATUS_INSUFFICIENT_RESOURCES;
    Irp->IoStatus.Information = 0;
    if (own != NULL) {
        KeInitializeEvent(&done, NotificationEvent, FALSE);
        IoSetCompletionRoutine(own, Keep, &done, TRUE, TRUE, TRUE);
        TransportSend(own, (how & 1) != 0);
        KeWaitForSingleObject(&done, Executive, KernelMode, FALSE, NULL);
        status = own->IoStatus.Status;
        Irp->IoStatus.Information = min(how, own->IoStatus.Information);
        IoFreeIrp(own);
    }
    Irp->IoStatus.Status = status;
    IoCompleteRequest(Irp, IO_NO_INCREMENT);
    return status;
}

static NTSTATUS ReadDone(PDEVICE_OBJECT DeviceObject, PIRP Irp, PVOID Context)
{
    UNREFERENCED_PARAMETER(DeviceObject);
    Irp->IoStatus.Information = min((ULONG_PTR)Context, Irp->IoStatus.Information);
    return STATUS_CONTINUE_COMPLETION;
}

static VOID SendRead(PIRP Irp)
{
    const ULONG how = IoGetCurrentIrpStackLocation(Irp)->Parameters.Read.Length;
    IoSetCompletionRoutine(Irp, ReadDone, (PVOID)(ULONG_PTR)how, TRUE, TRUE, TRUE);
    TransportSend(Irp, (how & 1) != 0);
}

static VOID SendHeld(PDEVICE_OBJECT DeviceObject, PVOID Context)
{
    UNREFERENCED_PARAMETER(DeviceObject);
    SendRead(Context);
}

static NTSTATUS Read(PDEVICE_OBJECT DeviceObject, PIRP Irp)
{
    UNREFERENCED_PARAMETER(DeviceObject);
    IoMarkIrpPending(Irp);
    if (IoGetCurrentIrpStackLocation(Irp)->Parameters.Read.Length & 2)
        IoQueueWorkItem(Item, SendHeld, DelayedWorkQueue, Irp);
    else
        SendRead(Irp);
    return STATUS_PENDING;
}

static VOID Unload(PDRIVER_OBJECT DriverObject)
{
    IoFreeWorkItem(Item);
    IoDeleteDevice(DriverObject->DeviceObject);
}

NTSTATUS DriverEntry(PDRIVER_OBJECT DriverObject, PUNICODE_STRING RegistryPath)
{
    PDEVICE_OBJECT device;
    UNREFERENCED_PARAMETER(RegistryPath);
    const NTSTATUS status = IoCreateDevice(DriverObject, 0, NULL, FILE_DEVICE_UNKNOWN, 0, FALSE, &device);
    if (!NT_SUCCESS(status))
        return status;
    device->StackSize = 4; /* room for the transport's stack */
    Item = IoAllocateWorkItem(device);
    if (Item == NULL) {
        IoDeleteDevice(device);
        return STATUS_INSUFFICIENT_RESOURCES;
    }
    DriverObject->MajorFunction[IRP_MJ_READ] = Read;
    DriverObject->MajorFunction[IRP_MJ_WRITE] = Write;
    DriverObject->DriverUnload = Unload;
    device->Flags &= ~(ULONG)DO_DEVICE_INITIALIZING;
    return STATUS_SUCCESS;
}
