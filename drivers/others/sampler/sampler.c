/*
 * sampler.c: the sampler's reads, its samples and its controls.
 */
#include <ntddk.h>
#include "sampler.h"

DRIVER_INITIALIZE DriverEntry;
static DRIVER_ADD_DEVICE SamplerAddDevice;
static DRIVER_UNLOAD SamplerUnload;
static DRIVER_DISPATCH SamplerCreateClose, SamplerCleanup, SamplerRead, SamplerControl;
static DRIVER_CANCEL SamplerCancel;
static KDEFERRED_ROUTINE SamplerTick;

NTSTATUS SamplerComplete(PIRP Irp, NTSTATUS Status, ULONG_PTR Information)
{
    Irp->IoStatus.Status = Status;
    Irp->IoStatus.Information = Information;
    IoCompleteRequest(Irp, IO_NO_INCREMENT);
    return Status;
}

static VOID SamplerArm(PSAMPLER_EXTENSION ext)
{
    LARGE_INTEGER due;

    due.QuadPart = -10000LL * ext->Stats->Period;
    KeSetTimer(&ext->Timer, due, &ext->Dpc);
}

/* The first read that is still ours to complete; the lock is held. */
static PIRP SamplerNextRead(PSAMPLER_EXTENSION ext)
{
    while (!IsListEmpty(&ext->Queue)) {
        PLIST_ENTRY entry = RemoveHeadList(&ext->Queue);
        PIRP irp = CONTAINING_RECORD(entry, IRP, Tail.Overlay.ListEntry);

#ifdef MISTAKE_12
        IoSetCancelRoutine(irp, NULL);
        return irp;
#else
        if (IoSetCancelRoutine(irp, NULL) != NULL)
            return irp;
        InitializeListHead(entry);      /* the cancel routine is on its way and will unlink it */
#endif
    }
    return NULL;
}

static VOID SamplerTick(PKDPC Dpc, PVOID Context, PVOID Argument1, PVOID Argument2)
{
    PSAMPLER_EXTENSION ext = Context;
    PIRP irp;

    UNREFERENCED_PARAMETER(Dpc);
    UNREFERENCED_PARAMETER(Argument1);
    UNREFERENCED_PARAMETER(Argument2);
    KeAcquireSpinLockAtDpcLevel(&ext->Lock);
    if (!ext->Running) {
        KeReleaseSpinLockFromDpcLevel(&ext->Lock);
        return;
    }
    ext->Stats->Recent[ext->Stats->Taken++ % HISTORY] = KeQueryTimeIncrement();
    irp = SamplerNextRead(ext);
    if (irp != NULL)
        *(PULONG)irp->AssociatedIrp.SystemBuffer = ext->Stats->Taken;
    SamplerArm(ext);
#ifdef MISTAKE_15
    if (irp != NULL) {
        SamplerComplete(irp, STATUS_SUCCESS, sizeof(ULONG));
        IoReleaseRemoveLock(&ext->RemoveLock, irp);
    }
    KeReleaseSpinLockFromDpcLevel(&ext->Lock);
#else
    KeReleaseSpinLockFromDpcLevel(&ext->Lock);
    if (irp != NULL) {
        SamplerComplete(irp, STATUS_SUCCESS, sizeof(ULONG));
        IoReleaseRemoveLock(&ext->RemoveLock, irp);
    }
#endif
}

static VOID SamplerCancel(PDEVICE_OBJECT DeviceObject, PIRP Irp)
{
    PSAMPLER_EXTENSION ext = DeviceObject->DeviceExtension;
    KIRQL irql;

#ifdef MISTAKE_17
    KeAcquireSpinLock(&ext->Lock, &irql);
    RemoveEntryList(&Irp->Tail.Overlay.ListEntry);
    KeReleaseSpinLock(&ext->Lock, irql);
    IoReleaseCancelSpinLock(irql);
#else
    IoReleaseCancelSpinLock(Irp->CancelIrql);
    KeAcquireSpinLock(&ext->Lock, &irql);
    RemoveEntryList(&Irp->Tail.Overlay.ListEntry);
    KeReleaseSpinLock(&ext->Lock, irql);
#endif
    SamplerComplete(Irp, STATUS_CANCELLED, 0);
    IoReleaseRemoveLock(&ext->RemoveLock, Irp);
}

static NTSTATUS SamplerRead(PDEVICE_OBJECT DeviceObject, PIRP Irp)
{
    PSAMPLER_EXTENSION ext = DeviceObject->DeviceExtension;
    NTSTATUS status = IoAcquireRemoveLock(&ext->RemoveLock, Irp);
    KIRQL irql;

    if (!NT_SUCCESS(status))
        return SamplerComplete(Irp, status, 0);
    if (IoGetCurrentIrpStackLocation(Irp)->Parameters.Read.Length < sizeof(ULONG)) {
        IoReleaseRemoveLock(&ext->RemoveLock, Irp);
        return SamplerComplete(Irp, STATUS_BUFFER_TOO_SMALL, 0);
    }
    KeAcquireSpinLock(&ext->Lock, &irql);
    status = ext->Gone ? STATUS_DELETE_PENDING : STATUS_PENDING;
    if (status == STATUS_PENDING) {
        IoSetCancelRoutine(Irp, SamplerCancel);
#ifndef MISTAKE_11
        if (Irp->Cancel && IoSetCancelRoutine(Irp, NULL) != NULL)
            status = STATUS_CANCELLED;
#endif
    }
    if (status == STATUS_PENDING) {
#ifndef MISTAKE_14
        IoMarkIrpPending(Irp);
#endif
        InsertTailList(&ext->Queue, &Irp->Tail.Overlay.ListEntry);
    }
    KeReleaseSpinLock(&ext->Lock, irql);
    if (status != STATUS_PENDING) {
        SamplerComplete(Irp, status, 0);
        IoReleaseRemoveLock(&ext->RemoveLock, Irp);
    }
    return status;
}

static NTSTATUS SamplerControl(PDEVICE_OBJECT DeviceObject, PIRP Irp)
{
    PSAMPLER_EXTENSION ext = DeviceObject->DeviceExtension;
    PIO_STACK_LOCATION stack = IoGetCurrentIrpStackLocation(Irp);
    PVOID buffer = Irp->AssociatedIrp.SystemBuffer;
    NTSTATUS status = IoAcquireRemoveLock(&ext->RemoveLock, Irp);
    ULONG_PTR information = 0;
    KIRQL irql;

    if (!NT_SUCCESS(status))
        return SamplerComplete(Irp, status, 0);
    switch (stack->Parameters.DeviceIoControl.IoControlCode) {
    case IOCTL_SAMPLER_GET_STATS:
#ifndef MISTAKE_13
        if (stack->Parameters.DeviceIoControl.OutputBufferLength < sizeof(SAMPLER_STATS)) {
            status = STATUS_BUFFER_TOO_SMALL;
            break;
        }
#endif
        KeAcquireSpinLock(&ext->Lock, &irql);
        RtlCopyMemory(buffer, ext->Stats, sizeof(SAMPLER_STATS));
        KeReleaseSpinLock(&ext->Lock, irql);
        information = sizeof(SAMPLER_STATS);
        break;
    case IOCTL_SAMPLER_SET_RATE:
        if (stack->Parameters.DeviceIoControl.InputBufferLength < sizeof(ULONG) || *(PULONG)buffer == 0 ||
            *(PULONG)buffer > 1000) {
            status = STATUS_INVALID_PARAMETER;
            break;
        }
        KeAcquireSpinLock(&ext->Lock, &irql);
        ext->Stats->Period = *(PULONG)buffer;
        KeReleaseSpinLock(&ext->Lock, irql);
        break;
    default:
        status = STATUS_INVALID_DEVICE_REQUEST;
        break;
    }
    SamplerComplete(Irp, status, information);
    IoReleaseRemoveLock(&ext->RemoveLock, Irp);
    return status;
}

static NTSTATUS SamplerCreateClose(PDEVICE_OBJECT DeviceObject, PIRP Irp)
{
    UNREFERENCED_PARAMETER(DeviceObject);
    return SamplerComplete(Irp, STATUS_SUCCESS, 0);
}

/* Added later: ends the reads of the file whose last handle is closed. */
static NTSTATUS SamplerCleanup(PDEVICE_OBJECT DeviceObject, PIRP Irp)
{
    PSAMPLER_EXTENSION ext = DeviceObject->DeviceExtension;
    PFILE_OBJECT file = IoGetCurrentIrpStackLocation(Irp)->FileObject;
    LIST_ENTRY ended;
    PLIST_ENTRY entry, next;
    KIRQL irql;

    InitializeListHead(&ended);
    KeAcquireSpinLock(&ext->Lock, &irql);
    for (entry = ext->Queue.Flink; entry != &ext->Queue; entry = next) {
        PIRP read = CONTAINING_RECORD(entry, IRP, Tail.Overlay.ListEntry);
        next = entry->Flink;
        if (IoGetCurrentIrpStackLocation(read)->FileObject == file && IoSetCancelRoutine(read, NULL) != NULL) {
            RemoveEntryList(entry);
            InsertTailList(&ended, entry);
        }
    }
    KeReleaseSpinLock(&ext->Lock, irql);
    while (!IsListEmpty(&ended)) {
        PIRP read = CONTAINING_RECORD(RemoveHeadList(&ended), IRP, Tail.Overlay.ListEntry);
        SamplerComplete(read, STATUS_CANCELLED, 0);
        IoReleaseRemoveLock(&ext->RemoveLock, read);
    }
    return SamplerComplete(Irp, STATUS_SUCCESS, 0);
}

NTSTATUS SamplerPass(PDEVICE_OBJECT DeviceObject, PIRP Irp)
{
    PSAMPLER_EXTENSION ext = DeviceObject->DeviceExtension;
    NTSTATUS status = IoAcquireRemoveLock(&ext->RemoveLock, Irp);

    if (!NT_SUCCESS(status))
        return SamplerComplete(Irp, status, 0);
    IoSkipCurrentIrpStackLocation(Irp);
    status = IoCallDriver(ext->Lower, Irp);
    IoReleaseRemoveLock(&ext->RemoveLock, Irp);
    return status;
}

VOID SamplerRun(PSAMPLER_EXTENSION ext)
{
    KIRQL irql;

    KeAcquireSpinLock(&ext->Lock, &irql);
    ext->Running = TRUE;
    SamplerArm(ext);
    KeReleaseSpinLock(&ext->Lock, irql);
}

VOID SamplerHalt(PSAMPLER_EXTENSION ext)
{
    KIRQL irql;

    KeAcquireSpinLock(&ext->Lock, &irql);
    ext->Running = FALSE;
    KeReleaseSpinLock(&ext->Lock, irql);
    KeCancelTimer(&ext->Timer);
#ifndef MISTAKE_16
    KeFlushQueuedDpcs();
#endif
}

VOID SamplerDrain(PSAMPLER_EXTENSION ext)
{
    PIRP irp;
    KIRQL irql;

    KeAcquireSpinLock(&ext->Lock, &irql);
    ext->Gone = TRUE;
    while ((irp = SamplerNextRead(ext)) != NULL) {
        KeReleaseSpinLock(&ext->Lock, irql);
        SamplerComplete(irp, STATUS_DELETE_PENDING, 0);
        IoReleaseRemoveLock(&ext->RemoveLock, irp);
        KeAcquireSpinLock(&ext->Lock, &irql);
    }
    KeReleaseSpinLock(&ext->Lock, irql);
}

static NTSTATUS SamplerAddDevice(PDRIVER_OBJECT DriverObject, PDEVICE_OBJECT PhysicalDeviceObject)
{
    PDEVICE_OBJECT self;
    PSAMPLER_EXTENSION ext;
    NTSTATUS status;

    status = IoCreateDevice(DriverObject, sizeof(SAMPLER_EXTENSION), NULL, FILE_DEVICE_UNKNOWN,
                            FILE_DEVICE_SECURE_OPEN, FALSE, &self);
    if (!NT_SUCCESS(status))
        return status;
    ext = self->DeviceExtension;
    ext->Pdo = PhysicalDeviceObject;
    IoInitializeRemoveLock(&ext->RemoveLock, SAMPLER_TAG, 0, 0);
    KeInitializeSpinLock(&ext->Lock);
    InitializeListHead(&ext->Queue);
    KeInitializeTimer(&ext->Timer);
    KeInitializeDpc(&ext->Dpc, SamplerTick, ext);
#ifdef MISTAKE_19
    ext->Stats = ExAllocatePoolWithTag(PagedPool, sizeof(SAMPLER_STATS), SAMPLER_TAG);
#else
    ext->Stats = ExAllocatePoolWithTag(NonPagedPoolNx, sizeof(SAMPLER_STATS), SAMPLER_TAG);
#endif
    if (ext->Stats == NULL) {
        IoDeleteDevice(self);
        return STATUS_INSUFFICIENT_RESOURCES;
    }
    RtlZeroMemory(ext->Stats, sizeof(SAMPLER_STATS));
    ext->Stats->Period = 10;
    ext->Lower = IoAttachDeviceToDeviceStack(self, PhysicalDeviceObject);
    if (ext->Lower == NULL) {
        ExFreePoolWithTag(ext->Stats, SAMPLER_TAG);
        IoDeleteDevice(self);
        return STATUS_NO_SUCH_DEVICE;
    }
    self->Flags |= DO_BUFFERED_IO | DO_POWER_PAGABLE;
    self->Flags &= ~DO_DEVICE_INITIALIZING;
    return STATUS_SUCCESS;
}

static VOID SamplerUnload(PDRIVER_OBJECT DriverObject)
{
    UNREFERENCED_PARAMETER(DriverObject);
}

NTSTATUS DriverEntry(PDRIVER_OBJECT DriverObject, PUNICODE_STRING RegistryPath)
{
    ULONG i;

    UNREFERENCED_PARAMETER(RegistryPath);
    for (i = 0; i <= IRP_MJ_MAXIMUM_FUNCTION; i++)
        DriverObject->MajorFunction[i] = SamplerPass;
    DriverObject->MajorFunction[IRP_MJ_CREATE] = SamplerCreateClose;
    DriverObject->MajorFunction[IRP_MJ_CLOSE] = SamplerCreateClose;
    DriverObject->MajorFunction[IRP_MJ_CLEANUP] = SamplerCleanup;
    DriverObject->MajorFunction[IRP_MJ_READ] = SamplerRead;
    DriverObject->MajorFunction[IRP_MJ_DEVICE_CONTROL] = SamplerControl;
    DriverObject->MajorFunction[IRP_MJ_PNP] = SamplerPnp;
    DriverObject->MajorFunction[IRP_MJ_POWER] = SamplerPower;
    DriverObject->DriverExtension->AddDevice = SamplerAddDevice;
    DriverObject->DriverUnload = SamplerUnload;
    return STATUS_SUCCESS;
}
