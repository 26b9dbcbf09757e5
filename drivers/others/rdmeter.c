/*
 * rdmeter.c: an upper filter that meters the reads that pass through it.
 * Every read carries a small context from pool to its completion routine.
 */
#include <wdm.h>

#define METER_TAG 0x7265744DUL      /* "Metr" in memory */

typedef struct _METER_EXTENSION {
    PDEVICE_OBJECT Self;
    PDEVICE_OBJECT Lower;
    IO_REMOVE_LOCK RemoveLock;
    KSPIN_LOCK StatLock;
    FAST_MUTEX LogMutex;
    ULONGLONG BytesRead;
    ULONG ShortReads;
    LONGLONG Slowest;
} METER_EXTENSION, *PMETER_EXTENSION;

typedef struct _READ_CONTEXT {
    PMETER_EXTENSION Extension;
    LARGE_INTEGER Begun;
    ULONG Asked;
} READ_CONTEXT, *PREAD_CONTEXT;

DRIVER_INITIALIZE DriverEntry;
static DRIVER_ADD_DEVICE MeterAddDevice;
static DRIVER_UNLOAD MeterUnload;
static DRIVER_DISPATCH MeterPass, MeterRead, MeterPnp, MeterPower;
static IO_COMPLETION_ROUTINE MeterReadDone, MeterStartDone;

NTSTATUS DriverEntry(PDRIVER_OBJECT DriverObject, PUNICODE_STRING RegistryPath)
{
    ULONG i;

    UNREFERENCED_PARAMETER(RegistryPath);
    for (i = 0; i <= IRP_MJ_MAXIMUM_FUNCTION; i++)
        DriverObject->MajorFunction[i] = MeterPass;
    DriverObject->MajorFunction[IRP_MJ_READ] = MeterRead;
    DriverObject->MajorFunction[IRP_MJ_PNP] = MeterPnp;
    DriverObject->MajorFunction[IRP_MJ_POWER] = MeterPower;
    DriverObject->DriverExtension->AddDevice = MeterAddDevice;
    DriverObject->DriverUnload = MeterUnload;
    return STATUS_SUCCESS;
}

static VOID MeterUnload(PDRIVER_OBJECT DriverObject)
{
    UNREFERENCED_PARAMETER(DriverObject);
}

static NTSTATUS MeterAddDevice(PDRIVER_OBJECT DriverObject, PDEVICE_OBJECT PhysicalDeviceObject)
{
    PDEVICE_OBJECT self;
    PMETER_EXTENSION ext;
    NTSTATUS status;

    status = IoCreateDevice(DriverObject, sizeof(METER_EXTENSION), NULL, FILE_DEVICE_UNKNOWN,
                            FILE_DEVICE_SECURE_OPEN, FALSE, &self);
    if (!NT_SUCCESS(status))
        return status;
    ext = self->DeviceExtension;
    ext->Self = self;
    IoInitializeRemoveLock(&ext->RemoveLock, METER_TAG, 0, 0);
    KeInitializeSpinLock(&ext->StatLock);
    ExInitializeFastMutex(&ext->LogMutex);
    ext->Lower = IoAttachDeviceToDeviceStack(self, PhysicalDeviceObject);
    if (ext->Lower == NULL) {
        IoDeleteDevice(self);
        return STATUS_NO_SUCH_DEVICE;
    }
    self->DeviceType = ext->Lower->DeviceType;
    self->Characteristics = ext->Lower->Characteristics;
    self->Flags |= ext->Lower->Flags & (DO_BUFFERED_IO | DO_DIRECT_IO | DO_POWER_PAGABLE | DO_POWER_INRUSH);
    self->Flags &= ~DO_DEVICE_INITIALIZING;
    return STATUS_SUCCESS;
}

static NTSTATUS MeterFail(PIRP Irp, NTSTATUS Status)
{
    Irp->IoStatus.Status = Status;
    Irp->IoStatus.Information = 0;
    IoCompleteRequest(Irp, IO_NO_INCREMENT);
    return Status;
}

static NTSTATUS MeterPass(PDEVICE_OBJECT DeviceObject, PIRP Irp)
{
    PMETER_EXTENSION ext = DeviceObject->DeviceExtension;
    NTSTATUS status = IoAcquireRemoveLock(&ext->RemoveLock, Irp);

    if (!NT_SUCCESS(status))
        return MeterFail(Irp, status);
    IoSkipCurrentIrpStackLocation(Irp);
    status = IoCallDriver(ext->Lower, Irp);
    IoReleaseRemoveLock(&ext->RemoveLock, Irp);
    return status;
}

static NTSTATUS MeterReadDone(PDEVICE_OBJECT DeviceObject, PIRP Irp, PVOID Context)
{
    PREAD_CONTEXT context = Context;
    PMETER_EXTENSION ext = context->Extension;
    LARGE_INTEGER now;

    UNREFERENCED_PARAMETER(DeviceObject);
#ifndef MISTAKE_1
    if (Irp->PendingReturned)
        IoMarkIrpPending(Irp);
#endif
    KeQuerySystemTime(&now);
#ifdef MISTAKE_10
    ExFreePoolWithTag(context, METER_TAG);
#endif
#ifdef MISTAKE_8
    ExAcquireFastMutex(&ext->LogMutex);
#else
    KIRQL irql;
    KeAcquireSpinLock(&ext->StatLock, &irql);
#endif
    if (NT_SUCCESS(Irp->IoStatus.Status)) {
        ext->BytesRead += Irp->IoStatus.Information;
        if (Irp->IoStatus.Information < context->Asked)
            ext->ShortReads++;
        if (now.QuadPart - context->Begun.QuadPart > ext->Slowest)
            ext->Slowest = now.QuadPart - context->Begun.QuadPart;
    }
#ifdef MISTAKE_8
    ExReleaseFastMutex(&ext->LogMutex);
#else
    KeReleaseSpinLock(&ext->StatLock, irql);
#endif
#ifndef MISTAKE_10
    ExFreePoolWithTag(context, METER_TAG);
#endif
    IoReleaseRemoveLock(&ext->RemoveLock, Irp);
    return STATUS_CONTINUE_COMPLETION;
}

static NTSTATUS MeterRead(PDEVICE_OBJECT DeviceObject, PIRP Irp)
{
    PMETER_EXTENSION ext = DeviceObject->DeviceExtension;
    PREAD_CONTEXT context;
    NTSTATUS status = IoAcquireRemoveLock(&ext->RemoveLock, Irp);

    if (!NT_SUCCESS(status))
        return MeterFail(Irp, status);
    context = ExAllocatePoolWithTag(NonPagedPoolNx, sizeof(*context), METER_TAG);
#ifndef MISTAKE_2
    if (context == NULL) {
        IoReleaseRemoveLock(&ext->RemoveLock, Irp);
        return MeterFail(Irp, STATUS_INSUFFICIENT_RESOURCES);
    }
#endif
    context->Extension = ext;
    context->Asked = IoGetCurrentIrpStackLocation(Irp)->Parameters.Read.Length;
    KeQuerySystemTime(&context->Begun);
#ifdef MISTAKE_3
    IoSkipCurrentIrpStackLocation(Irp);
#else
    IoCopyCurrentIrpStackLocationToNext(Irp);
#endif
#ifdef MISTAKE_6
    IoSetCompletionRoutine(Irp, MeterReadDone, context, TRUE, FALSE, FALSE);
#else
    IoSetCompletionRoutine(Irp, MeterReadDone, context, TRUE, TRUE, TRUE);
#endif
#ifdef MISTAKE_5
    status = IoCallDriver(ext->Lower, Irp);
    if (status != STATUS_PENDING && !NT_SUCCESS(Irp->IoStatus.Status))
        ext->ShortReads++;
    return status;
#else
    return IoCallDriver(ext->Lower, Irp);
#endif
}

static NTSTATUS MeterStartDone(PDEVICE_OBJECT DeviceObject, PIRP Irp, PVOID Context)
{
    UNREFERENCED_PARAMETER(DeviceObject);
    UNREFERENCED_PARAMETER(Irp);
    KeSetEvent(Context, IO_NO_INCREMENT, FALSE);
#ifdef MISTAKE_7
    return STATUS_CONTINUE_COMPLETION;
#else
    return STATUS_MORE_PROCESSING_REQUIRED;
#endif
}

static NTSTATUS MeterPnp(PDEVICE_OBJECT DeviceObject, PIRP Irp)
{
    PMETER_EXTENSION ext = DeviceObject->DeviceExtension;
    PIO_STACK_LOCATION stack = IoGetCurrentIrpStackLocation(Irp);
    NTSTATUS status = IoAcquireRemoveLock(&ext->RemoveLock, Irp);
    KEVENT event;

    if (!NT_SUCCESS(status))
        return MeterFail(Irp, status);
    switch (stack->MinorFunction) {
    case IRP_MN_START_DEVICE:
        KeInitializeEvent(&event, NotificationEvent, FALSE);
        IoCopyCurrentIrpStackLocationToNext(Irp);
        IoSetCompletionRoutine(Irp, MeterStartDone, &event, TRUE, TRUE, TRUE);
        status = IoCallDriver(ext->Lower, Irp);
        if (status == STATUS_PENDING)
            KeWaitForSingleObject(&event, Executive, KernelMode, FALSE, NULL);
        status = Irp->IoStatus.Status;
        if (NT_SUCCESS(status) && (ext->Lower->Characteristics & FILE_REMOVABLE_MEDIA))
            ext->Self->Characteristics |= FILE_REMOVABLE_MEDIA;
        IoCompleteRequest(Irp, IO_NO_INCREMENT);
        IoReleaseRemoveLock(&ext->RemoveLock, Irp);
        return status;
    case IRP_MN_REMOVE_DEVICE:
#ifdef MISTAKE_4
        IoReleaseRemoveLock(&ext->RemoveLock, Irp);
#else
        IoReleaseRemoveLockAndWait(&ext->RemoveLock, Irp);
#endif
        Irp->IoStatus.Status = STATUS_SUCCESS;
        IoSkipCurrentIrpStackLocation(Irp);
        status = IoCallDriver(ext->Lower, Irp);
        IoDetachDevice(ext->Lower);
        IoDeleteDevice(DeviceObject);
        return status;
    case IRP_MN_SURPRISE_REMOVAL:
        Irp->IoStatus.Status = STATUS_SUCCESS;
        break;
    default:
        break;
    }
    IoSkipCurrentIrpStackLocation(Irp);
    status = IoCallDriver(ext->Lower, Irp);
    IoReleaseRemoveLock(&ext->RemoveLock, Irp);
    return status;
}

static NTSTATUS MeterPower(PDEVICE_OBJECT DeviceObject, PIRP Irp)
{
    PMETER_EXTENSION ext = DeviceObject->DeviceExtension;
    NTSTATUS status = IoAcquireRemoveLock(&ext->RemoveLock, Irp);

    if (!NT_SUCCESS(status))
        return MeterFail(Irp, status);
#ifdef MISTAKE_9
    if (IoGetCurrentIrpStackLocation(Irp)->MinorFunction == IRP_MN_SET_POWER) {
        Irp->IoStatus.Status = STATUS_SUCCESS;
        IoCompleteRequest(Irp, IO_NO_INCREMENT);
        IoReleaseRemoveLock(&ext->RemoveLock, Irp);
        return STATUS_SUCCESS;
    }
#endif
    IoSkipCurrentIrpStackLocation(Irp);
    status = IoCallDriver(ext->Lower, Irp);
    IoReleaseRemoveLock(&ext->RemoveLock, Irp);
    return status;
}
