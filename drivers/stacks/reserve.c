/* reserve.c: a disk-like driver whose packets stand in memory of its own. A read goes down in two halves, in a packet
   that is initialized in a pool block for each; a flush in one within the device extension, one at a time. */
#include "common.h"

enum { DEEPEST = 4 };
typedef struct {
    PDEVICE_OBJECT Self, Lower;
    KMUTEX OneAtATime;
    union { IRP Irp; UCHAR Room[sizeof(IRP) + DEEPEST * sizeof(IO_STACK_LOCATION)]; } Spare;
} EXTENSION, *PEXTENSION;

static IO_COMPLETION_ROUTINE HalfDone;

/* What of the read is left, and what was read, stand in the whole packet's DriverContext. */
static VOID SendHalf(PEXTENSION Ext, PIRP Whole, PIRP Own)
{
    const CCHAR locations = Ext->Lower->StackSize;
    const ULONG_PTR left = (ULONG_PTR)Whole->Tail.Overlay.DriverContext[0];
    IoInitializeIrp(Own, IoSizeOfIrp(locations), locations);
    PIO_STACK_LOCATION next = IoGetNextIrpStackLocation(Own);
    next->MajorFunction = IRP_MJ_READ;
    next->Parameters.Read.Length = (ULONG)(Whole->Tail.Overlay.DriverContext[1] ? left : (left + 1) / 2);
    IoSetCompletionRoutine(Own, HalfDone, Whole, TRUE, TRUE, TRUE);
    IoCallDriver(Ext->Lower, Own);
}

static NTSTATUS HalfDone(PDEVICE_OBJECT DeviceObject, PIRP Irp, PVOID Context)
{
    PIRP whole = Context;
    ULONG_PTR *left = (ULONG_PTR *)&whole->Tail.Overlay.DriverContext[0];
    ULONG_PTR *got = (ULONG_PTR *)&whole->Tail.Overlay.DriverContext[1];
    const NTSTATUS status = Irp->IoStatus.Status;
    UNREFERENCED_PARAMETER(DeviceObject);
    *got += Irp->IoStatus.Information;
    *left -= min(*left, Irp->IoStatus.Information);
    if (NT_SUCCESS(status) && *left && Irp->IoStatus.Information) {
        SendHalf(IoGetCurrentIrpStackLocation(whole)->DeviceObject->DeviceExtension, whole, Irp);
        return STATUS_MORE_PROCESSING_REQUIRED;
    }
    ExFreePoolWithTag(Irp, 'vseR');
    Complete(whole, status, *got);
    return STATUS_MORE_PROCESSING_REQUIRED;
}

static NTSTATUS Read(PDEVICE_OBJECT DeviceObject, PIRP Irp)
{
    PEXTENSION ext = DeviceObject->DeviceExtension;
    PIRP own = ExAllocatePoolWithTag(NonPagedPool, IoSizeOfIrp(ext->Lower->StackSize), 'vseR');
    if (!own)
        return Complete(Irp, STATUS_INSUFFICIENT_RESOURCES, 0);
    Irp->Tail.Overlay.DriverContext[0] = (PVOID)(ULONG_PTR)IoGetCurrentIrpStackLocation(Irp)->Parameters.Read.Length;
    Irp->Tail.Overlay.DriverContext[1] = NULL;
    IoMarkIrpPending(Irp);
    SendHalf(ext, Irp, own);
    return STATUS_PENDING;
}

static NTSTATUS FlushDone(PDEVICE_OBJECT DeviceObject, PIRP Irp, PVOID Context)
{
    UNREFERENCED_PARAMETER(DeviceObject), UNREFERENCED_PARAMETER(Irp);
    KeSetEvent(Context, IO_NO_INCREMENT, FALSE);
    return STATUS_MORE_PROCESSING_REQUIRED;
}

/* It needs no memory, so that it works where there is none. */
static NTSTATUS Flush(PDEVICE_OBJECT DeviceObject, PIRP Irp)
{
    PEXTENSION ext = DeviceObject->DeviceExtension;
    PIRP own = &ext->Spare.Irp;
    KEVENT done;
    KeInitializeEvent(&done, NotificationEvent, FALSE);
    KeWaitForSingleObject(&ext->OneAtATime, Executive, KernelMode, FALSE, NULL);
    IoInitializeIrp(own, sizeof ext->Spare, ext->Lower->StackSize);
    IoGetNextIrpStackLocation(own)->MajorFunction = IRP_MJ_FLUSH_BUFFERS;
    IoSetCompletionRoutine(own, FlushDone, &done, TRUE, TRUE, TRUE);
    IoCallDriver(ext->Lower, own);
    KeWaitForSingleObject(&done, Executive, KernelMode, FALSE, NULL);
    const NTSTATUS status = own->IoStatus.Status;
    KeReleaseMutex(&ext->OneAtATime, FALSE);
    return Complete(Irp, status, 0);
}

static NTSTATUS Pass(PDEVICE_OBJECT DeviceObject, PIRP Irp)
{
    return PassDown(((PEXTENSION)DeviceObject->DeviceExtension)->Lower, Irp);
}

static NTSTATUS Pnp(PDEVICE_OBJECT DeviceObject, PIRP Irp)
{
    PEXTENSION ext = DeviceObject->DeviceExtension;
    const UCHAR minor = IoGetCurrentIrpStackLocation(Irp)->MinorFunction;
    const NTSTATUS status = Pass(DeviceObject, Irp);
    if (minor == IRP_MN_REMOVE_DEVICE) {
        IoDetachDevice(ext->Lower);
        IoDeleteDevice(DeviceObject);
    }
    return status;
}

static NTSTATUS AddDevice(PDRIVER_OBJECT DriverObject, PDEVICE_OBJECT Pdo)
{
    PDEVICE_OBJECT device;
    NTSTATUS status = IoCreateDevice(DriverObject, sizeof(EXTENSION), NULL, FILE_DEVICE_DISK, 0, FALSE, &device);
    if (!NT_SUCCESS(status))
        return status;
    PEXTENSION ext = device->DeviceExtension;
    KeInitializeMutex(&ext->OneAtATime, 0);
    ext->Lower = IoAttachDeviceToDeviceStack(device, Pdo);
    if (ext->Lower->StackSize > DEEPEST) {
        IoDetachDevice(ext->Lower);
        IoDeleteDevice(device);
        return STATUS_INSUFFICIENT_RESOURCES;
    }
    device->Flags |= DO_DIRECT_IO;
    device->Flags &= ~(ULONG)DO_DEVICE_INITIALIZING;
    return STATUS_SUCCESS;
}

static VOID Unload(PDRIVER_OBJECT DriverObject) { UNREFERENCED_PARAMETER(DriverObject); }

NTSTATUS DriverEntry(PDRIVER_OBJECT DriverObject, PUNICODE_STRING RegistryPath)
{
    UNREFERENCED_PARAMETER(RegistryPath);
    for (int i = 0; i <= IRP_MJ_MAXIMUM_FUNCTION; i++)
        DriverObject->MajorFunction[i] = Pass;
    DriverObject->MajorFunction[IRP_MJ_READ] = Read;
    DriverObject->MajorFunction[IRP_MJ_FLUSH_BUFFERS] = Flush;
    DriverObject->MajorFunction[IRP_MJ_PNP] = Pnp;
    DriverObject->DriverExtension->AddDevice = AddDevice;
    DriverObject->DriverUnload = Unload;
    return STATUS_SUCCESS;
}

static void use(PDRIVER_OBJECT driver, BOOLEAN late)
{
    PDEVICE_OBJECT bottom = WdmCreateBottom(late), top;
    WdmAddDevice(driver, bottom);
    top = IoGetAttachedDevice(bottom);
    WdmSend(top, IRP_MJ_READ, 0, 2);
    WdmSend(top, IRP_MJ_FLUSH_BUFFERS, 0, 0);
    WdmSend(top, IRP_MJ_READ, 0, 7);
    WdmSend(top, IRP_MJ_READ, 0, 40);
    WdmSend(top, IRP_MJ_FLUSH_BUFFERS, 0, 0);
    WdmSend(top, IRP_MJ_PNP, IRP_MN_REMOVE_DEVICE, 0);
}

int main(void)
{
    PDRIVER_OBJECT driver = WdmLoadDriver("reserve", DriverEntry);
    use(driver, TRUE);
    use(driver, FALSE);
    WdmUnloadDriver(driver);
    return WdmFinish();
}
