/* split.c: a disk-like driver. A write goes down in pieces, in one packet of the driver's own that is used again. */
#include "common.h"

/* Each piece may be sent under the routine of the one before, so there are only so many of them. */
enum { PIECE = 8, MOST_PIECES = 16 };
typedef struct { PDEVICE_OBJECT Self, Lower; } EXTENSION, *PEXTENSION;
typedef struct { PIRP Whole; PEXTENSION Ext; ULONG Left, Piece; ULONG_PTR Written; } TRANSFER;

static IO_COMPLETION_ROUTINE PieceDone;

static VOID SendPiece(PIRP Own, TRANSFER *t)
{
    PIO_STACK_LOCATION next = IoGetNextIrpStackLocation(Own);
    next->MajorFunction = IRP_MJ_WRITE;
    next->Parameters.Write.Length = min(t->Left, t->Piece);
    next->Parameters.Write.ByteOffset.QuadPart = (LONGLONG)t->Written;
    IoSetCompletionRoutine(Own, PieceDone, t, TRUE, TRUE, TRUE);
    IoCallDriver(t->Ext->Lower, Own);
}

static NTSTATUS PieceDone(PDEVICE_OBJECT DeviceObject, PIRP Irp, PVOID Context)
{
    TRANSFER *t = Context;
    const NTSTATUS status = Irp->IoStatus.Status;
    UNREFERENCED_PARAMETER(DeviceObject);
    if (NT_SUCCESS(status)) {
        t->Written += Irp->IoStatus.Information;
        t->Left -= min(t->Left, t->Piece);
        if (t->Left) {
            IoReuseIrp(Irp, STATUS_SUCCESS);
            SendPiece(Irp, t);
            return STATUS_MORE_PROCESSING_REQUIRED;
        }
    }
    IoFreeIrp(Irp);
    Complete(t->Whole, status, t->Written);
    ExFreePoolWithTag(t, 'tilS');
    return STATUS_MORE_PROCESSING_REQUIRED;
}

static NTSTATUS Write(PDEVICE_OBJECT DeviceObject, PIRP Irp)
{
    PEXTENSION ext = DeviceObject->DeviceExtension;
    const ULONG length = IoGetCurrentIrpStackLocation(Irp)->Parameters.Write.Length;
    if (!length)
        return Complete(Irp, STATUS_SUCCESS, 0);
    TRANSFER *t = ExAllocatePoolWithTag(NonPagedPool, sizeof *t, 'tilS');
    PIRP own = IoAllocateIrp(ext->Lower->StackSize, FALSE);
    if (!t || !own) {
        if (own)
            IoFreeIrp(own);
        if (t)
            ExFreePoolWithTag(t, 'tilS');
        return Complete(Irp, STATUS_INSUFFICIENT_RESOURCES, 0);
    }
    *t = (TRANSFER){ Irp, ext, length, max(PIECE, (length + MOST_PIECES - 1) / MOST_PIECES), 0 };
    IoMarkIrpPending(Irp);
    SendPiece(own, t);
    return STATUS_PENDING;
}

static NTSTATUS Pass(PDEVICE_OBJECT DeviceObject, PIRP Irp)
{
    return PassDown(((PEXTENSION)DeviceObject->DeviceExtension)->Lower, Irp);
}

static NTSTATUS AddDevice(PDRIVER_OBJECT DriverObject, PDEVICE_OBJECT Pdo)
{
    PDEVICE_OBJECT device;
    NTSTATUS status = IoCreateDevice(DriverObject, sizeof(EXTENSION), NULL, FILE_DEVICE_DISK, 0, FALSE, &device);
    if (!NT_SUCCESS(status))
        return status;
    PEXTENSION ext = device->DeviceExtension;
    ext->Lower = IoAttachDeviceToDeviceStack(device, Pdo);
    device->Flags |= DO_DIRECT_IO;
    device->Flags &= ~(ULONG)DO_DEVICE_INITIALIZING;
    return STATUS_SUCCESS;
}

NTSTATUS DriverEntry(PDRIVER_OBJECT DriverObject, PUNICODE_STRING RegistryPath)
{
    UNREFERENCED_PARAMETER(RegistryPath);
    for (int i = 0; i <= IRP_MJ_MAXIMUM_FUNCTION; i++)
        DriverObject->MajorFunction[i] = Pass;
    DriverObject->MajorFunction[IRP_MJ_WRITE] = Write;
    DriverObject->DriverExtension->AddDevice = AddDevice;
    return STATUS_SUCCESS;
}

static void use(PDRIVER_OBJECT driver, BOOLEAN late)
{
    PDEVICE_OBJECT bottom = WdmCreateBottom(late), top;
    AddDevice(driver, bottom);
    top = IoGetAttachedDevice(bottom);
    for (ULONG i = 0; i < 8; i++)
        WdmSend(top, IRP_MJ_WRITE, 0, 5 * i);
    REQUEST r;
    Start(&r, top, IRP_MJ_WRITE, 40);
    if (late)
        IoCancelIrp(r.Irp); /* which nobody looks at: it ends as it would have */
    Finish(&r);
}

int main(void)
{
    PDRIVER_OBJECT driver = WdmLoadDriver("split", DriverEntry);
    use(driver, FALSE);
    use(driver, TRUE);
    return WdmFinish();
}
