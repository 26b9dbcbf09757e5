/* mirror.c: a device over two others. It makes a write of two associated packets, which both devices get, and a read of a
   packet that the I/O manager builds, or, where the length is odd, of one with a location of the mirror's own. */
#include "common.h"

enum { SIDES = 2 };

typedef struct { PDEVICE_OBJECT Sides[SIDES]; KGUARDED_MUTEX Mutex; ULONG Writes; } EXTENSION, *PEXTENSION;
typedef struct { PIRP Read; IO_STATUS_BLOCK Iosb; } ASKED, *PASKED;

/* The I/O manager frees the packet then, and completes its master with the last one. */
static NTSTATUS PartDone(PDEVICE_OBJECT DeviceObject, PIRP Irp, PVOID Context)
{
    PIRP master = Context;
    UNREFERENCED_PARAMETER(DeviceObject);
    if (!NT_SUCCESS(Irp->IoStatus.Status))
        InterlockedExchange((LONG *)&master->IoStatus.Status, Irp->IoStatus.Status);
    return STATUS_CONTINUE_COMPLETION;
}

static PIRP MakePart(PDEVICE_OBJECT Self, PDEVICE_OBJECT Side, PIRP Irp)
{
    PIRP part = IoMakeAssociatedIrp(Irp, Side->StackSize);
    if (part == NULL)
        return NULL;
    PIO_STACK_LOCATION next = IoGetNextIrpStackLocation(part);
    next->MajorFunction = IRP_MJ_WRITE;
    next->Parameters.Write = IoGetCurrentIrpStackLocation(Irp)->Parameters.Write;
    part->MdlAddress = Irp->MdlAddress;
    if (NT_SUCCESS(IoSetCompletionRoutineEx(Self, part, PartDone, Irp, TRUE, TRUE, TRUE)))
        return part;
    IoFreeIrp(part);
    return NULL;
}

static NTSTATUS Write(PDEVICE_OBJECT DeviceObject, PIRP Irp)
{
    PEXTENSION ext = DeviceObject->DeviceExtension;
    PIRP parts[SIDES];
    KeAcquireGuardedMutex(&ext->Mutex);
    ext->Writes++;
    KeReleaseGuardedMutex(&ext->Mutex);
    for (ULONG i = 0; i < SIDES; i++) {
        parts[i] = MakePart(DeviceObject, ext->Sides[i], Irp);
        if (parts[i] == NULL) {
            while (i > 0)
                IoFreeIrp(parts[--i]);
            return Complete(Irp, STATUS_INSUFFICIENT_RESOURCES, 0);
        }
    }
    Irp->AssociatedIrp.IrpCount = SIDES;
    Irp->IoStatus.Status = STATUS_SUCCESS;
    Irp->IoStatus.Information = IoGetCurrentIrpStackLocation(Irp)->Parameters.Write.Length;
    IoMarkIrpPending(Irp);
    for (ULONG i = 0; i < SIDES; i++)
        IoCallDriver(ext->Sides[i], parts[i]);
    return STATUS_PENDING;
}

static NTSTATUS ReadDone(PDEVICE_OBJECT DeviceObject, PIRP Irp, PVOID Context)
{
    PASKED asked = Context;
    PIRP read = asked->Read;
    UNREFERENCED_PARAMETER(DeviceObject);
    const NTSTATUS status = Irp->IoStatus.Status;
    const ULONG_PTR length = Irp->IoStatus.Information;
    if (Irp->Flags & IRP_DEALLOCATE_BUFFER)
        ExFreePool(Irp->AssociatedIrp.SystemBuffer); /* of IoBuildAsynchronousFsdRequest */
    IoFreeIrp(Irp);
    ExFreePoolWithTag(asked, 'rriM');
    Complete(read, status, length);
    return STATUS_MORE_PROCESSING_REQUIRED;
}

/* Its own location is the topmost one, and has what its routine needs. */
static PIRP MakeRead(PDEVICE_OBJECT Self, PDEVICE_OBJECT Side, ULONG Length)
{
    PIRP own = IoAllocateIrp(Side->StackSize + 1, FALSE);
    if (own == NULL)
        return NULL;
    IoSetNextIrpStackLocation(own);
    IoGetCurrentIrpStackLocation(own)->DeviceObject = Self;
    IoGetNextIrpStackLocation(own)->MajorFunction = IRP_MJ_READ;
    IoGetNextIrpStackLocation(own)->Parameters.Read.Length = Length;
    return own;
}

static NTSTATUS Read(PDEVICE_OBJECT DeviceObject, PIRP Irp)
{
    PEXTENSION ext = DeviceObject->DeviceExtension;
    const ULONG length = IoGetCurrentIrpStackLocation(Irp)->Parameters.Read.Length;
    LARGE_INTEGER start = { .QuadPart = 0 };
    PASKED asked = ExAllocatePoolWithTag(NonPagedPool, sizeof *asked, 'rriM');
    if (asked == NULL)
        return Complete(Irp, STATUS_INSUFFICIENT_RESOURCES, 0);
    asked->Read = Irp;
    PIRP own = length % 2 ? MakeRead(DeviceObject, ext->Sides[1], length) :
        IoBuildAsynchronousFsdRequest(IRP_MJ_READ, ext->Sides[1], NULL, length, &start, &asked->Iosb);
    if (own == NULL) {
        ExFreePoolWithTag(asked, 'rriM');
        return Complete(Irp, STATUS_INSUFFICIENT_RESOURCES, 0);
    }
    IoMarkIrpPending(Irp);
    IoSetCompletionRoutine(own, ReadDone, asked, TRUE, TRUE, TRUE);
    IoCallDriver(ext->Sides[1], own);
    return STATUS_PENDING;
}

static VOID Unload(PDRIVER_OBJECT DriverObject) { IoDeleteDevice(DriverObject->DeviceObject); }

NTSTATUS DriverEntry(PDRIVER_OBJECT DriverObject, PUNICODE_STRING RegistryPath)
{
    PDEVICE_OBJECT device;
    UNREFERENCED_PARAMETER(RegistryPath);
    const NTSTATUS status = IoCreateDevice(DriverObject, sizeof(EXTENSION), NULL, FILE_DEVICE_DISK, 0, FALSE, &device);
    if (!NT_SUCCESS(status))
        return status;
    KeInitializeGuardedMutex(&((PEXTENSION)device->DeviceExtension)->Mutex);
    DriverObject->MajorFunction[IRP_MJ_READ] = Read;
    DriverObject->MajorFunction[IRP_MJ_WRITE] = Write;
    DriverObject->DriverUnload = Unload;
    return STATUS_SUCCESS;
}

int main(void)
{
    PDRIVER_OBJECT driver = WdmLoadDriver("mirror", DriverEntry);
    const PEXTENSION ext = driver->DeviceObject->DeviceExtension;
    const ULONG rounds = WdmRounds(4);
    for (ULONG i = 0; i < SIDES; i++)
        ext->Sides[i] = WdmCreateBottom(i > 0);
    for (ULONG i = 0; i < rounds; i++) {
        WdmSend(driver->DeviceObject, IRP_MJ_WRITE, 0, 8);
        WdmSend(driver->DeviceObject, IRP_MJ_READ, 0, 8 + i % 2);
    }
    const ULONG writes = ext->Writes;
    for (ULONG i = 0; i < SIDES; i++)
        IoDeleteDevice(ext->Sides[i]);
    WdmUnloadDriver(driver);
    WdmExpectEntries(6 + 21 * rounds);
    return WdmFinish() || writes != rounds;
}
