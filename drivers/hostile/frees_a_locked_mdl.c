/* A driver that frees the MDL of a request that it had built, and leaves its pages locked. Where RIGHT is defined it unlocks
   them first. What is read is in its own buffer, as direct I/O has it. */
#include "hostile.h"

static PDEVICE_OBJECT lower;
static UCHAR bytes[16];

static NTSTATUS Ended(PDEVICE_OBJECT DeviceObject, PIRP Irp, PVOID Context)
{
#ifdef RIGHT
    MmUnlockPages(Irp->MdlAddress);
#endif
    IoFreeMdl(Irp->MdlAddress);
    Irp->MdlAddress = NULL;
    IoFreeIrp(Irp);
    return STATUS_MORE_PROCESSING_REQUIRED;
}

static NTSTATUS Read(PDEVICE_OBJECT DeviceObject, PIRP Irp)
{
    LARGE_INTEGER from = { .QuadPart = 0 };
    PIRP own = IoBuildAsynchronousFsdRequest(IRP_MJ_WRITE, lower, bytes, sizeof bytes, &from, NULL);
    if (own == NULL)
        return Complete(Irp, STATUS_INSUFFICIENT_RESOURCES);
    bytes[3] = 0;
    IoSetCompletionRoutine(own, Ended, NULL, TRUE, TRUE, TRUE);
    IoCallDriver(lower, own);
    return Complete(Irp, bytes[3] ? STATUS_SUCCESS : STATUS_UNSUCCESSFUL);
}

/* Of the device that is sent to: it fills what it is given. */
static NTSTATUS Fill(PDEVICE_OBJECT DeviceObject, PIRP Irp)
{
    PUCHAR to = Irp->MdlAddress ? MmGetSystemAddressForMdlSafe(Irp->MdlAddress, NormalPagePriority) : NULL;
    if (to && MmGetMdlByteCount(Irp->MdlAddress) > 3)
        to[3] = 1;
    return Complete(Irp, to ? STATUS_SUCCESS : STATUS_INSUFFICIENT_RESOURCES);
}

NTSTATUS DriverEntry(PDRIVER_OBJECT DriverObject, PUNICODE_STRING RegistryPath)
{
    NTSTATUS status = Begin(DriverObject, 0);
    DriverObject->MajorFunction[IRP_MJ_WRITE] = Fill;
    lower = DriverObject->DeviceObject;
    if (NT_SUCCESS(status))
        lower->Flags |= DO_DIRECT_IO;
    return status;
}
