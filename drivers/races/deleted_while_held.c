/* deleted_while_held.c: 0 preemptions, InFlight. A deferred call completes a read. Where the removal comes before it, the
   device is deleted with the read in it. In the right one each read has a reference to the device: as in Windows the device
   goes with the last one. */
#include "race.h"

typedef struct { PDEVICE_OBJECT Self, Lower; PIRP Current; KDPC Dpc; LONG Done; } EXTENSION, *PEXTENSION;

static VOID Called(PKDPC Dpc, PVOID Context, PVOID A, PVOID B)
{
    PEXTENSION ext = Context;
    UNREFERENCED_PARAMETER(Dpc), UNREFERENCED_PARAMETER(A), UNREFERENCED_PARAMETER(B);
    ext->Done++;
    Complete(ext->Current, STATUS_SUCCESS, 0);
#ifdef RIGHT
    ObDereferenceObject(ext->Self);
#endif
}

static NTSTATUS Read(PDEVICE_OBJECT DeviceObject, PIRP Irp)
{
    PEXTENSION ext = DeviceObject->DeviceExtension;
#ifdef RIGHT
    ObReferenceObject(DeviceObject);
#endif
    IoMarkIrpPending(Irp);
    ext->Current = Irp;
    KeInitializeDpc(&ext->Dpc, Called, ext);
    KeInsertQueueDpc(&ext->Dpc, NULL, NULL);
    return STATUS_PENDING;
}

static NTSTATUS Pnp(PDEVICE_OBJECT DeviceObject, PIRP Irp)
{
    PEXTENSION ext = DeviceObject->DeviceExtension;
    const BOOLEAN removes = IoGetCurrentIrpStackLocation(Irp)->MinorFunction == IRP_MN_REMOVE_DEVICE;
    Irp->IoStatus.Status = STATUS_SUCCESS;
    const NTSTATUS status = PassDown(ext->Lower, Irp);
    if (removes) {
        IoDetachDevice(ext->Lower);
        IoDeleteDevice(DeviceObject);
    }
    return status;
}

NTSTATUS DriverEntry(PDRIVER_OBJECT DriverObject, PUNICODE_STRING RegistryPath)
{
    UNREFERENCED_PARAMETER(RegistryPath);
    DriverObject->MajorFunction[IRP_MJ_READ] = Read;
    DriverObject->MajorFunction[IRP_MJ_PNP] = Pnp;
    return STATUS_SUCCESS;
}

int main(void)
{
    REQUEST read;
    PDRIVER_OBJECT driver = WdmLoadDriver("deleted_while_held", DriverEntry);
    PDEVICE_OBJECT bottom = WdmCreateBottom(FALSE), top;
    IoCreateDevice(driver, sizeof(EXTENSION), NULL, FILE_DEVICE_UNKNOWN, 0, FALSE, &top);
    *(PEXTENSION)top->DeviceExtension = (EXTENSION){ .Self = top, .Lower = IoAttachDeviceToDeviceStack(top, bottom) };
    Start(&read, top, IRP_MJ_READ, 4);
    WdmSend(top, IRP_MJ_PNP, IRP_MN_REMOVE_DEVICE, 0);
    Finish(&read);
    KeFlushQueuedDpcs();
    IoDeleteDevice(bottom);
    return WdmFinish();
}
