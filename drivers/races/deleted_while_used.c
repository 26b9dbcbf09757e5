/* deleted_while_used.c: 1 preemption, UsedAfterFree. A deferred call counts in the extension after it has completed the last
   packet. It is preempted between both, and the device is removed and deleted there. In the right one a work item does the
   same: Windows keeps a device until its work items have returned. */
#include "race.h"

typedef struct { PDEVICE_OBJECT Lower; PIRP Current; KDPC Dpc; LONG Done; } EXTENSION, *PEXTENSION;

static VOID EndRead(PEXTENSION Ext)
{
    Complete(Ext->Current, STATUS_SUCCESS, 0);
    InterlockedIncrement(&Ext->Done); /* the fault, unless something keeps the device */
}

#ifdef RIGHT
static VOID Work(PDEVICE_OBJECT DeviceObject, PVOID Context)
{
    IoFreeWorkItem(Context);
    EndRead(DeviceObject->DeviceExtension);
}
#else
static VOID Called(PKDPC Dpc, PVOID Context, PVOID A, PVOID B)
{
    UNREFERENCED_PARAMETER(Dpc), UNREFERENCED_PARAMETER(A), UNREFERENCED_PARAMETER(B);
    EndRead(Context);
}
#endif

static NTSTATUS Read(PDEVICE_OBJECT DeviceObject, PIRP Irp)
{
    PEXTENSION ext = DeviceObject->DeviceExtension;
    IoMarkIrpPending(Irp);
    ext->Current = Irp;
#ifdef RIGHT
    PIO_WORKITEM item = IoAllocateWorkItem(DeviceObject);
    IoQueueWorkItem(item, Work, DelayedWorkQueue, item);
#else
    KeInitializeDpc(&ext->Dpc, Called, ext);
    KeInsertQueueDpc(&ext->Dpc, NULL, NULL);
#endif
    return STATUS_PENDING;
}

static NTSTATUS Pnp(PDEVICE_OBJECT DeviceObject, PIRP Irp)
{
    PEXTENSION ext = DeviceObject->DeviceExtension;
    const BOOLEAN removes = IoGetCurrentIrpStackLocation(Irp)->MinorFunction == IRP_MN_REMOVE_DEVICE;
    Irp->IoStatus.Status = STATUS_SUCCESS;
    const NTSTATUS status = PassDown(ext->Lower, Irp);
    if (removes) {
        IoDetachDevice(ext->Lower);
        IoDeleteDevice(DeviceObject);
    }
    return status;
}

NTSTATUS DriverEntry(PDRIVER_OBJECT DriverObject, PUNICODE_STRING RegistryPath)
{
    UNREFERENCED_PARAMETER(RegistryPath);
    DriverObject->MajorFunction[IRP_MJ_READ] = Read;
    DriverObject->MajorFunction[IRP_MJ_PNP] = Pnp;
    return STATUS_SUCCESS;
}

int main(void)
{
    PDRIVER_OBJECT driver = WdmLoadDriver("deleted_while_used", DriverEntry);
    PDEVICE_OBJECT bottom = WdmCreateBottom(FALSE), top;
    IoCreateDevice(driver, sizeof(EXTENSION), NULL, FILE_DEVICE_UNKNOWN, 0, FALSE, &top);
    ((PEXTENSION)top->DeviceExtension)->Lower = IoAttachDeviceToDeviceStack(top, bottom);
    WdmSend(top, IRP_MJ_READ, 0, 4);
    WdmSend(top, IRP_MJ_PNP, IRP_MN_REMOVE_DEVICE, 0);
    IoDeleteDevice(bottom);
    return WdmFinish();
}
