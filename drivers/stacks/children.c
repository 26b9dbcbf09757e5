/* children.c: a bus with a child device, which sends the requests that it gets to its parent's stack. Every second child
   is deleted before its REMOVE is completed, as many buses do. */
#include "common.h"

typedef struct { BOOLEAN IsChild, GoesFirst; PDEVICE_OBJECT Self, Lower, Parent; } EXTENSION, *PEXTENSION;

/* As a HID or serial enumerator has it: the packet has room for the parent's stack. */
static NTSTATUS ChildRead(PEXTENSION Ext, PIRP Irp)
{
    IoCopyCurrentIrpStackLocationToNext(Irp);
    return IoCallDriver(Ext->Parent, Irp);
}

static NTSTATUS Read(PDEVICE_OBJECT DeviceObject, PIRP Irp)
{
    PEXTENSION ext = DeviceObject->DeviceExtension;
    return ext->IsChild ? ChildRead(ext, Irp) : PassDown(ext->Lower, Irp);
}

static NTSTATUS Pnp(PDEVICE_OBJECT DeviceObject, PIRP Irp)
{
    PEXTENSION ext = DeviceObject->DeviceExtension;
    const UCHAR minor = IoGetCurrentIrpStackLocation(Irp)->MinorFunction;
    if (ext->IsChild && ext->GoesFirst && minor == IRP_MN_REMOVE_DEVICE) {
        IoDeleteDevice(DeviceObject);
        return Complete(Irp, STATUS_SUCCESS, 0);
    }
    if (ext->IsChild) {
        const NTSTATUS status = minor == IRP_MN_START_DEVICE || minor == IRP_MN_REMOVE_DEVICE ? STATUS_SUCCESS :
            Irp->IoStatus.Status;
        Complete(Irp, status, Irp->IoStatus.Information);
        if (minor == IRP_MN_REMOVE_DEVICE)
            IoDeleteDevice(DeviceObject);
        return status;
    }
    const NTSTATUS status = PassDown(ext->Lower, Irp);
    if (minor == IRP_MN_REMOVE_DEVICE) {
        IoDetachDevice(ext->Lower);
        IoDeleteDevice(DeviceObject);
    }
    return status;
}

/* Power and WMI. */
static NTSTATUS Other(PDEVICE_OBJECT DeviceObject, PIRP Irp)
{
    PEXTENSION ext = DeviceObject->DeviceExtension;
    if (!ext->IsChild)
        return PassDown(ext->Lower, Irp);
    const BOOLEAN is_power = IoGetCurrentIrpStackLocation(Irp)->MajorFunction == IRP_MJ_POWER;
    return Complete(Irp, is_power ? STATUS_SUCCESS : Irp->IoStatus.Status, Irp->IoStatus.Information);
}

static PDEVICE_OBJECT AddChild(PDRIVER_OBJECT DriverObject, PDEVICE_OBJECT Parent)
{
    PDEVICE_OBJECT child;
    if (!NT_SUCCESS(IoCreateDevice(DriverObject, sizeof(EXTENSION), NULL, FILE_DEVICE_UNKNOWN, 0, FALSE, &child)))
        return NULL;
    PEXTENSION ext = child->DeviceExtension;
    ext->IsChild = TRUE;
    ext->Parent = Parent;
    child->StackSize = (CCHAR)(Parent->StackSize + 1);
    child->Flags &= ~(ULONG)DO_DEVICE_INITIALIZING;
    return child;
}

static NTSTATUS AddDevice(PDRIVER_OBJECT DriverObject, PDEVICE_OBJECT Pdo)
{
    PDEVICE_OBJECT device;
    NTSTATUS status = IoCreateDevice(DriverObject, sizeof(EXTENSION), NULL, FILE_DEVICE_BUS_EXTENDER, 0, FALSE,
                                     &device);
    if (!NT_SUCCESS(status))
        return status;
    ((PEXTENSION)device->DeviceExtension)->Lower = IoAttachDeviceToDeviceStack(device, Pdo);
    device->Flags &= ~(ULONG)DO_DEVICE_INITIALIZING;
    return STATUS_SUCCESS;
}

NTSTATUS DriverEntry(PDRIVER_OBJECT DriverObject, PUNICODE_STRING RegistryPath)
{
    UNREFERENCED_PARAMETER(RegistryPath);
    DriverObject->MajorFunction[IRP_MJ_READ] = Read;
    DriverObject->MajorFunction[IRP_MJ_PNP] = Pnp;
    DriverObject->MajorFunction[IRP_MJ_POWER] = DriverObject->MajorFunction[IRP_MJ_SYSTEM_CONTROL] = Other;
    DriverObject->DriverExtension->AddDevice = AddDevice;
    return STATUS_SUCCESS;
}

static void use(PDRIVER_OBJECT driver, BOOLEAN late)
{
    PDEVICE_OBJECT bottom = WdmCreateBottom(late), parent, child;
    if (!NT_SUCCESS(AddDevice(driver, bottom))) {
        IoDeleteDevice(bottom);
        return;
    }
    parent = IoGetAttachedDevice(bottom);
    child = AddChild(driver, parent);
    if (child == NULL) {
        WdmSend(parent, IRP_MJ_PNP, IRP_MN_REMOVE_DEVICE, 0);
        IoDeleteDevice(bottom);
        return;
    }
    ((PEXTENSION)child->DeviceExtension)->GoesFirst = late;
    WdmSend(parent, IRP_MJ_PNP, IRP_MN_START_DEVICE, 0);
    WdmSend(child, IRP_MJ_PNP, IRP_MN_START_DEVICE, 0);
    for (ULONG i = 0; i < WdmRounds(5); i++) {
        REQUEST r;
        Start(&r, child, IRP_MJ_READ, 9);
        if (late && i % 2)
            IoCancelIrp(r.Irp);
        Finish(&r);
    }
    WdmSend(child, IRP_MJ_PNP, IRP_MN_QUERY_ID, 0);
    WdmSend(child, IRP_MJ_PNP, IRP_MN_REMOVE_DEVICE, 0);
    WdmSend(parent, IRP_MJ_PNP, IRP_MN_REMOVE_DEVICE, 0);
    IoDeleteDevice(bottom);
}

int main(void)
{
    PDRIVER_OBJECT driver = WdmLoadDriver("children", DriverEntry);
    use(driver, FALSE);
    use(driver, TRUE);
    return WdmFinish();
}
