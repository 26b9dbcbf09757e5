/* settings.c: a device with a setting in its registry key, an interface by which others find it, and an event by handle
   that is set when as many reads as the setting says have come. */
#include "common.h"

typedef struct {
    PDEVICE_OBJECT Self, Lower;
    UNICODE_STRING Link;
    HANDLE Handle;
    PKEVENT Enough;
    ULONG Most;
    LONG Reads;
} EXTENSION, *PEXTENSION;
typedef struct { KEY_VALUE_PARTIAL_INFORMATION Head; UCHAR More[4]; } VALUE;
static const GUID OurInterface = { 0x8a1c0de5, 0x7e57, 0x4d0c, { 1, 2, 3, 4, 5, 6, 7, 8 } };
enum { USUAL = 3 };

/* Reads the setting; where it isn't there, it is written. */
static NTSTATUS ReadSetting(PEXTENSION Ext, PDEVICE_OBJECT Pdo)
{
    UNICODE_STRING name = RTL_CONSTANT_STRING(L"Most");
    VALUE value;
    ULONG length;
    HANDLE key;
    NTSTATUS status = IoOpenDeviceRegistryKey(Pdo, PLUGPLAY_REGKEY_DEVICE, KEY_ALL_ACCESS, &key);
    if (!NT_SUCCESS(status))
        return status;
    Ext->Most = USUAL;
    status = ZwQueryValueKey(key, &name, KeyValuePartialInformation, &value, sizeof value, &length);
    if (NT_SUCCESS(status) && value.Head.Type == REG_DWORD)
        RtlCopyMemory(&Ext->Most, value.Head.Data, sizeof Ext->Most);
    else if (status == STATUS_OBJECT_NAME_NOT_FOUND)
        status = ZwSetValueKey(key, &name, 0, REG_DWORD, &Ext->Most, sizeof Ext->Most);
    ZwClose(key);
    return status;
}

static NTSTATUS MakeEvent(PEXTENSION Ext)
{
    OBJECT_ATTRIBUTES attributes;
    InitializeObjectAttributes(&attributes, NULL, OBJ_KERNEL_HANDLE, NULL, NULL);
    NTSTATUS status = ZwCreateEvent(&Ext->Handle, EVENT_ALL_ACCESS, &attributes, NotificationEvent, FALSE);
    if (!NT_SUCCESS(status))
        return status;
    status = ObReferenceObjectByHandle(Ext->Handle, EVENT_MODIFY_STATE, *ExEventObjectType, KernelMode,
                                       (PVOID *)&Ext->Enough, NULL);
    if (!NT_SUCCESS(status))
        ZwClose(Ext->Handle);
    return status;
}

static VOID GiveBackEvent(PEXTENSION Ext)
{
    ObDereferenceObject(Ext->Enough);
    ZwClose(Ext->Handle);
}

static NTSTATUS Read(PDEVICE_OBJECT DeviceObject, PIRP Irp)
{
    const PEXTENSION ext = DeviceObject->DeviceExtension;
    if ((ULONG)InterlockedIncrement(&ext->Reads) >= ext->Most)
        KeSetEvent(ext->Enough, IO_NO_INCREMENT, FALSE);
    return Complete(Irp, STATUS_SUCCESS, 0);
}

static NTSTATUS StartDevice(PEXTENSION Ext, PIRP Irp)
{
    IoForwardIrpSynchronously(Ext->Lower, Irp);
    const NTSTATUS status = Irp->IoStatus.Status;
    if (NT_SUCCESS(status))
        IoSetDeviceInterfaceState(&Ext->Link, TRUE);
    return Complete(Irp, status, Irp->IoStatus.Information);
}

static NTSTATUS Remove(PEXTENSION Ext, PIRP Irp)
{
    PDEVICE_OBJECT lower = Ext->Lower, self = Ext->Self;
    IoSetDeviceInterfaceState(&Ext->Link, FALSE);
    RtlFreeUnicodeString(&Ext->Link);
    GiveBackEvent(Ext);
    Irp->IoStatus.Status = STATUS_SUCCESS;
    const NTSTATUS status = PassDown(lower, Irp);
    IoDetachDevice(lower);
    IoDeleteDevice(self);
    return status;
}

static NTSTATUS Pnp(PDEVICE_OBJECT DeviceObject, PIRP Irp)
{
    const PEXTENSION ext = DeviceObject->DeviceExtension;
    switch (IoGetCurrentIrpStackLocation(Irp)->MinorFunction) {
    case IRP_MN_START_DEVICE: return StartDevice(ext, Irp);
    case IRP_MN_REMOVE_DEVICE: return Remove(ext, Irp);
    case IRP_MN_SURPRISE_REMOVAL: Irp->IoStatus.Status = STATUS_SUCCESS; break;
    default: break;
    }
    return PassDown(ext->Lower, Irp);
}

/* Power and WMI. */
static NTSTATUS Other(PDEVICE_OBJECT DeviceObject, PIRP Irp)
{
    return PassDown(((PEXTENSION)DeviceObject->DeviceExtension)->Lower, Irp);
}

static NTSTATUS AddDevice(PDRIVER_OBJECT DriverObject, PDEVICE_OBJECT Pdo)
{
    PDEVICE_OBJECT device;
    NTSTATUS status = IoCreateDevice(DriverObject, sizeof(EXTENSION), NULL, FILE_DEVICE_UNKNOWN, 0, FALSE, &device);
    if (!NT_SUCCESS(status))
        return status;
    const PEXTENSION ext = device->DeviceExtension;
    ext->Self = device;
    status = ReadSetting(ext, Pdo);
    if (NT_SUCCESS(status))
        status = MakeEvent(ext);
    if (!NT_SUCCESS(status)) {
        IoDeleteDevice(device);
        return status;
    }
    status = IoRegisterDeviceInterface(Pdo, &OurInterface, NULL, &ext->Link);
    if (!NT_SUCCESS(status)) {
        GiveBackEvent(ext);
        IoDeleteDevice(device);
        return status;
    }
    ext->Lower = IoAttachDeviceToDeviceStack(device, Pdo);
    device->Flags &= ~(ULONG)DO_DEVICE_INITIALIZING;
    return STATUS_SUCCESS;
}

static VOID Unload(PDRIVER_OBJECT DriverObject) { UNREFERENCED_PARAMETER(DriverObject); }

NTSTATUS DriverEntry(PDRIVER_OBJECT DriverObject, PUNICODE_STRING RegistryPath)
{
    UNREFERENCED_PARAMETER(RegistryPath);
    DriverObject->MajorFunction[IRP_MJ_READ] = Read;
    DriverObject->MajorFunction[IRP_MJ_PNP] = Pnp;
    DriverObject->MajorFunction[IRP_MJ_POWER] = DriverObject->MajorFunction[IRP_MJ_SYSTEM_CONTROL] = Other;
    DriverObject->DriverExtension->AddDevice = AddDevice;
    DriverObject->DriverUnload = Unload;
    return STATUS_SUCCESS;
}

/* Whether programs find the device: a list of links that ends with an empty one. */
static BOOLEAN is_found(void)
{
    PWSTR links = NULL;
    const BOOLEAN found = NT_SUCCESS(IoGetDeviceInterfaces(&OurInterface, NULL, 0, &links)) && links && *links;
    if (links)
        ExFreePool(links);
    return found;
}

static BOOLEAN use(PDEVICE_OBJECT bottom)
{
    PDEVICE_OBJECT top = IoGetAttachedDevice(bottom);
    WdmPlugIn(bottom);
    const PEXTENSION ext = top->DeviceExtension;
    BOOLEAN is_right = is_found() && ext->Most == USUAL;
    for (ULONG i = 0; i < USUAL; i++) {
        is_right &= !KeReadStateEvent(ext->Enough);
        WdmSend(top, IRP_MJ_READ, 0, 4);
    }
    is_right &= KeReadStateEvent(ext->Enough) != 0;
    WdmUnplug(bottom, FALSE);
    return is_right && !is_found();
}

int main(void)
{
    PDRIVER_OBJECT driver = WdmLoadDriver("settings", DriverEntry);
    PDEVICE_OBJECT bottom = WdmCreateBottom(FALSE);
    const BOOLEAN is_right = !NT_SUCCESS(WdmAddDevice(driver, bottom)) || use(bottom);
    IoDeleteDevice(bottom);
    WdmUnloadDriver(driver);
    WdmExpectEntries(3 + 3 * USUAL);
    return WdmFinish() || !is_right;
}
