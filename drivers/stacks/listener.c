/* listener.c: a driver that is told when a device's interface comes, opens the device from a work item, asks it, and is
   told of what it reports from then on. The device is of another driver in this file. */
#include <initguid.h>
#include "common.h"

DEFINE_GUID(SourceInterface, 0x5a0fca1c, 0x3a1c, 0x4f62, 0x9d, 0x50, 0x7e, 0x44, 0x11, 0x02, 0x6b, 0x9a);
DEFINE_GUID(SourceHasNews, 0x5a0fca1d, 0x3a1c, 0x4f62, 0x9d, 0x50, 0x7e, 0x44, 0x11, 0x02, 0x6b, 0x9a);
enum { ASK = CTL_CODE(FILE_DEVICE_UNKNOWN, 0x801, METHOD_BUFFERED, FILE_ANY_ACCESS) };

typedef struct {
    PDRIVER_OBJECT Driver;
    PVOID OnArrival, OnNews;
    PIO_WORKITEM Opening;
    UNICODE_STRING Link;
    PFILE_OBJECT File;
    PDEVICE_OBJECT Device;
    LONG News;
    KEVENT Heard; /* of two news */
} EXTENSION, *PEXTENSION;

static NTSTATUS HasNews(PVOID Notification, PVOID Context)
{
    const TARGET_DEVICE_CUSTOM_NOTIFICATION *news = Notification;
    PEXTENSION ext = Context;
    if (IsEqualGUID(&news->Event, &SourceHasNews) && InterlockedIncrement(&ext->News) == 2)
        KeSetEvent(&ext->Heard, IO_NO_INCREMENT, FALSE);
    return STATUS_SUCCESS;
}

static VOID Ask(PDEVICE_OBJECT Device)
{
    IO_STATUS_BLOCK iosb;
    KEVENT done;
    KeInitializeEvent(&done, NotificationEvent, FALSE);
    PIRP irp = IoBuildDeviceIoControlRequest(ASK, Device, NULL, 0, NULL, 0, FALSE, &done, &iosb);
    if (irp && IoCallDriver(Device, irp) == STATUS_PENDING)
        KeWaitForSingleObject(&done, Executive, KernelMode, FALSE, NULL);
}

static VOID Open(PDEVICE_OBJECT DeviceObject, PVOID Context)
{
    PEXTENSION ext = Context;
    UNREFERENCED_PARAMETER(DeviceObject);
    if (!NT_SUCCESS(IoGetDeviceObjectPointer(&ext->Link, FILE_READ_DATA, &ext->File, &ext->Device)))
        return;
    IoRegisterPlugPlayNotification(EventCategoryTargetDeviceChange, 0, ext->File, ext->Driver, HasNews, ext, &ext->OnNews);
    Ask(ext->Device);
    Ask(ext->Device);
}

/* In a notification a driver doesn't wait for the device that is told of. */
static NTSTATUS Comes(PVOID Notification, PVOID Context)
{
    const DEVICE_INTERFACE_CHANGE_NOTIFICATION *change = Notification;
    PEXTENSION ext = Context;
    if (IsEqualGUID(&change->Event, &GUID_DEVICE_INTERFACE_ARRIVAL) && !ext->Link.Buffer &&
        NT_SUCCESS(RtlDuplicateUnicodeString(0, change->SymbolicLinkName, &ext->Link)))
        IoQueueWorkItem(ext->Opening, Open, DelayedWorkQueue, ext);
    return STATUS_SUCCESS;
}

static VOID Unload(PDRIVER_OBJECT DriverObject)
{
    PEXTENSION ext = DriverObject->DeviceObject->DeviceExtension;
    IoUnregisterPlugPlayNotification(ext->OnArrival);
    if (ext->OnNews)
        IoUnregisterPlugPlayNotificationEx(ext->OnNews);
    if (ext->File)
        ObDereferenceObject(ext->File);
    if (ext->Link.Buffer)
        RtlFreeUnicodeString(&ext->Link);
    IoFreeWorkItem(ext->Opening);
    IoDeleteDevice(DriverObject->DeviceObject);
}

NTSTATUS DriverEntry(PDRIVER_OBJECT DriverObject, PUNICODE_STRING RegistryPath)
{
    PDEVICE_OBJECT device;
    UNREFERENCED_PARAMETER(RegistryPath);
    DriverObject->DriverUnload = Unload;
    NTSTATUS status = IoCreateDevice(DriverObject, sizeof(EXTENSION), NULL, FILE_DEVICE_UNKNOWN, 0, FALSE, &device);
    if (!NT_SUCCESS(status))
        return status;
    PEXTENSION ext = device->DeviceExtension;
    ext->Driver = DriverObject;
    KeInitializeEvent(&ext->Heard, NotificationEvent, FALSE);
    ext->Opening = IoAllocateWorkItem(device);
    status = ext->Opening ? STATUS_SUCCESS : STATUS_INSUFFICIENT_RESOURCES;
    if (NT_SUCCESS(status))
        status = IoRegisterPlugPlayNotification(EventCategoryDeviceInterfaceChange,
                                                PNPNOTIFY_DEVICE_INTERFACE_INCLUDE_EXISTING_INTERFACES,
                                                (PVOID)&SourceInterface, DriverObject, Comes, ext, &ext->OnArrival);
    if (!NT_SUCCESS(status)) {
        if (ext->Opening)
            IoFreeWorkItem(ext->Opening);
        IoDeleteDevice(device);
    }
    return status;
}

/* The device, which has news whenever it is asked. */
typedef struct { PDEVICE_OBJECT Self, Lower, Pdo; UNICODE_STRING Link; } SOURCE, *PSOURCE;

static NTSTATUS Tell(PDEVICE_OBJECT DeviceObject, PIRP Irp)
{
    PSOURCE source = DeviceObject->DeviceExtension;
    TARGET_DEVICE_CUSTOM_NOTIFICATION news = { .Version = 1, .Size = sizeof news, .Event = SourceHasNews,
                                               .NameBufferOffset = -1 };
    IoReportTargetDeviceChange(source->Pdo, &news);
    return Complete(Irp, STATUS_SUCCESS, 0);
}

static NTSTATUS OpenOrClose(PDEVICE_OBJECT DeviceObject, PIRP Irp)
{
    UNREFERENCED_PARAMETER(DeviceObject);
    return Complete(Irp, STATUS_SUCCESS, 0);
}

static NTSTATUS Pnp(PDEVICE_OBJECT DeviceObject, PIRP Irp)
{
    PSOURCE source = DeviceObject->DeviceExtension;
    const UCHAR minor = IoGetCurrentIrpStackLocation(Irp)->MinorFunction;
    if (minor == IRP_MN_START_DEVICE) {
        const NTSTATUS status = IoForwardIrpSynchronously(source->Lower, Irp) ? Irp->IoStatus.Status : STATUS_UNSUCCESSFUL;
        if (NT_SUCCESS(status))
            IoSetDeviceInterfaceState(&source->Link, TRUE);
        return Complete(Irp, status, 0);
    }
    if (minor != IRP_MN_REMOVE_DEVICE)
        return PassDown(source->Lower, Irp);
    IoSetDeviceInterfaceState(&source->Link, FALSE);
    RtlFreeUnicodeString(&source->Link);
    const NTSTATUS status = PassDown(source->Lower, Irp);
    IoDetachDevice(source->Lower);
    IoDeleteDevice(DeviceObject);
    return status;
}

static NTSTATUS AddDevice(PDRIVER_OBJECT DriverObject, PDEVICE_OBJECT Pdo)
{
    PDEVICE_OBJECT device;
    NTSTATUS status = IoCreateDevice(DriverObject, sizeof(SOURCE), NULL, FILE_DEVICE_UNKNOWN, 0, FALSE, &device);
    if (!NT_SUCCESS(status))
        return status;
    PSOURCE source = device->DeviceExtension;
    *source = (SOURCE){ .Self = device, .Pdo = Pdo };
    status = IoRegisterDeviceInterface(Pdo, &SourceInterface, NULL, &source->Link);
    if (!NT_SUCCESS(status)) {
        IoDeleteDevice(device);
        return status;
    }
    source->Lower = IoAttachDeviceToDeviceStack(device, Pdo);
    device->Flags &= ~(ULONG)DO_DEVICE_INITIALIZING;
    return STATUS_SUCCESS;
}

static NTSTATUS SourceEntry(PDRIVER_OBJECT DriverObject, PUNICODE_STRING RegistryPath)
{
    UNREFERENCED_PARAMETER(RegistryPath);
    for (int i = 0; i <= IRP_MJ_MAXIMUM_FUNCTION; i++)
        DriverObject->MajorFunction[i] = OpenOrClose;
    DriverObject->MajorFunction[IRP_MJ_DEVICE_CONTROL] = Tell;
    DriverObject->MajorFunction[IRP_MJ_PNP] = Pnp;
    DriverObject->DriverExtension->AddDevice = AddDevice;
    return STATUS_SUCCESS;
}

/* The device comes before the listener, or behind it. */
static void use(BOOLEAN comes_first)
{
    PDEVICE_OBJECT bottom = WdmCreateBottom(FALSE);
    PDRIVER_OBJECT source = WdmLoadDriver("source", SourceEntry), listener = NULL;
    if (!comes_first)
        listener = WdmLoadDriver("listener", DriverEntry);
    if (source && NT_SUCCESS(WdmAddDevice(source, bottom)))
        WdmSend(IoGetAttachedDevice(bottom), IRP_MJ_PNP, IRP_MN_START_DEVICE, 0);
    if (comes_first)
        listener = WdmLoadDriver("listener", DriverEntry);
    if (!listener)
        return;
    PEXTENSION ext = listener->DeviceObject->DeviceExtension;
    KeWaitForSingleObject(&ext->Heard, Executive, KernelMode, FALSE, NULL);
    WdmUnloadDriver(listener);
    WdmSend(IoGetAttachedDevice(bottom), IRP_MJ_PNP, IRP_MN_REMOVE_DEVICE, 0);
    IoDeleteDevice(bottom);
}

int main(void)
{
    use(FALSE);
    use(TRUE);
    WdmExpectEntries(20);
    return WdmFinish();
}
