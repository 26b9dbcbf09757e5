/* journal.c: a device that writes a line into a file for each write, and traces it. Its event has a descriptor that says who
   may use it. */
#include "common.h"
#include <ntstrsafe.h>

typedef struct { HANDLE File, Event; PACL Allowed; REGHANDLE Provider; FAST_MUTEX Mutex; ULONG Lines; } EXTENSION, *PEXTENSION;
static const GUID OurProvider = { 0x3d0a11ce, 0x7e57, 0x4a11, { 8, 7, 6, 5, 4, 3, 2, 1 } };
static const EVENT_DESCRIPTOR Written = { .Id = 1, .Version = 0, .Level = 4 };
enum { ROOM = 128, LINE = 32 };

static NTSTATUS OpenFile(PEXTENSION Ext)
{
    UNICODE_STRING name = RTL_CONSTANT_STRING(L"\\SystemRoot\\journal.log");
    OBJECT_ATTRIBUTES attributes;
    IO_STATUS_BLOCK iosb;
    InitializeObjectAttributes(&attributes, &name, OBJ_KERNEL_HANDLE | OBJ_CASE_INSENSITIVE, NULL, NULL);
    return ZwCreateFile(&Ext->File, FILE_APPEND_DATA | SYNCHRONIZE, &attributes, &iosb, NULL, FILE_ATTRIBUTE_NORMAL,
                        FILE_SHARE_READ, FILE_OPEN_IF, FILE_SYNCHRONOUS_IO_NONALERT, NULL, 0);
}

/* A list by which everybody may wait. */
static NTSTATUS AllowAll(PEXTENSION Ext)
{
    SID_IDENTIFIER_AUTHORITY world = { SECURITY_WORLD_SID_AUTHORITY };
    SID everybody;
    NTSTATUS status = RtlInitializeSid(&everybody, &world, 1);
    *RtlSubAuthoritySid(&everybody, 0) = SECURITY_WORLD_RID;
    Ext->Allowed = ExAllocatePoolWithTag(PagedPool, ROOM, 'nruJ');
    if (Ext->Allowed == NULL)
        return STATUS_INSUFFICIENT_RESOURCES;
    if (NT_SUCCESS(status))
        status = RtlCreateAcl(Ext->Allowed, ROOM, ACL_REVISION);
    if (NT_SUCCESS(status))
        status = RtlAddAccessAllowedAce(Ext->Allowed, ACL_REVISION, SYNCHRONIZE, &everybody);
    return status;
}

static NTSTATUS MakeEvent(PEXTENSION Ext)
{
    SECURITY_DESCRIPTOR descriptor;
    OBJECT_ATTRIBUTES attributes;
    NTSTATUS status = RtlCreateSecurityDescriptor(&descriptor, SECURITY_DESCRIPTOR_REVISION);
    if (NT_SUCCESS(status))
        status = RtlSetDaclSecurityDescriptor(&descriptor, TRUE, Ext->Allowed, FALSE);
    InitializeObjectAttributes(&attributes, NULL, OBJ_KERNEL_HANDLE, NULL, &descriptor);
    return NT_SUCCESS(status) ? ZwCreateEvent(&Ext->Event, EVENT_ALL_ACCESS, &attributes, NotificationEvent, FALSE) : status;
}

static NTSTATUS Write(PDEVICE_OBJECT DeviceObject, PIRP Irp)
{
    PEXTENSION ext = DeviceObject->DeviceExtension;
    IO_STATUS_BLOCK iosb = { 0 };
    CHAR line[LINE];
    size_t length = 0;
    ExAcquireFastMutex(&ext->Mutex);
    NTSTATUS status = RtlStringCbPrintfA(line, sizeof line, "line %u\n", (unsigned)++ext->Lines);
    ExReleaseFastMutex(&ext->Mutex);
    if (NT_SUCCESS(status))
        status = RtlStringCbLengthA(line, sizeof line, &length);
    if (NT_SUCCESS(status))
        status = ZwWriteFile(ext->File, NULL, NULL, NULL, &iosb, line, (ULONG)length, NULL, NULL);
    EtwWrite(ext->Provider, &Written, NULL, 0, NULL);
    ZwSetEvent(ext->Event, NULL);
    return Complete(Irp, status, iosb.Information);
}

static VOID Close(PEXTENSION Ext)
{
    if (Ext->Event)
        ZwClose(Ext->Event);
    if (Ext->Allowed)
        ExFreePoolWithTag(Ext->Allowed, 'nruJ');
    if (Ext->File)
        ZwClose(Ext->File);
}

static VOID Unload(PDRIVER_OBJECT DriverObject)
{
    const PEXTENSION ext = DriverObject->DeviceObject->DeviceExtension;
    EtwUnregister(ext->Provider);
    Close(ext);
    IoDeleteDevice(DriverObject->DeviceObject);
}

NTSTATUS DriverEntry(PDRIVER_OBJECT DriverObject, PUNICODE_STRING RegistryPath)
{
    PDEVICE_OBJECT device;
    UNREFERENCED_PARAMETER(RegistryPath);
    NTSTATUS status = IoCreateDevice(DriverObject, sizeof(EXTENSION), NULL, FILE_DEVICE_UNKNOWN, 0, FALSE, &device);
    if (!NT_SUCCESS(status))
        return status;
    const PEXTENSION ext = device->DeviceExtension;
    RtlZeroMemory(ext, sizeof *ext);
    ExInitializeFastMutex(&ext->Mutex);
    status = OpenFile(ext);
    if (NT_SUCCESS(status))
        status = AllowAll(ext);
    if (NT_SUCCESS(status))
        status = MakeEvent(ext);
    if (NT_SUCCESS(status))
        status = EtwRegister(&OurProvider, NULL, NULL, &ext->Provider);
    if (!NT_SUCCESS(status)) {
        Close(ext);
        IoDeleteDevice(device);
        return status;
    }
    DriverObject->MajorFunction[IRP_MJ_WRITE] = Write;
    DriverObject->DriverUnload = Unload;
    return STATUS_SUCCESS;
}

int main(void)
{
    WdmMakeFile(L"\\SystemRoot\\journal.log");
    PDRIVER_OBJECT driver = WdmLoadDriver("journal", DriverEntry);
    const ULONG rounds = WdmRounds(3);
    for (ULONG i = 0; driver && i < rounds; i++)
        WdmSend(driver->DeviceObject, IRP_MJ_WRITE, 0, 8);
    if (driver)
        WdmUnloadDriver(driver);
    WdmExpectEntries(2 + 4 * rounds);
    return WdmFinish();
}
