/* monitor.c: a device for administrators, which counts what is written in 64 bits, and puts the sum into a section that
   programs read. One request at a time may do that: another one is told that the device is busy. */
#include "common.h"
#include <wdmsec.h>

typedef struct {
    LONG64 Bytes, Writes, Most; /* by all threads at once */
    FAST_MUTEX Reporting;
    HANDLE Section;
    PLONG64 View;
} EXTENSION, *PEXTENSION;

static NTSTATUS Write(PDEVICE_OBJECT DeviceObject, PIRP Irp)
{
    PEXTENSION ext = DeviceObject->DeviceExtension;
    const LONG64 length = IoGetCurrentIrpStackLocation(Irp)->Parameters.Write.Length;
    LONG64 most = InterlockedOr64(&ext->Most, 0), was;
    InterlockedExchangeAdd64(&ext->Bytes, length);
    InterlockedIncrement64(&ext->Writes);
    while (length > most && (was = InterlockedCompareExchange64(&ext->Most, length, most)) != most)
        most = was;
    return Complete(Irp, STATUS_SUCCESS, (ULONG_PTR)length);
}

/* The sum, in the section and in the caller's buffer. */
static NTSTATUS Report(PDEVICE_OBJECT DeviceObject, PIRP Irp)
{
    PEXTENSION ext = DeviceObject->DeviceExtension;
    if (IoGetCurrentIrpStackLocation(Irp)->Parameters.DeviceIoControl.OutputBufferLength < sizeof(LONG64))
        return Complete(Irp, STATUS_BUFFER_TOO_SMALL, 0);
    if (!ExTryToAcquireFastMutex(&ext->Reporting))
        return Complete(Irp, STATUS_DEVICE_BUSY, 0);
    ext->View[0] = InterlockedAdd64(&ext->Bytes, 0);
    ext->View[1] = InterlockedOr64(&ext->Writes, 0);
    *(PLONG64)Irp->AssociatedIrp.SystemBuffer = ext->View[0];
    ExReleaseFastMutex(&ext->Reporting);
    return Complete(Irp, STATUS_SUCCESS, sizeof(LONG64));
}

static NTSTATUS OpenSection(PEXTENSION Ext)
{
    UNICODE_STRING name = RTL_CONSTANT_STRING(L"\\BaseNamedObjects\\Monitor");
    OBJECT_ATTRIBUTES attributes;
    SIZE_T size = 0;
    PVOID view = NULL;
    InitializeObjectAttributes(&attributes, &name, OBJ_KERNEL_HANDLE, NULL, NULL);
    NTSTATUS status = ZwOpenSection(&Ext->Section, SECTION_ALL_ACCESS, &attributes);
    if (!NT_SUCCESS(status))
        return status;
    status = ZwMapViewOfSection(Ext->Section, ZwCurrentProcess(), &view, 0, 0, NULL, &size, ViewShare, 0, PAGE_READWRITE);
    if (NT_SUCCESS(status) && size < 2 * sizeof(LONG64)) {
        ZwUnmapViewOfSection(ZwCurrentProcess(), view);
        status = STATUS_BUFFER_TOO_SMALL;
    }
    if (!NT_SUCCESS(status))
        ZwClose(Ext->Section);
    Ext->View = view;
    return status;
}

static VOID Unload(PDRIVER_OBJECT DriverObject)
{
    PEXTENSION ext = DriverObject->DeviceObject->DeviceExtension;
    ZwUnmapViewOfSection(ZwCurrentProcess(), ext->View);
    ZwClose(ext->Section);
    IoDeleteDevice(DriverObject->DeviceObject);
}

NTSTATUS DriverEntry(PDRIVER_OBJECT DriverObject, PUNICODE_STRING RegistryPath)
{
    UNICODE_STRING name = RTL_CONSTANT_STRING(L"\\Device\\Monitor");
    UNICODE_STRING rights = RTL_CONSTANT_STRING(L"D:P(A;;GA;;;SY)(A;;GA;;;BA)");
    PDEVICE_OBJECT device;
    UNREFERENCED_PARAMETER(RegistryPath);
    DriverObject->MajorFunction[IRP_MJ_WRITE] = Write;
    DriverObject->MajorFunction[IRP_MJ_DEVICE_CONTROL] = Report;
    DriverObject->DriverUnload = Unload;
    NTSTATUS status = IoCreateDeviceSecure(DriverObject, sizeof(EXTENSION), &name, FILE_DEVICE_UNKNOWN,
                                           FILE_DEVICE_SECURE_OPEN, FALSE, &rights, NULL, &device);
    if (!NT_SUCCESS(status))
        return status;
    ExInitializeFastMutex(&((PEXTENSION)device->DeviceExtension)->Reporting);
    status = OpenSection(device->DeviceExtension);
    if (!NT_SUCCESS(status))
        IoDeleteDevice(device);
    return status;
}

enum { REPORT = CTL_CODE(FILE_DEVICE_UNKNOWN, 0x800, METHOD_BUFFERED, FILE_ANY_ACCESS) };

static void *writer(void *context)
{
    for (ULONG i = 1; i <= 4; i++) {
        WdmSend(context, IRP_MJ_WRITE, 0, i);
        WdmControl(context, REPORT, sizeof(LONG64));
    }
    return NULL;
}

int main(void)
{
    pthread_t t[2];
    LONG64 *section = WdmMakeSection(L"\\BaseNamedObjects\\Monitor", 2 * sizeof(LONG64));
    PDRIVER_OBJECT driver = WdmLoadDriver("monitor", DriverEntry);
    if (!driver)
        return WdmFinish();
    for (int i = 0; i < 2; i++)
        pthread_create(&t[i], NULL, writer, driver->DeviceObject);
    for (int i = 0; i < 2; i++)
        pthread_join(t[i], NULL);
    WdmControl(driver->DeviceObject, REPORT, sizeof(LONG64));
    WDM_CHECK(section[0] == 20 && section[1] == 8);
    WDM_CHECK(((EXTENSION *)driver->DeviceObject->DeviceExtension)->Most == 4);
    WdmUnloadDriver(driver);
    WdmExpectEntries(70);
    return WdmFinish();
}
