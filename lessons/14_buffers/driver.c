/* A device with three controls, one for each way in which a buffer comes. */
#include <wdm.h>

#define IOCTL_GET CTL_CODE(FILE_DEVICE_UNKNOWN, 0x800, METHOD_BUFFERED, FILE_ANY_ACCESS)
#define IOCTL_FILL CTL_CODE(FILE_DEVICE_UNKNOWN, 0x801, METHOD_OUT_DIRECT, FILE_ANY_ACCESS)
#define IOCTL_PEEK CTL_CODE(FILE_DEVICE_UNKNOWN, 0x802, METHOD_NEITHER, FILE_ANY_ACCESS)

static const ULONG Version = 0x01020304;

static NTSTATUS Get(PIRP Irp, PIO_STACK_LOCATION Stack, ULONG_PTR *Information)
{
    if (Stack->Parameters.DeviceIoControl.InputBufferLength < sizeof Version)
        return STATUS_BUFFER_TOO_SMALL;
    RtlCopyMemory(Irp->AssociatedIrp.SystemBuffer, &Version, sizeof Version);
    *Information = sizeof Version;
    return STATUS_SUCCESS;
}

static NTSTATUS Fill(PIRP Irp, PIO_STACK_LOCATION Stack, ULONG_PTR *Information)
{
    const ULONG length = Stack->Parameters.DeviceIoControl.OutputBufferLength;
    if (length == 0)
        return STATUS_SUCCESS;
    PVOID buffer = MmGetSystemAddressForMdlSafe(Irp->MdlAddress, NormalPagePriority);
    if (buffer == NULL)
        return STATUS_INSUFFICIENT_RESOURCES;
    RtlFillMemory(buffer, length, 7);
    *Information = length;
    return STATUS_SUCCESS;
}

static NTSTATUS Peek(PIRP Irp, PIO_STACK_LOCATION Stack, ULONG_PTR *Information)
{
    if (Stack->Parameters.DeviceIoControl.OutputBufferLength < sizeof Version)
        return STATUS_BUFFER_TOO_SMALL;
    __try {
        ProbeForWrite(Irp->UserBuffer, sizeof Version, 1);
        RtlCopyMemory(Irp->UserBuffer, &Version, sizeof Version);
    } __except (EXCEPTION_EXECUTE_HANDLER) {
        return GetExceptionCode();
    }
    *Information = sizeof Version;
    return STATUS_SUCCESS;
}

static NTSTATUS Complete(PIRP Irp, NTSTATUS Status, ULONG_PTR Information)
{
    Irp->IoStatus.Status = Status;
    Irp->IoStatus.Information = Information;
    IoCompleteRequest(Irp, IO_NO_INCREMENT);
    return Status;
}

static NTSTATUS Control(PDEVICE_OBJECT DeviceObject, PIRP Irp)
{
    PIO_STACK_LOCATION stack = IoGetCurrentIrpStackLocation(Irp);
    NTSTATUS status = STATUS_INVALID_DEVICE_REQUEST;
    ULONG_PTR information = 0;
    UNREFERENCED_PARAMETER(DeviceObject);
    switch (stack->Parameters.DeviceIoControl.IoControlCode) {
    case IOCTL_GET:
        status = Get(Irp, stack, &information);
        break;
    case IOCTL_FILL:
        status = Fill(Irp, stack, &information);
        break;
    case IOCTL_PEEK:
        status = Peek(Irp, stack, &information);
        break;
    }
    return Complete(Irp, status, information);
}

static NTSTATUS Other(PDEVICE_OBJECT DeviceObject, PIRP Irp)
{
    UNREFERENCED_PARAMETER(DeviceObject);
    return Complete(Irp, STATUS_SUCCESS, 0);
}

NTSTATUS DriverEntry(PDRIVER_OBJECT DriverObject, PUNICODE_STRING RegistryPath)
{
    PDEVICE_OBJECT device;
    UNREFERENCED_PARAMETER(RegistryPath);
    for (int i = 0; i <= IRP_MJ_MAXIMUM_FUNCTION; i++)
        DriverObject->MajorFunction[i] = Other;
    DriverObject->MajorFunction[IRP_MJ_DEVICE_CONTROL] = Control;
    return IoCreateDevice(DriverObject, 0, NULL, FILE_DEVICE_UNKNOWN, 0, FALSE, &device);
}
