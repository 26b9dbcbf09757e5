/* answers.c: a driver that answers a control with a structure, most of which it sets. BUG names a mistake: 1, the structure
   is a variable that isn't cleared before; 2, it lies in a block that isn't; 3, an open with a name behind the device, which
   it refuses, is completed twice; 4, it trusts a length that a program sends. */
#include <wdm.h>

#ifndef BUG
#define BUG 0
#endif
#define IOCTL_ANSWERS_INFO CTL_CODE(FILE_DEVICE_UNKNOWN, 0x940, METHOD_BUFFERED, FILE_ANY_ACCESS)
#define IOCTL_ANSWERS_NAME CTL_CODE(FILE_DEVICE_UNKNOWN, 0x941, METHOD_BUFFERED, FILE_ANY_ACCESS)
typedef struct { ULONG Version, Size; CHAR Name[24]; } INFO, *PINFO;
typedef struct { ULONG Length; CHAR Text[12]; } NAME, *PNAME;

static NTSTATUS Complete(PIRP Irp, NTSTATUS Status, ULONG_PTR Information)
{
    Irp->IoStatus.Status = Status;
    Irp->IoStatus.Information = Information;
    IoCompleteRequest(Irp, IO_NO_INCREMENT); /* told: Unwritten */
    return Status;
}

static NTSTATUS AnswerBy(PIRP Irp, PINFO Info)
{
    Info->Version = 1;
    Info->Size = sizeof *Info;
    RtlCopyMemory(Info->Name, "one", sizeof "one");
    RtlCopyMemory(Irp->AssociatedIrp.SystemBuffer, Info, sizeof *Info);
    return STATUS_SUCCESS;
}

static NTSTATUS Answer(PIRP Irp)
{
    INFO info;
    PINFO block;
    if (BUG != 1)
        RtlZeroMemory(&info, sizeof info);
    if (BUG != 2)
        return AnswerBy(Irp, &info);
    block = ExAllocatePoolWithTag(NonPagedPool, sizeof *block, 'snaA');
    if (!block)
        return STATUS_INSUFFICIENT_RESOURCES;
    AnswerBy(Irp, block);
    ExFreePoolWithTag(block, 'snaA');
    return STATUS_SUCCESS;
}

static NTSTATUS TakeName(PNAME Name, ULONG Room)
{
    PUCHAR block;
    if (Room < sizeof *Name || (Name->Length > sizeof Name->Text && BUG != 4))
        return STATUS_INVALID_PARAMETER;
    block = ExAllocatePoolWithTag(NonPagedPool, sizeof Name->Text, 'snaA');
    if (!block)
        return STATUS_INSUFFICIENT_RESOURCES;
    for (ULONG i = 0; i < Name->Length; i++)
        block[i] = (UCHAR)Name->Text[i]; /* told: PoolOverrun */
    ExFreePoolWithTag(block, 'snaA');
    return STATUS_SUCCESS;
}

static NTSTATUS Control(PDEVICE_OBJECT DeviceObject, PIRP Irp)
{
    const PIO_STACK_LOCATION stack = IoGetCurrentIrpStackLocation(Irp);
    NTSTATUS status;
    UNREFERENCED_PARAMETER(DeviceObject);
    if (stack->Parameters.DeviceIoControl.IoControlCode == IOCTL_ANSWERS_NAME)
        return Complete(Irp, TakeName(Irp->AssociatedIrp.SystemBuffer, stack->Parameters.DeviceIoControl.InputBufferLength), 0);
    if (stack->Parameters.DeviceIoControl.IoControlCode != IOCTL_ANSWERS_INFO)
        return Complete(Irp, STATUS_INVALID_DEVICE_REQUEST, 0);
    if (stack->Parameters.DeviceIoControl.OutputBufferLength < sizeof(INFO))
        return Complete(Irp, STATUS_BUFFER_TOO_SMALL, 0);
    status = Answer(Irp);
    return Complete(Irp, status, NT_SUCCESS(status) ? sizeof(INFO) : 0);
}

/* There is nothing behind the device, and who opens it says what for. */
static NTSTATUS Create(PDEVICE_OBJECT DeviceObject, PIRP Irp)
{
    const PIO_STACK_LOCATION stack = IoGetCurrentIrpStackLocation(Irp);
    const BOOLEAN has_name = stack->FileObject->FileName.Length != 0;
    UNREFERENCED_PARAMETER(DeviceObject);
    if (!stack->Parameters.Create.SecurityContext->DesiredAccess || !stack->Parameters.Create.ShareAccess)
        KeBugCheckEx(0xE2, 0, 0, 0, 0);
    if (has_name && BUG == 3)
        Complete(Irp, STATUS_OBJECT_NAME_NOT_FOUND, 0);
    return Complete(Irp, has_name ? STATUS_OBJECT_NAME_NOT_FOUND : STATUS_SUCCESS, 0);
}

static NTSTATUS Close(PDEVICE_OBJECT DeviceObject, PIRP Irp)
{
    UNREFERENCED_PARAMETER(DeviceObject);
    return Complete(Irp, STATUS_SUCCESS, 0);
}

NTSTATUS DriverEntry(PDRIVER_OBJECT DriverObject, PUNICODE_STRING RegistryPath)
{
    PDEVICE_OBJECT device;
    UNREFERENCED_PARAMETER(RegistryPath);
    DriverObject->MajorFunction[IRP_MJ_CREATE] = Create;
    DriverObject->MajorFunction[IRP_MJ_CLEANUP] = DriverObject->MajorFunction[IRP_MJ_CLOSE] = Close;
    DriverObject->MajorFunction[IRP_MJ_DEVICE_CONTROL] = Control;
    return IoCreateDevice(DriverObject, 0, NULL, FILE_DEVICE_UNKNOWN, 0, FALSE, &device);
}
