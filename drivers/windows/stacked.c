/* stacked.c: a file is of the lowest device of the stack that was opened, and so is the reference. That device is there until
   the file is closed, though its driver deletes it before. A device that is still initializing gets none above it; one that is
   attached takes over how buffers are aligned. WRONG=1 counts on the attach, WRONG=2 takes the file for one of the device that
   was named, WRONG=3 deletes the device once more, WRONG=4 counts on its own alignment. */
#include <wdm.h>
#include "wdm_test.h"

#ifndef WRONG
#define WRONG 0
#endif
static PDEVICE_OBJECT lower, upper;
static LONG reads;

static NTSTATUS Any(PDEVICE_OBJECT DeviceObject, PIRP Irp)
{
    PIO_STACK_LOCATION stack = IoGetCurrentIrpStackLocation(Irp);
    if (DeviceObject == upper) {
        IoSkipCurrentIrpStackLocation(Irp);
        return IoCallDriver(lower, Irp);
    }
    reads += stack->MajorFunction == IRP_MJ_READ;
    Irp->IoStatus.Status = STATUS_SUCCESS;
    Irp->IoStatus.Information = 0;
    IoCompleteRequest(Irp, IO_NO_INCREMENT);
    return STATUS_SUCCESS;
}

/* The upper device comes too early, and once more when the lower one is ready. */
static NTSTATUS Entry(PDRIVER_OBJECT DriverObject, PUNICODE_STRING RegistryPath)
{
    UNICODE_STRING name = RTL_CONSTANT_STRING(L"\\Device\\Upper");
    UNREFERENCED_PARAMETER(RegistryPath);
    for (int i = 0; i <= IRP_MJ_MAXIMUM_FUNCTION; i++)
        DriverObject->MajorFunction[i] = Any;
    NTSTATUS status = IoCreateDevice(DriverObject, 0, NULL, FILE_DEVICE_UNKNOWN, 0, FALSE, &lower);
    if (!NT_SUCCESS(status))
        return status;
    lower->AlignmentRequirement = FILE_512_BYTE_ALIGNMENT;
    lower->SectorSize = 512;
    status = IoCreateDevice(DriverObject, 0, &name, FILE_DEVICE_UNKNOWN, 0, FALSE, &upper);
    if (!NT_SUCCESS(status))
        return status;
    WDM_CHECK((IoAttachDeviceToDeviceStack(upper, lower) != NULL) == (WRONG == 1)); /* told 1: Check */
    lower->Flags &= ~(ULONG)DO_DEVICE_INITIALIZING;
    WDM_CHECK(IoAttachDeviceToDeviceStack(upper, lower) == lower);
    WDM_CHECK(upper->AlignmentRequirement == (WRONG == 4 ? 0 : FILE_512_BYTE_ALIGNMENT)); /* told 4: Check */
    WDM_CHECK(upper->SectorSize == 512);
    return STATUS_SUCCESS;
}

static PFILE_OBJECT OpenUpper(VOID)
{
    UNICODE_STRING name = RTL_CONSTANT_STRING(L"\\Device\\Upper");
    PFILE_OBJECT file = NULL;
    PDEVICE_OBJECT device = NULL;
    WDM_CHECK(IoGetDeviceObjectPointer(&name, FILE_READ_DATA, &file, &device) == STATUS_SUCCESS && device == upper);
    WDM_CHECK(file->DeviceObject == (WRONG == 2 ? upper : lower) && IoGetRelatedDeviceObject(file) == upper); /* told 2: Check */
    WDM_CHECK(lower->ReferenceCount == 1 && !upper->ReferenceCount);
    return file;
}

static VOID Delete(VOID)
{
    IoDetachDevice(lower);
    IoDeleteDevice(upper);
    IoDeleteDevice(lower);
}

int main(void)
{
    WdmLoadDriver("stacked", Entry);
    PFILE_OBJECT file = OpenUpper();
    Delete();
    WDM_CHECK(lower->ReferenceCount == 1 && WdmSend(lower, IRP_MJ_READ, 0, 8) == STATUS_SUCCESS && reads == 1);
    if (WRONG == 3)
        IoDeleteDevice(lower); /* told 3: DeviceGone */
    ObDereferenceObject(file);
    return WdmFinish();
}
