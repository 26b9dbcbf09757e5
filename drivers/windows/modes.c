/* modes.c: whose a request is, by its mode, its flags, the mode of the thread that asks, and the width of its process. A request
   keeps its program's mode in a work item, whose thread is the system's; a driver's own packet has the kernel's, though the thread
   that sends it is a program's. WRONG=1 asks for the thread's mode in the work item, WRONG=2 takes the thread's mode for its
   packet's, WRONG=3 takes "input" in a flag for the device's, WRONG=4 takes every program for one of 32 bits. */
#include <wdm.h>
#include "wdm_test.h"

#ifndef WRONG
#define WRONG 0
#endif
#define CONTROL(number, method) CTL_CODE(FILE_DEVICE_UNKNOWN, number, method, FILE_ANY_ACCESS)
enum { LATER = CONTROL(1, METHOD_NEITHER), ADDRESSES = CONTROL(2, METHOD_BUFFERED), OWN = CONTROL(3, METHOD_BUFFERED),
       ASKED = CONTROL(4, METHOD_BUFFERED), BUFFERS = IRP_BUFFERED_IO | IRP_DEALLOCATE_BUFFER };
typedef struct { ULONG Address, Length; } ADDRESS32;
typedef struct { PVOID Address; ULONG Length; } ADDRESS;
static UCHAR kept[16] = { 7 };
static ULONG flags_of[IRP_MJ_MAXIMUM_FUNCTION + 1], looked;
static PIO_WORKITEM item;

static NTSTATUS Complete(PIRP Irp, NTSTATUS Status, ULONG_PTR Information)
{
    Irp->IoStatus.Status = Status;
    Irp->IoStatus.Information = Information;
    IoCompleteRequest(Irp, IO_NO_INCREMENT);
    return Status;
}

/* The flag says that the request brings data to whoever asks. */
static NTSTATUS Transfer(PDEVICE_OBJECT DeviceObject, PIRP Irp)
{
    const BOOLEAN is_read = (Irp->Flags & IRP_INPUT_OPERATION) != 0;
    UNREFERENCED_PARAMETER(DeviceObject);
    flags_of[IoGetCurrentIrpStackLocation(Irp)->MajorFunction] = Irp->Flags;
    WDM_CHECK(Irp->RequestorMode == UserMode && ExGetPreviousMode() == UserMode && !PsIsSystemThread(PsGetCurrentThread()));
    if (is_read == (WRONG != 3))
        RtlCopyMemory(Irp->AssociatedIrp.SystemBuffer, kept, sizeof kept);
    else
        RtlCopyMemory(kept, Irp->AssociatedIrp.SystemBuffer, sizeof kept);
    return Complete(Irp, STATUS_SUCCESS, sizeof kept);
}

/* The pages stay locked until the work item has looked at them. */
static VOID Lock(PIRP Irp, KPROCESSOR_MODE Mode)
{
    PVOID in = IoGetCurrentIrpStackLocation(Irp)->Parameters.DeviceIoControl.Type3InputBuffer;
    PMDL mdl = IoAllocateMdl(in, sizeof(ULONG), FALSE, FALSE, Irp);
    if (mdl)
        MmProbeAndLockPages(mdl, Mode, IoReadAccess); /* told 1: Unprobed */
}

static VOID Look(PDEVICE_OBJECT DeviceObject, PVOID Context)
{
    PIRP irp = Context;
    UNREFERENCED_PARAMETER(DeviceObject);
    WDM_CHECK(irp->RequestorMode == UserMode && ExGetPreviousMode() == KernelMode && PsIsSystemThread(PsGetCurrentThread()));
    if (WRONG == 1)
        Lock(irp, ExGetPreviousMode());
    volatile ULONG *in = irp->MdlAddress ? MmGetSystemAddressForMdlSafe(irp->MdlAddress, NormalPagePriority) : NULL;
    looked += in && *in == 0;
    if (irp->MdlAddress)
        MmUnlockPages(irp->MdlAddress);
    Complete(irp, in ? STATUS_SUCCESS : STATUS_INSUFFICIENT_RESOURCES, 0);
}

static NTSTATUS LookLater(PDEVICE_OBJECT DeviceObject, PIRP Irp)
{
    WDM_CHECK(!(Irp->Flags & (BUFFERS | IRP_INPUT_OPERATION)));
    if (WRONG != 1)
        Lock(Irp, Irp->RequestorMode);
    IoMarkIrpPending(Irp);
    IoQueueWorkItem(item, Look, DelayedWorkQueue, Irp);
    UNREFERENCED_PARAMETER(DeviceObject);
    return STATUS_PENDING;
}

/* What a program of 32 bits hands over has narrower members. */
static NTSTATUS TakeAddress(PIRP Irp)
{
    const ULONG length = IoGetCurrentIrpStackLocation(Irp)->Parameters.DeviceIoControl.InputBufferLength;
    const ULONG wanted = WRONG == 4 || IoIs32bitProcess(Irp) ? sizeof(ADDRESS32) : sizeof(ADDRESS);
    return Complete(Irp, length == wanted ? STATUS_SUCCESS : STATUS_INVALID_PARAMETER, 0);
}

/* A packet of the driver's own, within a program's request. */
static NTSTATUS SendOwn(PDEVICE_OBJECT DeviceObject, PIRP Irp)
{
    IO_STATUS_BLOCK iosb;
    KEVENT done;
    KeInitializeEvent(&done, NotificationEvent, FALSE);
    PIRP own = IoBuildDeviceIoControlRequest(ASKED, DeviceObject, NULL, 0, NULL, 0, FALSE, &done, &iosb);
    NTSTATUS status = own ? IoCallDriver(DeviceObject, own) : STATUS_INSUFFICIENT_RESOURCES;
    if (status == STATUS_PENDING) {
        KeWaitForSingleObject(&done, Executive, KernelMode, FALSE, NULL);
        status = iosb.Status;
    }
    return Complete(Irp, status, 0);
}

static NTSTATUS BeAsked(PIRP Irp)
{
    WDM_CHECK(ExGetPreviousMode() == UserMode);
    WDM_CHECK(Irp->RequestorMode == (WRONG == 2 ? ExGetPreviousMode() : KernelMode)); /* told 2: Check */
    return Complete(Irp, STATUS_SUCCESS, 0);
}

static NTSTATUS Control(PDEVICE_OBJECT DeviceObject, PIRP Irp)
{
    switch (IoGetCurrentIrpStackLocation(Irp)->Parameters.DeviceIoControl.IoControlCode) {
    case LATER:
        return LookLater(DeviceObject, Irp);
    case ADDRESSES:
        flags_of[IRP_MJ_DEVICE_CONTROL] = Irp->Flags;
        return TakeAddress(Irp);
    case OWN:
        return SendOwn(DeviceObject, Irp);
    default:
        return BeAsked(Irp);
    }
}

static NTSTATUS Any(PDEVICE_OBJECT DeviceObject, PIRP Irp)
{
    UNREFERENCED_PARAMETER(DeviceObject);
    flags_of[IoGetCurrentIrpStackLocation(Irp)->MajorFunction] = Irp->Flags;
    return Complete(Irp, STATUS_SUCCESS, 0);
}

static VOID Unload(PDRIVER_OBJECT DriverObject)
{
    IoFreeWorkItem(item);
    IoDeleteDevice(DriverObject->DeviceObject);
}

static NTSTATUS Entry(PDRIVER_OBJECT DriverObject, PUNICODE_STRING RegistryPath)
{
    PDEVICE_OBJECT device;
    UNREFERENCED_PARAMETER(RegistryPath);
    DriverObject->MajorFunction[IRP_MJ_CREATE] = DriverObject->MajorFunction[IRP_MJ_CLEANUP] =
        DriverObject->MajorFunction[IRP_MJ_CLOSE] = DriverObject->MajorFunction[IRP_MJ_SET_INFORMATION] =
        DriverObject->MajorFunction[IRP_MJ_QUERY_INFORMATION] = Any;
    DriverObject->MajorFunction[IRP_MJ_READ] = DriverObject->MajorFunction[IRP_MJ_WRITE] = Transfer;
    DriverObject->MajorFunction[IRP_MJ_DEVICE_CONTROL] = Control;
    DriverObject->DriverUnload = Unload;
    NTSTATUS status = IoCreateDevice(DriverObject, 0, NULL, FILE_DEVICE_UNKNOWN, 0, FALSE, &device);
    if (!NT_SUCCESS(status))
        return status;
    device->Flags |= DO_BUFFERED_IO;
    item = IoAllocateWorkItem(device);
    return item ? STATUS_SUCCESS : STATUS_INSUFFICIENT_RESOURCES;
}

static VOID CheckFlags(VOID)
{
    WDM_CHECK(flags_of[IRP_MJ_CREATE] == (IRP_CREATE_OPERATION | IRP_SYNCHRONOUS_API | IRP_DEFER_IO_COMPLETION));
    WDM_CHECK(flags_of[IRP_MJ_READ] == (IRP_READ_OPERATION | BUFFERS | IRP_INPUT_OPERATION | IRP_DEFER_IO_COMPLETION));
    WDM_CHECK(flags_of[IRP_MJ_WRITE] == (IRP_WRITE_OPERATION | BUFFERS | IRP_DEFER_IO_COMPLETION));
    WDM_CHECK(flags_of[IRP_MJ_QUERY_INFORMATION] == (BUFFERS | IRP_INPUT_OPERATION | IRP_DEFER_IO_COMPLETION));
    WDM_CHECK(flags_of[IRP_MJ_SET_INFORMATION] == (BUFFERS | IRP_DEFER_IO_COMPLETION));
    WDM_CHECK(flags_of[IRP_MJ_DEVICE_CONTROL] == (BUFFERS | IRP_INPUT_OPERATION));
    WDM_CHECK(flags_of[IRP_MJ_CLEANUP] == (IRP_CLOSE_OPERATION | IRP_SYNCHRONOUS_API));
    WDM_CHECK(flags_of[IRP_MJ_CLOSE] == (IRP_CLOSE_OPERATION | IRP_SYNCHRONOUS_API));
}

int main(void)
{
    PDRIVER_OBJECT driver = WdmLoadDriver("modes", Entry);
    PDEVICE_OBJECT device = driver->DeviceObject;
    PFILE_OBJECT file = WdmOpenFile(device);
    WDM_CHECK(WdmSend(device, IRP_MJ_WRITE, 0, sizeof kept) == STATUS_SUCCESS && !kept[0]); /* told 3: Check */
    WDM_CHECK(WdmSend(device, IRP_MJ_READ, 0, sizeof kept) == STATUS_SUCCESS);
    WDM_CHECK(WdmSend(device, IRP_MJ_QUERY_INFORMATION, 0, sizeof kept) == STATUS_SUCCESS);
    WDM_CHECK(WdmSend(device, IRP_MJ_SET_INFORMATION, 0, sizeof kept) == STATUS_SUCCESS);
    WDM_CHECK(WdmControl(device, LATER, sizeof(ULONG)) == STATUS_SUCCESS && looked == 1);
    WDM_CHECK(WdmControl(device, ADDRESSES, sizeof(ADDRESS)) == STATUS_SUCCESS); /* told 4: Check */
    WDM_CHECK(WdmControl(device, OWN, 8) == STATUS_SUCCESS);
    WdmCloseFile(file);
    CheckFlags();
    WdmUnloadDriver(driver);
    return WdmFinish();
}
