/* files.c: reads are held on each of two handles. CLEANUP comes when a handle is closed, with reads pending; CLOSE once the
   last one is back. An exclusive device is opened once. A packet says whose it is: a program's pointer is probed. WRONG=1 ends
   nothing in CLEANUP, WRONG=2 ends what is of the other handle too, WRONG=3 probes what the kernel hands over, WRONG=4 counts on
   a second handle, WRONG=5 keeps its reference to the file. */
#include <wdm.h>
#include "wdm_test.h"

#ifndef WRONG
#define WRONG 0
#endif
enum { HELD = 4, LOOK = CTL_CODE(FILE_DEVICE_UNKNOWN, 1, METHOD_NEITHER, FILE_ANY_ACCESS) };
static PIRP held[HELD];
static KSPIN_LOCK lock;
static LONG cleanups, closes, ended, looked;

static VOID CancelRead(PDEVICE_OBJECT DeviceObject, PIRP Irp)
{
    UNREFERENCED_PARAMETER(DeviceObject);
    KIRQL irql;
    IoReleaseCancelSpinLock(Irp->CancelIrql);
    KeAcquireSpinLock(&lock, &irql);
    for (int i = 0; i < HELD; i++)
        if (held[i] == Irp)
            held[i] = NULL;
    KeReleaseSpinLock(&lock, irql);
    Irp->IoStatus.Status = STATUS_CANCELLED;
    Irp->IoStatus.Information = 0;
    IoCompleteRequest(Irp, IO_NO_INCREMENT);
}

static NTSTATUS Read(PDEVICE_OBJECT DeviceObject, PIRP Irp)
{
    KIRQL irql;
    UNREFERENCED_PARAMETER(DeviceObject);
    WDM_CHECK(Irp->RequestorMode == UserMode && ExGetPreviousMode() == UserMode && (Irp->Flags & IRP_READ_OPERATION));
    WDM_CHECK(!PsIsSystemThread(PsGetCurrentThread()));
    KeAcquireSpinLock(&lock, &irql);
    int i = 0;
    while (held[i])
        i++;
    IoMarkIrpPending(Irp);
    held[i] = Irp;
    IoSetCancelRoutine(Irp, CancelRead); /* told 1: KeptOverCleanup */
    if (Irp->Cancel && IoSetCancelRoutine(Irp, NULL)) {
        held[i] = NULL;
        KeReleaseSpinLock(&lock, irql);
        Irp->IoStatus.Status = STATUS_CANCELLED;
        IoCompleteRequest(Irp, IO_NO_INCREMENT);
        return STATUS_PENDING;
    }
    KeReleaseSpinLock(&lock, irql);
    return STATUS_PENDING;
}

static PIRP TakeOut(PFILE_OBJECT File)
{
    PIRP found = NULL;
    KIRQL irql;
    KeAcquireSpinLock(&lock, &irql);
    for (int i = 0; i < HELD && !found; i++)
        if (held[i] && (!File || IoGetCurrentIrpStackLocation(held[i])->FileObject == File) &&
            IoSetCancelRoutine(held[i], NULL)) {
            found = held[i];
            held[i] = NULL;
        }
    KeReleaseSpinLock(&lock, irql);
    return found;
}

static NTSTATUS Complete(PIRP Irp)
{
    Irp->IoStatus.Status = STATUS_SUCCESS;
    Irp->IoStatus.Information = 0;
    IoCompleteRequest(Irp, IO_NO_INCREMENT);
    return STATUS_SUCCESS;
}

static NTSTATUS Look(PDEVICE_OBJECT DeviceObject, PIRP Irp)
{
    volatile ULONG *in = IoGetCurrentIrpStackLocation(Irp)->Parameters.DeviceIoControl.Type3InputBuffer;
    UNREFERENCED_PARAMETER(DeviceObject);
    if (Irp->RequestorMode == (WRONG == 3 ? KernelMode : UserMode))
        ProbeForRead((PVOID)in, sizeof *in, sizeof *in);
    looked += (LONG)*in; /* told 3: Unprobed */
    return Complete(Irp);
}

static VOID EndReads(PFILE_OBJECT File)
{
    for (PIRP irp = TakeOut(File); irp; irp = TakeOut(File)) {
        irp->IoStatus.Status = STATUS_CANCELLED;
        irp->IoStatus.Information = 0;
        ended++;
        IoCompleteRequest(irp, IO_NO_INCREMENT); /* told 2: CleanupOfAnother */
    }
}

static NTSTATUS Open(PDEVICE_OBJECT DeviceObject, PIRP Irp)
{
    PFILE_OBJECT file = IoGetCurrentIrpStackLocation(Irp)->FileObject;
    WDM_CHECK(file->DeviceObject == DeviceObject && IoGetRelatedDeviceObject(file) == DeviceObject);
    return Complete(Irp);
}

static NTSTATUS Cleanup(PDEVICE_OBJECT DeviceObject, PIRP Irp)
{
    UNREFERENCED_PARAMETER(DeviceObject);
    cleanups++;
    WDM_CHECK(Irp->RequestorMode == KernelMode);
    if (WRONG != 1)
        EndReads(WRONG == 2 ? NULL : IoGetCurrentIrpStackLocation(Irp)->FileObject);
    return Complete(Irp);
}

static NTSTATUS Close(PDEVICE_OBJECT DeviceObject, PIRP Irp)
{
    UNREFERENCED_PARAMETER(DeviceObject);
    closes++;
    return Complete(Irp);
}

static VOID Unload(PDRIVER_OBJECT DriverObject)
{
    while (DriverObject->DeviceObject)
        IoDeleteDevice(DriverObject->DeviceObject);
}

static NTSTATUS Entry(PDRIVER_OBJECT DriverObject, PUNICODE_STRING RegistryPath)
{
    PDEVICE_OBJECT device;
    UNICODE_STRING name;
    UNREFERENCED_PARAMETER(RegistryPath);
    KeInitializeSpinLock(&lock);
    RtlInitUnicodeString(&name, L"\\Device\\Exclusive");
    DriverObject->MajorFunction[IRP_MJ_CREATE] = Open;
    DriverObject->MajorFunction[IRP_MJ_READ] = Read;
    DriverObject->MajorFunction[IRP_MJ_DEVICE_CONTROL] = Look;
    DriverObject->MajorFunction[IRP_MJ_CLEANUP] = Cleanup;
    DriverObject->MajorFunction[IRP_MJ_CLOSE] = Close;
    DriverObject->DriverUnload = Unload;
    IoCreateDevice(DriverObject, 0, NULL, FILE_DEVICE_UNKNOWN, 0, FALSE, &device);
    return IoCreateDevice(DriverObject, 0, &name, FILE_DEVICE_UNKNOWN, 0, TRUE, &device);
}

static PIRP StartRead(PDEVICE_OBJECT Device, PFILE_OBJECT File, PIO_STATUS_BLOCK Iosb, PKEVENT Done)
{
    KeInitializeEvent(Done, NotificationEvent, FALSE);
    WdmUseFile(File);
    PIRP irp = WdmBuildIrp(Device, IRP_MJ_READ, 0, 16, Iosb, Done);
    WdmUseFile(NULL);
    WDM_CHECK(IoCallDriver(Device, irp) == STATUS_PENDING);
    return irp;
}

static VOID UseTwoHandles(PDEVICE_OBJECT Device)
{
    IO_STATUS_BLOCK one_says, two_says;
    KEVENT one_done, two_done;
    PFILE_OBJECT one = WdmOpenFile(Device), two = WdmOpenFile(Device);
    if (!one || !two)
        return;
    WDM_CHECK(Device->ReferenceCount == 2);
    StartRead(Device, one, &one_says, &one_done);
    StartRead(Device, two, &two_says, &two_done);
    WdmCloseFile(one);
    WDM_CHECK(KeReadStateEvent(&one_done) && !KeReadStateEvent(&two_done) && Device->ReferenceCount == 1);
    WdmCloseFile(two);
    WDM_CHECK(KeReadStateEvent(&two_done) && !Device->ReferenceCount && ended == 2 && cleanups == 2 && closes == 2);
}

/* By name: a handle is a file object, which a reference keeps. */
static VOID OpenByName(VOID)
{
    UNICODE_STRING name;
    OBJECT_ATTRIBUTES attributes;
    IO_STATUS_BLOCK iosb;
    HANDLE handle, other = NULL;
    PFILE_OBJECT file;
    const LONG before = closes;
    RtlInitUnicodeString(&name, L"\\Device\\Exclusive");
    InitializeObjectAttributes(&attributes, &name, OBJ_KERNEL_HANDLE, NULL, NULL);
    WDM_CHECK(ZwCreateFile(&handle, FILE_READ_DATA, &attributes, &iosb, NULL, 0, 0, FILE_OPEN, 0, NULL, 0) == STATUS_SUCCESS);
    WDM_CHECK(ZwCreateFile(&other, FILE_READ_DATA, &attributes, &iosb, NULL, 0, 0, FILE_OPEN, 0, NULL, 0) ==
              STATUS_ACCESS_DENIED);
    if (WRONG == 4)
        ZwClose(other); /* told 4: NotOpen */
    WDM_CHECK(ObReferenceObjectByHandle(handle, 0, *IoFileObjectType, KernelMode, (PVOID *)&file, NULL) == STATUS_SUCCESS);
    ZwClose(handle);
    WDM_CHECK(closes == before && file->DeviceObject->ReferenceCount == 1);
    if (WRONG != 5)
        ObDereferenceObject(file);
    WDM_CHECK(closes == before + 1); /* told 5: Check */
}

int main(void)
{
    PDRIVER_OBJECT driver = WdmLoadDriver("files", Entry);
    UseTwoHandles(driver->DeviceObject->NextDevice);
    WDM_CHECK(WdmControl(driver->DeviceObject->NextDevice, LOOK, sizeof(ULONG)) == STATUS_SUCCESS);
    OpenByName();
    WdmUnloadDriver(driver);
    return WdmFinish();
}
