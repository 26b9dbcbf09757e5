/* driver.c: the driver whose dispatch runs a case. Its control code is the case's number; its input says whether the
   case is to be wrong. */
#include "rules.h"

static const CASE_ROW *const tables[] = { LockCases, LevelCases, PoolCases, PacketCases, ObjectCases, PowerCases };

VOID UsesAfterwards(PEXTENSION Ext);
CASE HasNone;
BOOLEAN KeepsFlag; /* set before the device is added */

/* Returns the name of the n-th case, or NULL. */
const char *RulesName(ULONG n);
static const CASE_ROW *Find(ULONG n)
{
    for (ULONG t = 0; t < ARRAYSIZE(tables); t++)
        for (const CASE_ROW *row = tables[t]; row->Name; row++)
            if (n-- == 0)
                return row;
    return NULL;
}

/* For what a test sends beside its controls. */
VOID RulesSetPnp(PEXTENSION Ext, ULONG n)
{
    Ext->Pnp = Find(n)->Pnp;
    Ext->Power = Find(n)->Power;
    if (Ext->Wrong && Ext->Power == HasNone)
        Ext->Self->DriverObject->MajorFunction[IRP_MJ_POWER] = NULL;
}

const char *RulesName(ULONG n)
{
    const CASE_ROW *row = Find(n);
    return row ? row->Name : NULL;
}

NTSTATUS Done(PIRP Irp)
{
    Irp->IoStatus.Status = STATUS_SUCCESS;
    Irp->IoStatus.Information = 0;
    IoCompleteRequest(Irp, IO_NO_INCREMENT);
    return STATUS_SUCCESS;
}

NTSTATUS PassDown(PEXTENSION Ext, PIRP Irp)
{
    IoSkipCurrentIrpStackLocation(Irp);
    return IoCallDriver(Ext->Lower, Irp);
}

/* Runs a thread of the driver's, and waits until it is over. */
VOID RunThread(PEXTENSION Ext, PKSTART_ROUTINE Routine)
{
    HANDLE handle;
    PVOID thread;
    if (!NT_SUCCESS(PsCreateSystemThread(&handle, THREAD_ALL_ACCESS, NULL, NULL, NULL, Routine, Ext)))
        return;
    ObReferenceObjectByHandle(handle, THREAD_ALL_ACCESS, NULL, KernelMode, &thread, NULL);
    ZwClose(handle);
    KeWaitForSingleObject(thread, Executive, KernelMode, FALSE, NULL);
    ObDereferenceObject(thread);
}

static NTSTATUS Control(PDEVICE_OBJECT DeviceObject, PIRP Irp)
{
    PEXTENSION ext = DeviceObject->DeviceExtension;
    const CASE_ROW *row = Find(IoGetCurrentIrpStackLocation(Irp)->Parameters.DeviceIoControl.IoControlCode >> 2);
    return row && row->Run ? row->Run(ext, Irp, ext->Wrong) : Done(Irp);
}

static NTSTATUS Pass(PDEVICE_OBJECT DeviceObject, PIRP Irp) { return PassDown(DeviceObject->DeviceExtension, Irp); }

static NTSTATUS Power(PDEVICE_OBJECT DeviceObject, PIRP Irp)
{
    PEXTENSION ext = DeviceObject->DeviceExtension;
    return ext->Power ? ext->Power(ext, Irp, ext->Wrong) : PassDown(ext, Irp);
}

static NTSTATUS Pnp(PDEVICE_OBJECT DeviceObject, PIRP Irp)
{
    PEXTENSION ext = DeviceObject->DeviceExtension;
    const UCHAR minor = IoGetCurrentIrpStackLocation(Irp)->MinorFunction;
    if (ext->Pnp && (minor != IRP_MN_REMOVE_DEVICE || (ext->Wrong && !ext->Step)))
        return ext->Pnp(ext, Irp, ext->Wrong);
    if (minor == IRP_MN_REMOVE_DEVICE && NT_SUCCESS(IoAcquireRemoveLock(&ext->RemoveLock, Irp)))
        IoReleaseRemoveLockAndWait(&ext->RemoveLock, Irp);
    NTSTATUS status = PassDown(ext, Irp);
    if (minor == IRP_MN_REMOVE_DEVICE) {
        IoDetachDevice(ext->Lower);
        IoDeleteDevice(DeviceObject); /* told: TimerInFreedMemory_Device */
        UsesAfterwards(ext);
    }
    return status;
}

static VOID Unload(PDRIVER_OBJECT DriverObject) { UNREFERENCED_PARAMETER(DriverObject); }

static NTSTATUS AddDevice(PDRIVER_OBJECT DriverObject, PDEVICE_OBJECT Pdo)
{
    const ULONG size = sizeof(EXTENSION), type = FILE_DEVICE_UNKNOWN;
    PDEVICE_OBJECT device;
    NTSTATUS status = IoCreateDevice(DriverObject, size, NULL, type, 0, FALSE, &device); /* told: NotPassedDown_None */ /* told: StillInitializing */
    if (!NT_SUCCESS(status))
        return status;
    PEXTENSION ext = device->DeviceExtension;
    ext->Self = device;
    KeInitializeSpinLock(&ext->Lock);
    KeInitializeSpinLock(&ext->Other);
    KeInitializeSpinLock(&ext->Gate);
    ExInitializeFastMutex(&ext->Mutex);
    KeInitializeEvent(&ext->Event, NotificationEvent, FALSE);
    KeInitializeTimer(&ext->Timer);
    KeInitializeMutex(&ext->Plain, 0);
    IoInitializeRemoveLock(&ext->RemoveLock, 'kcoL', 0, 0);
    ext->Lower = IoAttachDeviceToDeviceStack(device, Pdo);
    if (!KeepsFlag)
        device->Flags &= ~(ULONG)DO_DEVICE_INITIALIZING;
    return STATUS_SUCCESS;
}

NTSTATUS DriverEntry(PDRIVER_OBJECT DriverObject, PUNICODE_STRING RegistryPath)
{
    UNREFERENCED_PARAMETER(RegistryPath);
    for (int i = 0; i <= IRP_MJ_MAXIMUM_FUNCTION; i++)
        DriverObject->MajorFunction[i] = Pass;
    DriverObject->MajorFunction[IRP_MJ_DEVICE_CONTROL] = Control;
    DriverObject->MajorFunction[IRP_MJ_PNP] = Pnp;
    DriverObject->MajorFunction[IRP_MJ_POWER] = Power;
    DriverObject->DriverExtension->AddDevice = AddDevice;
    DriverObject->DriverUnload = Unload;
    return STATUS_SUCCESS;
}
