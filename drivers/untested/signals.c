/* signals.c: a driver that sets a program's event, whose handle a control hands over. BUG names a mistake: 1, it takes an object of
   any type; 2, it doesn't look whether it got one; 3, it keeps the event that was there before; 4, it takes it in a work item. PACKED:
   the handle stands at a place where no compiler would put it. */
#include <wdm.h>

#ifndef BUG
#define BUG 0
#endif
#define IOCTL_SIGNALS_REGISTER CTL_CODE(FILE_DEVICE_UNKNOWN, 0x950, METHOD_BUFFERED, FILE_ANY_ACCESS)
#define IOCTL_SIGNALS_RAISE CTL_CODE(FILE_DEVICE_UNKNOWN, 0x951, METHOD_BUFFERED, FILE_ANY_ACCESS)
#ifdef PACKED
#include <pshpack1.h>
#endif
typedef struct { ULONG Flags; HANDLE Event; } REGISTER, *PREGISTER;
#ifdef PACKED
#include <poppack.h>
#endif

static FAST_MUTEX lock; /* guards the event */
static PKEVENT event;

static NTSTATUS Complete(PIRP Irp, NTSTATUS Status)
{
    Irp->IoStatus.Status = Status;
    Irp->IoStatus.Information = 0;
    IoCompleteRequest(Irp, IO_NO_INCREMENT);
    return Status;
}

/* In place of the one before. */
static VOID Put(PKEVENT Event)
{
    PKEVENT before;
    ExAcquireFastMutex(&lock);
    before = event;
    event = Event;
    ExReleaseFastMutex(&lock);
    if (before && BUG != 3)
        ObDereferenceObject(before);
}

static NTSTATUS Take(const REGISTER *Given)
{
    PKEVENT taken = NULL;
    NTSTATUS status;
    POBJECT_TYPE type = BUG == 1 ? NULL : *ExEventObjectType;
    status = ObReferenceObjectByHandle(Given->Event, EVENT_MODIFY_STATE, type, UserMode, (PVOID *)&taken, NULL); /* told: HandleType */
    if (BUG == 2)
        KeClearEvent(taken);
    if (NT_SUCCESS(status))
        Put(taken);
    return status;
}

typedef struct { PIO_WORKITEM Item; PIRP Irp; } LATER, *PLATER;

static VOID TakeLater(PDEVICE_OBJECT DeviceObject, PVOID Context)
{
    LATER later = *(PLATER)Context;
    UNREFERENCED_PARAMETER(DeviceObject);
    IoFreeWorkItem(later.Item);
    ExFreePoolWithTag(Context, 'ngiS');
    Complete(later.Irp, Take(later.Irp->AssociatedIrp.SystemBuffer));
}

static NTSTATUS Register(PDEVICE_OBJECT DeviceObject, PIRP Irp)
{
    PLATER later;
    if (IoGetCurrentIrpStackLocation(Irp)->Parameters.DeviceIoControl.InputBufferLength != sizeof(REGISTER))
        return Complete(Irp, STATUS_INFO_LENGTH_MISMATCH);
    if (BUG != 4)
        return Complete(Irp, Take(Irp->AssociatedIrp.SystemBuffer));
    later = ExAllocatePoolWithTag(NonPagedPool, sizeof *later, 'ngiS');
    later->Item = IoAllocateWorkItem(DeviceObject);
    later->Irp = Irp;
    IoMarkIrpPending(Irp);
    IoQueueWorkItem(later->Item, TakeLater, DelayedWorkQueue, later);
    return STATUS_PENDING;
}

static NTSTATUS Control(PDEVICE_OBJECT DeviceObject, PIRP Irp)
{
    switch (IoGetCurrentIrpStackLocation(Irp)->Parameters.DeviceIoControl.IoControlCode) {
    case IOCTL_SIGNALS_REGISTER:
        return Register(DeviceObject, Irp);
    case IOCTL_SIGNALS_RAISE:
        ExAcquireFastMutex(&lock);
        if (event)
            KeSetEvent(event, IO_NO_INCREMENT, FALSE);
        ExReleaseFastMutex(&lock);
        return Complete(Irp, STATUS_SUCCESS);
    default:
        return Complete(Irp, STATUS_INVALID_DEVICE_REQUEST);
    }
}

static NTSTATUS CreateClose(PDEVICE_OBJECT DeviceObject, PIRP Irp)
{
    UNREFERENCED_PARAMETER(DeviceObject);
    if (IoGetCurrentIrpStackLocation(Irp)->MajorFunction == IRP_MJ_CLEANUP)
        Put(NULL);
    return Complete(Irp, STATUS_SUCCESS);
}

static VOID Unload(PDRIVER_OBJECT DriverObject)
{
    Put(NULL);
    IoDeleteDevice(DriverObject->DeviceObject);
}

NTSTATUS DriverEntry(PDRIVER_OBJECT DriverObject, PUNICODE_STRING RegistryPath)
{
    PDEVICE_OBJECT device;
    UNREFERENCED_PARAMETER(RegistryPath);
    ExInitializeFastMutex(&lock);
    DriverObject->MajorFunction[IRP_MJ_CREATE] = CreateClose;
    DriverObject->MajorFunction[IRP_MJ_CLEANUP] = DriverObject->MajorFunction[IRP_MJ_CLOSE] = CreateClose;
    DriverObject->MajorFunction[IRP_MJ_DEVICE_CONTROL] = Control;
    DriverObject->DriverUnload = Unload;
    return IoCreateDevice(DriverObject, 0, NULL, FILE_DEVICE_UNKNOWN, 0, FALSE, &device);
}
