/* bottom.c: a bottom device of the host's own, as WdmCreateBottom says. It is written as a driver. */
#include <wdm.h>
#include "test/bottom_answers.h"
#include "wdm_test.h"

typedef struct {
    PDEVICE_OBJECT Self;
    ULONG Style, Failures;
    LONG Pended; /* that it hasn't completed */
    IO_CSQ Queue;
    LIST_ENTRY Waiting;
    KSPIN_LOCK Lock;
} BOTTOM, *PBOTTOM;

static VOID Insert(PIO_CSQ Csq, PIRP Irp)
{
    InsertTailList(&CONTAINING_RECORD(Csq, BOTTOM, Queue)->Waiting, &Irp->Tail.Overlay.ListEntry);
}

static VOID Remove(PIO_CSQ Csq, PIRP Irp)
{
    UNREFERENCED_PARAMETER(Csq);
    RemoveEntryList(&Irp->Tail.Overlay.ListEntry);
}

static PIRP PeekNext(PIO_CSQ Csq, PIRP Irp, PVOID Context)
{
    PLIST_ENTRY head = &CONTAINING_RECORD(Csq, BOTTOM, Queue)->Waiting;
    PLIST_ENTRY next = Irp ? Irp->Tail.Overlay.ListEntry.Flink : head->Flink;
    UNREFERENCED_PARAMETER(Context);
    return next == head ? NULL : CONTAINING_RECORD(next, IRP, Tail.Overlay.ListEntry);
}

static VOID Acquire(PIO_CSQ Csq, PKIRQL Irql) { KeAcquireSpinLock(&CONTAINING_RECORD(Csq, BOTTOM, Queue)->Lock, Irql); }
static VOID Release(PIO_CSQ Csq, KIRQL Irql) { KeReleaseSpinLock(&CONTAINING_RECORD(Csq, BOTTOM, Queue)->Lock, Irql); }

static NTSTATUS Complete(PIRP Irp, NTSTATUS Status, ULONG_PTR Information)
{
    Irp->IoStatus.Status = Status;
    Irp->IoStatus.Information = Information;
    IoCompleteRequest(Irp, IO_NO_INCREMENT);
    return Status;
}

static VOID CompleteCanceled(PIO_CSQ Csq, PIRP Irp)
{
    Complete(Irp, STATUS_CANCELLED, 0);
    __atomic_sub_fetch(&CONTAINING_RECORD(Csq, BOTTOM, Queue)->Pended, 1, __ATOMIC_SEQ_CST);
}

static ULONG LengthOf(PIRP Irp)
{
    PIO_STACK_LOCATION stack = IoGetCurrentIrpStackLocation(Irp);
    switch (stack->MajorFunction) {
    case IRP_MJ_READ:
    case IRP_MJ_WRITE: return stack->Parameters.Read.Length;
    case IRP_MJ_DEVICE_CONTROL:
    case IRP_MJ_INTERNAL_DEVICE_CONTROL: return stack->Parameters.DeviceIoControl.OutputBufferLength;
    default: return 0;
    }
}

static VOID CompleteLater(PDEVICE_OBJECT DeviceObject, PVOID Context)
{
    PBOTTOM ext = DeviceObject->DeviceExtension;
    LARGE_INTEGER moment = { .QuadPart = -10000 };
    KeDelayExecutionThread(KernelMode, FALSE, &moment);
    PIRP irp = IoCsqRemoveNextIrp(&ext->Queue, NULL);
    if (irp) {
        IoCompleteRequest(irp, IO_NO_INCREMENT); /* with what stands in its IoStatus */
        __atomic_sub_fetch(&ext->Pended, 1, __ATOMIC_SEQ_CST);
    }
    IoFreeWorkItem(Context);
}

/* Completes it with this status: at once, or later. */
static NTSTATUS End(PDEVICE_OBJECT DeviceObject, PIRP Irp, BOOLEAN Late, NTSTATUS Status, ULONG_PTR Information)
{
    PBOTTOM ext = DeviceObject->DeviceExtension;
    if (!Late)
        return Complete(Irp, Status, Information);
    PIO_WORKITEM item = IoAllocateWorkItem(DeviceObject);
    if (!item)
        return Complete(Irp, STATUS_INSUFFICIENT_RESOURCES, 0);
    Irp->IoStatus.Status = Status;
    Irp->IoStatus.Information = Information;
    __atomic_add_fetch(&ext->Pended, 1, __ATOMIC_SEQ_CST);
    IoCsqInsertIrp(&ext->Queue, Irp, NULL);
    IoQueueWorkItem(item, CompleteLater, DelayedWorkQueue, item);
    return STATUS_PENDING;
}

static BOOLEAN IsTransfer(UCHAR Major)
{
    return Major == IRP_MJ_READ || Major == IRP_MJ_WRITE || Major == IRP_MJ_DEVICE_CONTROL;
}

/* One that fails does so at once and later in turn, and lets files be opened and closed. */
static NTSTATUS Any(PDEVICE_OBJECT DeviceObject, PIRP Irp)
{
    PBOTTOM ext = DeviceObject->DeviceExtension;
    const UCHAR major = IoGetCurrentIrpStackLocation(Irp)->MajorFunction;
    const BOOLEAN fails = (ext->Style & WDM_BOTTOM_FAILS) && major != IRP_MJ_CREATE && major != IRP_MJ_CLEANUP &&
        major != IRP_MJ_CLOSE;
    if (fails)
        return End(DeviceObject, Irp, ext->Failures++ & 1, STATUS_IO_DEVICE_ERROR, 0);
    return End(DeviceObject, Irp, (ext->Style & WDM_BOTTOM_LATE) && IsTransfer(major), STATUS_SUCCESS, LengthOf(Irp));
}

/* What a bus knows of power: the device works where the system does, and is off where it doesn't. */
static VOID FillPowerStates(PDEVICE_CAPABILITIES Capabilities)
{
    if (!Capabilities)
        return;
    for (int i = PowerSystemUnspecified; i < POWER_SYSTEM_MAXIMUM; i++)
        Capabilities->DeviceState[i] = i == PowerSystemUnspecified ? PowerDeviceUnspecified :
            i == PowerSystemWorking ? PowerDeviceD0 : PowerDeviceD3;
}

VOID (*at_removal)(VOID);
BOOLEAN refuses_usage;
ULONG n_usages_refused;

/* The device goes at once, whatever else is pended. */
static NTSTATUS Pnp(PDEVICE_OBJECT DeviceObject, PIRP Irp)
{
    PBOTTOM ext = DeviceObject->DeviceExtension;
    const UCHAR minor = IoGetCurrentIrpStackLocation(Irp)->MinorFunction;
    const BOOLEAN done = minor <= IRP_MN_CANCEL_STOP_DEVICE || minor == IRP_MN_QUERY_CAPABILITIES ||
        minor == IRP_MN_SURPRISE_REMOVAL || minor == IRP_MN_DEVICE_USAGE_NOTIFICATION;
    const BOOLEAN refuses = refuses_usage && minor == IRP_MN_DEVICE_USAGE_NOTIFICATION;
    const BOOLEAN fails = refuses || ((ext->Style & WDM_BOTTOM_NO_START) && minor == IRP_MN_START_DEVICE);
    n_usages_refused += refuses;
    if (minor == IRP_MN_REMOVE_DEVICE && at_removal)
        at_removal();
    if (minor == IRP_MN_QUERY_CAPABILITIES)
        FillPowerStates(IoGetCurrentIrpStackLocation(Irp)->Parameters.DeviceCapabilities.Capabilities);
    const NTSTATUS status = fails ? STATUS_UNSUCCESSFUL : done ? STATUS_SUCCESS : BottomAnswer(DeviceObject, Irp);
    return End(DeviceObject, Irp, (ext->Style & WDM_BOTTOM_PENDS_ALL) && minor != IRP_MN_REMOVE_DEVICE, status,
               Irp->IoStatus.Information);
}

static NTSTATUS Power(PDEVICE_OBJECT DeviceObject, PIRP Irp)
{
    PBOTTOM ext = DeviceObject->DeviceExtension;
    const BOOLEAN fails = (ext->Style & WDM_BOTTOM_FAILS) &&
        IoGetCurrentIrpStackLocation(Irp)->MinorFunction == IRP_MN_QUERY_POWER;
    return End(DeviceObject, Irp, (ext->Style & WDM_BOTTOM_PENDS_ALL) != 0,
               fails ? STATUS_UNSUCCESSFUL : STATUS_SUCCESS, 0);
}

static NTSTATUS SystemControl(PDEVICE_OBJECT DeviceObject, PIRP Irp)
{
    UNREFERENCED_PARAMETER(DeviceObject);
    return Complete(Irp, Irp->IoStatus.Status, Irp->IoStatus.Information);
}

static NTSTATUS BottomEntry(PDRIVER_OBJECT DriverObject, PUNICODE_STRING RegistryPath)
{
    UNREFERENCED_PARAMETER(RegistryPath);
    for (int i = 0; i <= IRP_MJ_MAXIMUM_FUNCTION; i++)
        DriverObject->MajorFunction[i] = Any;
    DriverObject->MajorFunction[IRP_MJ_PNP] = Pnp;
    DriverObject->MajorFunction[IRP_MJ_POWER] = Power;
    DriverObject->MajorFunction[IRP_MJ_SYSTEM_CONTROL] = SystemControl;
    return STATUS_SUCCESS;
}

static PDRIVER_OBJECT driver;

bool is_bottom(PDEVICE_OBJECT device);
bool is_bottom(PDEVICE_OBJECT device) { return driver && device->DriverObject == driver; }

BOOLEAN bottom_holds(PDEVICE_OBJECT device)
{
    return __atomic_load_n(&((PBOTTOM)device->DeviceExtension)->Pended, __ATOMIC_SEQ_CST) > 0;
}

PDEVICE_OBJECT WdmCreateBottom(BOOLEAN Late) { return WdmCreateBottomOf(Late ? WDM_BOTTOM_LATE : 0); }

PDEVICE_OBJECT WdmCreateBottomOf(ULONG Style)
{
    PDEVICE_OBJECT device = NULL;
    if (!driver)
        driver = WdmLoadDriver("bottom", BottomEntry);
    if (!NT_SUCCESS(IoCreateDevice(driver, sizeof(BOTTOM), NULL, FILE_DEVICE_BUS_EXTENDER, 0, FALSE, &device)))
        return NULL;
    PBOTTOM ext = device->DeviceExtension;
    ext->Self = device;
    ext->Style = Style;
    KeInitializeSpinLock(&ext->Lock);
    InitializeListHead(&ext->Waiting);
    IoCsqInitialize(&ext->Queue, Insert, Remove, PeekNext, Acquire, Release, CompleteCanceled);
    device->Flags |= DO_BUFFERED_IO; /* which a filter copies */
    device->Flags &= ~(ULONG)DO_DEVICE_INITIALIZING;
    return device;
}
